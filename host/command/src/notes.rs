//! What the command can tell beside a refusal of what is lent; the model's answer has the number alone.

use crate::lent::Lent;
use crate::quote::printable;
use crate::transfer;
use crate::{Case, End, Followed, ImageName, MemoryName};
use st9::{Channel, Refusal};

/// What is wrong with the image, the channel list or the memory of a case.
pub fn note(refusal: Refusal, case: &Case, lent: &Lent) -> Option<String> {
    match refusal {
        Refusal::ImageLength => {
            let length = lent.image.len();
            let (image, line) = &case.image;
            let name = match image {
                ImageName::File(name) => printable(name.as_bytes()),
                made => made.to_string(),
            };
            Some(format!("the image {name} (line {line}) has {length} bytes"))
        }
        Refusal::ChannelList => list(case),
        Refusal::Memory => {
            let (memory, line) = case.memory.as_ref()?;
            let name = match memory {
                MemoryName::File(name) => format!(" {}", printable(name.as_bytes())),
                MemoryName::Zero { .. } => String::new(),
            };
            let length = lent.memory.len();
            Some(format!("the memory{name} (line {line}) has {length} bytes"))
        }
        _ => None,
    }
}

/// The address or the pointer of a transfer that was refused, by what the steps before it left.
pub fn transfer_note(refusal: Refusal, case: &Case, left: &Lent) -> Option<String> {
    transfer::refused(refusal, left, &case.channels, &case.names)
}

/// What can be told of the refusal that ended a case, at a step of its transfer too. A call is refused on a copy.
pub fn end_note(followed: &Followed, case: &Case) -> Option<String> {
    let (refusal, left) = (followed.end.refusal()?, &followed.left);
    let transfer = || match followed.end {
        End::Step { .. } => transfer_note(refusal, case, left),
        _ => None,
    };
    note(refusal, case, left).or_else(transfer)
}

/// The first rule that the list breaks, by its records in order.
fn list(case: &Case) -> Option<String> {
    let records = case.channels.iter().zip(&case.channel_lines).enumerate();
    let line = |record: usize| case.channel_lines.get(record).copied().unwrap_or_default();
    for (record, (channel, its_line)) in records {
        let title = format!("channel {record} (line {its_line})");
        if record == st9::MOST_CHANNELS {
            return Some(format!("{title} is one record too many: a list has at most twelve"));
        }
        if let Some(problem) = out_of_range(channel) {
            return Some(format!("{title}: {problem}"));
        }
        let pairs = registers(channel).map(|(_, number)| (channel.page, number));
        for (position, pair) in pairs.iter().enumerate() {
            let twice = |page: u8, number: u8| format!("R{number} of page {page} stands twice");
            if pairs[..position].contains(pair) {
                return Some(format!("{title}: {}", twice(pair.0, pair.1)));
            }
            let earlier = case.channels[..record].iter().position(|other| {
                registers(other).iter().any(|(_, number)| (other.page, *number) == *pair)
            });
            if let Some(other) = earlier {
                let twice = twice(pair.0, pair.1);
                return Some(format!(
                    "{title}: {twice}, first in channel {other} (line {})",
                    line(other)
                ));
            }
        }
    }
    None
}

fn out_of_range(channel: &Channel) -> Option<String> {
    if !(1..=63).contains(&channel.page) {
        return Some(format!("page {}, where 1 to 63 are allowed", channel.page));
    }
    let bad = registers(channel).into_iter().find(|(_, number)| *number < 240);
    if let Some((name, number)) = bad {
        return Some(format!("{name} {number}, where 240 to 255 are allowed"));
    }
    let direction = channel.direction;
    (direction > 1).then(|| format!("direction {direction}, where 0 and 1 are allowed"))
}

fn registers(channel: &Channel) -> [(&'static str, u8); 5] {
    let Channel { idcr, ivr, dcpr, dapr, data, .. } = *channel;
    [("idcr", idcr), ("ivr", ivr), ("dcpr", dcpr), ("dapr", dapr), ("data", data)]
}
