//! Any image, any channel list, any memory, any word: an answer, no panic, and a refusal that changes nothing.

mod inputs;

use inputs::{Asked, Random};
use st9::{Bound, Channel, Done, Premise, Refusal, RunError, Source, Step, Wait, WaitError};

/// The steps one by one, as a run is said to do them.
fn one_by_one(
    image: &mut [u8],
    channels: &[Channel],
    memory: &mut [u8],
    words: &[u64],
) -> Result<Done, RunError> {
    st9::run(image, channels, memory, &[])?;
    let mut last = None;
    for (index, word) in words.iter().enumerate() {
        let before = (image.to_vec(), memory.to_vec());
        match st9::step(image, channels, memory, Step::Word(*word)) {
            Ok(answer) => last = Some(answer),
            Err(refusal) => {
                assert_eq!(image, before.0, "a refused step changed the image");
                assert!(memory == before.1, "a refused step changed the memory");
                return Err(RunError::Step { refusal, index });
            }
        }
    }
    Ok(Done { steps: words.len(), last })
}

#[test]
fn a_run_is_its_steps_one_by_one() {
    let mut random = Random(0x0092_0150);
    let (mut refused, mut filled) = ([0; 9], 0);
    for _ in 0..20_000 {
        let start = random.image();
        let (channels, memory, words) = (random.channels(), random.memory(), random.words());
        let (mut whole, mut single) = ((start.clone(), memory.clone()), (start, memory.clone()));
        let done = st9::words::run(&mut whole.0, &channels, &mut whole.1, &words);
        assert_eq!(done, one_by_one(&mut single.0, &channels, &mut single.1, &words));
        assert!(whole == single);
        filled += u32::from(whole.1 != memory);
        if let Err(RunError::Call(refusal) | RunError::Step { refusal, .. }) = done {
            refused[refusal.number() as usize] += 1;
        }
    }
    assert!(refused[1..].iter().all(|count| *count > 0), "{refused:?}");
    assert!(filled > 100, "{filled}");
}

#[test]
fn a_wait_keeps_to_its_bounds() {
    let mut random = Random(0x0092_0250);
    let (mut within, mut by_handlers, mut changed) = (0, 0, 0);
    for _ in 0..80_000 {
        let Asked { mut image, channels, mut memory, source, words } = random.asked();
        // The bounds take no memory: one that a wait refuses is nothing to them.
        memory.truncate(st9::MOST_MEMORY);
        let before = image.clone();
        let demand = st9::words::bound(&image, &channels, source, &words);
        let handlers = st9::words::handler_bound(&image, &channels, source, &words);
        assert_eq!(image, before);
        let waited = st9::words::wait(&mut image, &channels, &mut memory, source, &words);
        within += u64::from(is_kept(demand, waited));
        by_handlers += u64::from(is_kept(handlers, waited) && !is_kept(demand, waited));
        changed += u64::from(
            matches!(handlers, Ok(Bound::Fails(Premise::Changed { index, .. })) if index < words.len()),
        );
    }
    let met = [within, by_handlers, changed];
    assert!(met.iter().all(|count| *count > 100), "{met:?}");
}

/// Whether a bound was answered; the wait report is within it, and refused where it is.
fn is_kept(bound: Result<Bound, Refusal>, waited: Result<Wait, WaitError>) -> bool {
    match (bound, waited) {
        (Err(refusal), Err(WaitError::Call(same))) => assert_eq!(refusal, same),
        (Err(_), _) | (_, Err(WaitError::Call(_))) => panic!("{bound:?}, {waited:?}"),
        (Ok(Bound::Within { outranking, triggers, bound }), _) => {
            assert_eq!(bound, outranking + triggers + 1);
            match waited {
                Ok(Wait::Acknowledged { arbitrations }) => assert!(arbitrations <= bound),
                Ok(Wait::Ended { arbitrations }) | Err(WaitError::Step { arbitrations, .. }) => {
                    assert!(arbitrations < bound)
                }
                Err(WaitError::Call(_)) => unreachable!(),
            }
            return true;
        }
        (Ok(Bound::Fails(_)), _) => {}
    }
    false
}

/// Steps are answered as their words are, whatever stands in the parts of a word that its step does not use.
#[test]
fn steps_or_their_words() {
    let mut random = Random(0x0092_0350);
    for _ in 0..20_000 {
        let Asked { image, channels, memory, source, words } = random.asked();
        let steps: Vec<_> = words.iter().map(|word| Step::of_word(*word)).collect();

        let lent = || (image.clone(), memory.clone());
        let (mut one, mut other) = (lent(), lent());
        let done = st9::run(&mut one.0, &channels, &mut one.1, &steps);
        assert_eq!(done, st9::words::run(&mut other.0, &channels, &mut other.1, &words));
        assert!(one == other);

        let (mut one, mut other) = (lent(), lent());
        let waited = st9::wait(&mut one.0, &channels, &mut one.1, source, &steps);
        let by_words = st9::words::wait(&mut other.0, &channels, &mut other.1, source, &words);
        assert_eq!(waited, by_words);
        assert!(one == other);

        let demand = st9::bound(&image, &channels, source, &steps);
        assert_eq!(demand, st9::words::bound(&image, &channels, source, &words));
        let handlers = st9::handler_bound(&image, &channels, source, &steps);
        assert_eq!(handlers, st9::words::handler_bound(&image, &channels, source, &words));
    }
}

#[test]
fn views_are_parts_of_the_image() {
    let mut random = Random(0x0092_0124);
    for _ in 0..2_000 {
        let image = random.image();
        let page = random.below(70) as u32;
        let start = 240 + 16 * page as usize;
        match st9::view(&image, page) {
            Ok(bytes) => assert!(std::ptr::eq(bytes, &image[start..start + 16])),
            Err(Refusal::ImageLength) => assert_ne!(image.len(), st9::IMAGE_LENGTH),
            Err(refusal) => assert!(refusal == Refusal::Register && page > 63),
        }
    }
    let image = vec![0; st9::IMAGE_LENGTH];
    assert_eq!(st9::view(&image, u32::MAX), Err(Refusal::Register));
    assert_eq!(st9::view(&[], u32::MAX), Err(Refusal::ImageLength));
}

#[test]
fn nothing_lent() {
    assert_eq!(st9::step(&mut [], &[], &mut [], Step::Arbitrate), Err(Refusal::ImageLength));
    assert_eq!(st9::run(&mut [], &[], &mut [], &[]), Err(RunError::Call(Refusal::ImageLength)));
    let mut image = vec![0; st9::IMAGE_LENGTH];
    assert_eq!(st9::run(&mut image, &[], &mut [], &[]), Ok(Done { steps: 0, last: None }));
    let beyond = Source(u32::MAX);
    let refused = Err(WaitError::Call(Refusal::Number));
    assert_eq!(st9::wait(&mut image, &[], &mut [], beyond, &[]), refused);
    assert_eq!(st9::bound(&image, &[], beyond, &[]), Err(Refusal::Number));
    assert_eq!(st9::handler_bound(&image, &[], beyond, &[]), Err(Refusal::Number));
}

/// A memory that is too long is refused after the image and the list, and before anything else.
#[test]
fn too_much_memory() {
    let mut image = vec![0; st9::IMAGE_LENGTH];
    let mut memory = vec![0; st9::MOST_MEMORY + 1];
    let bad = Channel { page: 0, idcr: 0, ivr: 0, dcpr: 0, dapr: 0, data: 0, direction: 0 };
    let unknown = Step::Word(u64::MAX);
    assert_eq!(st9::step(&mut [], &[], &mut memory, unknown), Err(Refusal::ImageLength));
    assert_eq!(st9::step(&mut image, &[bad], &mut memory, unknown), Err(Refusal::ChannelList));
    assert_eq!(st9::step(&mut image, &[], &mut memory, unknown), Err(Refusal::Memory));
    let refused = RunError::Call(Refusal::Memory);
    assert_eq!(st9::run(&mut image, &[], &mut memory, &[]), Err(refused));
    let refused = WaitError::Call(Refusal::Memory);
    assert_eq!(st9::wait(&mut image, &[], &mut memory, Source(99), &[]), Err(refused));
    memory.pop();
    assert_eq!(st9::step(&mut image, &[], &mut memory, unknown), Err(Refusal::UnknownKind));
}
