//! Numbers as scenarios write them: 151, 97h or 0x97.

/// The number that a word says, if it is one and below 2^64.
pub fn number(word: &[u8]) -> Option<u64> {
    match word {
        [b'0', b'x' | b'X', digits @ ..] => in_base(digits, 16),
        [digits @ .., b'h' | b'H'] => in_base(digits, 16),
        digits => in_base(digits, 10),
    }
}

/// The same below 2^32.
pub fn number_32(word: &[u8]) -> Option<u32> {
    u32::try_from(number(word)?).ok()
}

fn in_base(digits: &[u8], base: u32) -> Option<u64> {
    if digits.is_empty() {
        return None;
    }
    digits.iter().try_fold(0u64, |sum, digit| {
        let digit = char::from(*digit).to_digit(base)?;
        sum.checked_mul(u64::from(base))?.checked_add(u64::from(digit))
    })
}
#[cfg(test)]
mod tests {
    use super::*;

    #[test]
    fn forms() {
        let good: [(&str, u64); 8] = [
            ("0", 0),
            ("097", 97),
            ("97h", 0x97),
            ("fFh", 0xFF),
            ("0X9a", 0x9A),
            ("FFFFFFFFFFFFFFFFh", u64::MAX),
            ("18446744073709551615", u64::MAX),
            ("0000000000000000000000001", 1),
        ];
        for (word, value) in good {
            assert_eq!(number(word.as_bytes()), Some(value), "{word}");
        }
        for word in ["", "h", "0x", "1F", "0x97h", "-1", "+1", "18446744073709551616", "1_0", "R1"]
        {
            assert_eq!(number(word.as_bytes()), None, "{word}");
        }
    }
}
