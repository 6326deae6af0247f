//! Words of a file or of the command line in messages.

use std::fmt::Write;

/// A word between single quotes; what cannot be printed stands as `\x00`.
pub fn quoted(word: &[u8]) -> String {
    format!("'{}'", printable(word))
}

/// The same, cut where it is long; `nothing` where it is empty.
pub(crate) fn quoted_start(word: &[u8]) -> String {
    const MOST: usize = 40;
    if word.is_empty() {
        return "nothing".to_string();
    }
    let more = if word.len() > MOST { ".." } else { "" };
    format!("{}{more}", quoted(&word[..word.len().min(MOST)]))
}

/// The text of bytes: characters that can be printed as they are, every other byte as `\x00`.
pub fn printable(bytes: &[u8]) -> String {
    let mut text = String::new();
    for chunk in bytes.utf8_chunks() {
        for character in chunk.valid().chars() {
            if character.is_control() {
                let mut encoded = [0; 4];
                escape(&mut text, character.encode_utf8(&mut encoded).as_bytes());
            } else {
                text.push(character);
            }
        }
        escape(&mut text, chunk.invalid());
    }
    text
}

fn escape(text: &mut String, bytes: &[u8]) {
    for byte in bytes {
        let _ = write!(text, "\\x{byte:02x}");
    }
}

#[cfg(test)]
mod tests {
    use super::*;

    #[test]
    fn forms() {
        assert_eq!(quoted(b"\"a b"), "'\"a b'");
        assert_eq!(quoted("é\0\u{85}".as_bytes()), "'é\\x00\\xc2\\x85'");
        assert_eq!(quoted(b"\xFFa\xC3"), "'\\xffa\\xc3'");
        assert_eq!(quoted_start(b""), "nothing");
        assert_eq!(quoted_start(&[b'x'; 41]), format!("'{}'..", "x".repeat(40)));
    }
}
