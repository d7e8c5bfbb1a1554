//! Bytes as a message shows them.

/// The bytes as text, cut with `..` where there are more than `most`.
///
/// What can be printed stays as it is. Backtick, backslash and every other byte are escaped, so that the
/// message stays on its line, and within backticks it is clear where the text ends.
///
/// ```
/// use sirgholyn::shown::shown;
/// assert_eq!(shown("täler.cnf".as_bytes(), 40), "täler.cnf");
/// assert_eq!(shown(b"1\t\x1b[0m \xff\r\n", 40), r"1\t\x1b[0m \xff\r\n");
/// assert_eq!(shown(b"123456789", 8), "12345678..");
/// ```
pub fn shown(bytes: &[u8], most: usize) -> String {
    let kept = &bytes[..cut(bytes, most)];
    let mut text = String::new();
    for chunk in kept.utf8_chunks() {
        chunk.valid().chars().for_each(|c| push(&mut text, c));
        push_escaped(&mut text, chunk.invalid());
    }
    if kept.len() < bytes.len() {
        text.push_str("..");
    }
    text
}

/// After `most` bytes, or before the character that stands across that place.
fn cut(bytes: &[u8], most: usize) -> usize {
    if bytes.len() <= most {
        return bytes.len();
    }
    let inside = |at: usize| bytes[at] & 0xC0 == 0x80;
    let mut places = (most.saturating_sub(3)..=most).rev();
    places.find(|&at| !inside(at)).unwrap_or(most)
}

fn push(text: &mut String, c: char) {
    match c {
        '\n' => text.push_str(r"\n"),
        '\r' => text.push_str(r"\r"),
        '\t' => text.push_str(r"\t"),
        _ if is_plain(c) => text.push(c),
        _ => push_escaped(text, c.encode_utf8(&mut [0; 4]).as_bytes()),
    }
}

fn push_escaped(text: &mut String, bytes: &[u8]) {
    for byte in bytes {
        text.push_str(&format!(r"\x{byte:02x}"));
    }
}

/// Whether a character is shown as it is. Beyond ASCII the standard library knows what can be printed; a
/// combining mark can be printed after a letter.
fn is_plain(c: char) -> bool {
    match c {
        '`' | '\\' => false,
        '\0'..='\x7f' => matches!(c, ' '..='~'),
        _ => ['a', c].iter().collect::<String>().escape_debug().count() == 2,
    }
}

#[cfg(test)]
mod tests {
    use super::shown;

    #[test]
    fn rows() {
        let rows: [(&[u8], &str); 12] = [
            (b"", ""),
            (b"d 1 -2 0", "d 1 -2 0"),
            (b"\"'~!", "\"'~!"),
            (b"a`b\\c", r"a\x60b\x5cc"),
            (b"\0\x01\x1f\x7f", r"\x00\x01\x1f\x7f"),
            (b"\xc3(\xe2\x82", r"\xc3(\xe2\x82"),
            ("日本 ä€".as_bytes(), "日本 ä€"),
            ("ta\u{308}ler".as_bytes(), "ta\u{308}ler"),
            ("\u{85}".as_bytes(), r"\xc2\x85"),
            ("a\u{202e}b".as_bytes(), r"a\xe2\x80\xaeb"),
            ("a\u{a0}b\u{2028}".as_bytes(), r"a\xc2\xa0b\xe2\x80\xa8"),
            (&[b'7'; 40], "7777777777777777777777777777777777777777"),
        ];
        for (bytes, text) in rows {
            assert_eq!(shown(bytes, 40), text);
        }
    }

    #[test]
    fn cut_between_characters() {
        let text = "aä€😀b".as_bytes();
        let cuts = [
            (0, ".."),
            (1, "a.."),
            (2, "a.."),
            (3, "aä.."),
            (5, "aä.."),
            (6, "aä€.."),
            (9, "aä€.."),
            (10, "aä€😀.."),
            (11, "aä€😀b"),
        ];
        for (most, cut) in cuts {
            assert_eq!(shown(text, most), cut);
        }
        assert_eq!(shown(&[0x80; 9], 4), r"\x80\x80\x80\x80..");
        assert_eq!(shown(&[b'1'; 5], usize::MAX), "11111");
    }
}
