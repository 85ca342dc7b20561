//! Names and arguments as they are shown.

use std::ffi::OsStr;

/// A name or an argument, fit for a line: what could break the line, move the
/// cursor or turn the reading order is a question mark, and so is each byte that is
/// no UTF-8.
pub fn shown(name: &OsStr) -> String {
    let mut text = String::new();
    for chunk in name.as_encoded_bytes().utf8_chunks() {
        text.extend(chunk.valid().chars().map(harmless));
        text.extend(chunk.invalid().iter().map(|_| '?'));
    }
    text
}

fn harmless(character: char) -> char {
    let is_separator = matches!(character, '\u{2028}' | '\u{2029}');
    let turns_order = matches!(character, '\u{202a}'..='\u{202e}' | '\u{2066}'..='\u{2069}');
    if character.is_control() || is_separator || turns_order {
        '?'
    } else {
        character
    }
}

#[cfg(test)]
mod tests {
    use super::*;
    use std::os::unix::ffi::OsStrExt;

    #[test]
    fn plain_names_stay() {
        for name in [
            "",
            "-",
            "samples/a.sealed",
            "a b",
            "ä€𝄞",
            "\u{2027}\u{2065}",
        ] {
            assert_eq!(shown(OsStr::new(name)), name);
        }
    }

    #[test]
    fn harmful_characters() {
        for code in (0..0x20)
            .chain(0x7f..=0x9f)
            .chain(0x2028..=0x202e)
            .chain(0x2066..=0x2069)
        {
            let character = char::from_u32(code).expect("a character");
            let name = format!("a{character}b");
            assert_eq!(shown(OsStr::new(&name)), "a?b", "{code:x}");
        }
    }

    #[test]
    fn bytes_that_are_no_text() {
        for (bytes, text) in [
            (b"a\xffb".as_slice(), "a?b"),
            (b"\xff\xfe", "??"),
            // The front of a character of three bytes.
            (b"\xe2\x82", "??"),
            (b"\xe2\x82x", "??x"),
            // A surrogate.
            (b"\xed\xa0\x80", "???"),
        ] {
            assert_eq!(shown(OsStr::from_bytes(bytes)), text, "{bytes:?}");
        }
    }
}
