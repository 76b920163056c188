//! Weather texts as values: read into rooms, made, taken apart, changed, written.

use std::borrow::Cow;

use gdl90::{Error, Text, LONGEST_TEXT};

/// The header of 001 §5.2.4, then the codes of A, a tab of two spaces, B.
const DATA: [u8; 7] = [0x06, 0x74, 0x41, 0x90, 0x05, 0xC0, 0x82];

fn text(characters: &str) -> Text<'_> {
    Text::new(16, 25, 0, characters).expect("a text")
}

/// As in C.
#[test]
fn the_longest_has_a_number() {
    assert_eq!(LONGEST_TEXT, 17_515);
}

#[test]
fn read_into_a_room() {
    let mut room = [b'-'; 6];
    let lent = Text::read_into(&DATA, &mut room).expect("a text");
    assert_eq!(lent, text("A  B"));
    assert_eq!((lent.as_str(), lent.as_bytes()), ("A  B", &b"A  B"[..]));
    let kept = lent.clone().into_owned();
    assert_eq!(lent, kept);
    assert_eq!(room, *b"A  B--");
    assert_eq!(Text::read(&DATA), Ok(kept));
}

/// Of each of these only the first that is refused is named, and the room stays.
#[test]
fn refusals_to_read() {
    let other_product = [0x00, 0xFC, 0x00, 0x00, 27 << 2];
    let no_character = [0x06, 0x74, 0x41, 0x90, 27 << 2];
    for (data, error) in [
        (&DATA[..3], Error::NoTextHeader),
        (&other_product, Error::NotText),
        (&no_character, Error::NoCharacter),
        (&DATA[..6], Error::NoCharacter),
        (&DATA, Error::NoRoom),
    ] {
        let mut room = [b'-'; 3];
        assert_eq!(Text::read_into(data, &mut room), Err(error));
        assert_eq!(room, [b'-'; 3]);
    }
}

/// Short data whose text fits no room but that for the most tabs.
#[test]
fn many_spaces_are_read() {
    for times in 1..100 {
        let tabs = [0x73, 0xF7, 0x3F].repeat(times);
        let data = [&DATA[..4], &tabs].concat();
        let spaces = " ".repeat(126 * times);
        assert_eq!(
            Text::read(&data).as_ref().map(Text::as_str),
            Ok(&spaces[..])
        );
    }
}

#[test]
fn made_of_strings() {
    let lent = Text::new(31, 63, 15, "A1").expect("a text");
    let owned = Text::new(31, 63, 15, String::from("A1")).expect("a text");
    assert_eq!(lent, owned);
    assert_eq!(Text::new(31, 63, 15, Cow::from("A1")), Ok(lent));
    for characters in [
        "a",
        "@",
        "[",
        "\t",
        "\0",
        "\r\n",
        "\u{1F}",
        "É",
        "A\u{3000}B",
    ] {
        assert_eq!(Text::new(0, 0, 0, characters), Err(Error::NoCharacter));
        assert_eq!(Text::new(32, 0, 0, characters), Err(Error::OutOfRange));
    }
    for (hours, minutes, padding) in [(32, 0, 0), (0, 64, 0), (0, 0, 16)] {
        let refused = Text::new(hours, minutes, padding, "");
        assert_eq!(refused, Err(Error::OutOfRange));
    }
}

/// A field of the header may be set to what its bits do not hold.
#[test]
fn changed_and_written() {
    let mut changed = text("A");
    changed.hours = 0;
    assert_eq!(
        changed.to_vec().as_deref(),
        Ok(&[0x06, 0x74, 0x01, 0x90, 0x04, 0x00][..])
    );
    changed.hours = 32;
    let mut out = [b'-'; 6];
    assert_eq!(changed.to_vec(), Err(Error::OutOfRange));
    assert_eq!(changed.write(&mut out[..0]), Err(Error::OutOfRange));
    changed.hours = 31;
    assert_eq!(changed.write(&mut out[..5]), Err(Error::NoRoom));
    assert_eq!(out, [b'-'; 6]);
    assert_eq!(changed.write(&mut out), Ok(6));
    assert_eq!(Text::read(&out), Ok(changed));
}

#[test]
fn records() {
    for (characters, records) in [
        ("", &[][..]),
        ("A", &["A"]),
        ("A\x1E", &["A"]),
        ("A\n\x1EB C\n\x1E", &["A\n", "B C\n"]),
        ("A\x1EB", &["A", "B"]),
        ("A\x1E\x1EB", &["A", "", "B"]),
        ("\x1E", &[""]),
        ("\x1E\x1E", &["", ""]),
        ("\x1EA", &["", "A"]),
    ] {
        let text = text(characters);
        assert_eq!(text.records().collect::<Vec<_>>(), records);
        assert!(text.records().rev().eq(records.iter().rev().copied()));
    }
}
