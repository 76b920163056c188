use super::*;
use crate::information_frames::list;
use crate::payloads::samples_of_001;
use crate::texts::{any_text, code_of, packed, HEADER};
use crate::xorshift::Xorshift;

/// Stands in a room before it is lent.
const OLD: u8 = 0xAA;

/// What is read, with the text, in room enough. Behind the text the room is kept.
fn read_all(data: &[u8]) -> Result<(Text, Vec<u8>), u8> {
    let mut out = vec![OLD; 42 * data.len() + 1];
    let answer = read(data, &mut out);
    let behind = out.split_off(answer.map_or(0, |text| text.length));
    assert!(behind.iter().all(|&byte| byte == OLD));
    answer.map(|text| (text, out))
}

/// The text alone.
fn text_of(data: &[u8]) -> Result<Vec<u8>, u8> {
    read_all(data).map(|(_, text)| text)
}

/// What is written under this header, in room enough. Behind it the room is kept.
fn write_all(hours: u8, minutes: u8, padding: u8, text: &[u8]) -> Result<Vec<u8>, u8> {
    let mut out = vec![OLD; text.len() + 6];
    let answer = write(hours, minutes, padding, text, &mut out);
    let behind = out.split_off(answer.unwrap_or(0));
    assert!(behind.iter().all(|&byte| byte == OLD));
    answer.map(|_| out)
}

/// What data become, read and written again.
fn rewritten(data: &[u8]) -> Result<Vec<u8>, u8> {
    let (header, text) = read_all(data)?;
    write_all(header.hours, header.minutes, header.padding, &text)
}

/// Five reports, the same but for the airport; 001 spells out the first words. A tab
/// is in it, and no code 0 closes it.
#[test]
fn sample_of_001() {
    let [_, _, payload] = samples_of_001();
    let airports = ["KSLE", "KPDX", "KEUG", "KAST", "KHIO"];
    let frames = list(&payload).expect("frames");
    assert_eq!(frames.len(), airports.len());
    for (frame, airport) in frames.into_iter().zip(airports) {
        let data = &payload[frame.data];
        let expected = format!(
            "TAF {airport} 260900ZAM 251315 08006KT P6SM FEW060 BKN120\n     \
             FM0400 VRB03KT P6SM SCT250=\n\x1E"
        );
        let (header, text) = read_all(data).expect("a text");
        assert_eq!(String::from_utf8(text).as_deref(), Ok(&expected[..]));
        assert_eq!((header.hours, header.minutes), (16, 25));
        assert_eq!((header.padding, header.length), (0, 87));
        assert!(!is_closed(data));
        let codes: Option<Vec<u8>> = expected.bytes().map(code_of).collect();
        let closed = [codes.expect("codes"), vec![0]].concat();
        assert_eq!(rewritten(data), Ok(packed(&closed)));
    }
}

/// The step by step decoding of 001 §5.2.4.
#[test]
fn first_codes_of_the_sample() {
    let codes = Codes::of(&[0x50, 0x11, 0xA0]);
    assert_eq!(codes.collect::<Vec<u8>>(), [20, 1, 6, 32]);
    let mut fours = Codes::of(&[0x50, 0x11, 0xA0]).fours();
    assert_eq!((fours.next(), fours.next()), (Some(*b"TAF "), None));
}

#[test]
fn refusals_to_read_in_order() {
    for (data, number) in [
        (&[][..], 14),
        (&[0xFF; 3], 14),
        (&[0x06, 0x74, 0x41], 14),
        // Another product, each flag, segmented, each time option; 27 behind it.
        (&[0x00, 0xFC, 0x00, 0x00, 27 << 2], 15),
        (&[0x86, 0x74, 0x41, 0x90, 27 << 2], 15),
        (&[0x46, 0x74, 0x41, 0x90, 27 << 2], 15),
        (&[0x26, 0x74, 0x41, 0x90, 27 << 2], 15),
        (&[0x06, 0x76, 0x41, 0x90, 27 << 2], 15),
        (&[0x06, 0x75, 0x41, 0x90, 27 << 2], 15),
        (&[0x06, 0x74, 0xC1, 0x90, 27 << 2], 15),
        (&packed(&[1, 27]), 16),
        (&packed(&[1, 31]), 16),
        (&packed(&[1, 1, 1, 27, 1, 1, 1, 1]), 16),
        // Far behind what there is room for.
        (&packed(&[[1; 100], [31; 100]].concat()), 16),
        (&packed(&[1]), 9),
        (&packed(&[28, 1]), 9),
    ] {
        assert_eq!(read(data, &mut []), Err(number), "{data:02X?}");
        let with_room = text_of(data).err();
        assert_eq!(with_room, (number != 9).then_some(number), "{data:02X?}");
    }
}

/// The first 17 bits of the header say what it is, the others are carried.
#[test]
fn every_bit_of_the_header() {
    for bit in 0..32 {
        let word = u32::from_be_bytes(HEADER) ^ 1 << bit;
        let data = [&word.to_be_bytes()[..], &[0]].concat();
        assert_eq!(check_closed(&data), bit < 15);
        match read_all(&data) {
            Ok((text, _)) => {
                let time = u32::from(text.hours) << 10 | u32::from(text.minutes) << 4;
                assert_eq!(time | u32::from(text.padding), word % (1 << 15));
            }
            Err(number) => assert_eq!(number, 15),
        }
    }
}

/// Behind and in front of 0 to 8 others.
#[test]
fn every_code_at_every_place() {
    for code in (0..64).filter(|&code| code != 28) {
        for (front, behind) in (0..81).map(|n| (n / 9, n % 9)) {
            let data = packed(&[&[33; 8][..front], &[code], &[34; 8][..behind]].concat());
            let character = (0..=255).find(|&character| code_of(character) == Some(code));
            let expected = match (code, character) {
                (0, _) => Ok(vec![b'!'; front]),
                (_, None) => Err(16),
                (_, Some(character)) => {
                    Ok([&[b'!'; 8][..front], &[character], &[b'"'; 8][..behind]].concat())
                }
            };
            assert_eq!(text_of(&data), expected, "{code} behind {front}");
        }
    }
}

/// A count is no code: 0, 27, 28 and 31 are numbers too.
#[test]
fn every_tab() {
    for count in 0..64 {
        let spaces = vec![b' '; count.into()];
        for front in 0..5 {
            let data = packed(&[&[1; 5][..front], &[28, count, 2, 0]].concat());
            let expected = [&b"AAAAA"[..front], &spaces, b"B"].concat();
            assert_eq!(text_of(&data), Ok(expected), "{count} behind {front}");
        }
        let data = packed(&[28, count, 28, count]);
        assert_eq!(text_of(&data), Ok([&spaces[..], &spaces].concat()));
    }
}

/// Characters and tabs in any mixture.
#[test]
fn texts_with_tabs() {
    let mut random = Xorshift::new(52);
    for _ in 0..5_000 {
        let (mut codes, mut text) = (vec![], vec![]);
        for _ in 0..random.below(60) {
            if random.below(8) == 0 {
                let count = random.below(64);
                codes.extend([28, count as u8]);
                text.resize(text.len() + count, b' ');
            } else {
                let more = any_text(&mut random, 1);
                codes.extend(code_of(more[0]));
                text.extend(more);
            }
        }
        codes.push(0);
        assert_eq!(text_of(&packed(&codes)), Ok(text), "{codes:?}");
    }
}

#[test]
fn many_tabs() {
    let data = packed(&[28, 63].repeat(10_000));
    assert_eq!(text_of(&data), Ok(vec![b' '; 630_000]));
    assert_eq!(read(&data, &mut [OLD; 422]), Err(9));
}

/// These codes with each value of the bits left behind them.
fn with_leftover_bits(codes: &[u8], left: u32) -> impl Iterator<Item = Vec<u8>> {
    let data = packed(codes);
    (0..1 << left).map(move |bits| {
        let mut data = data.clone();
        *data.last_mut().expect("a header") |= bits;
        data
    })
}

#[test]
fn tab_without_a_count() {
    for (codes, left) in [
        (&[28][..], 2),
        (&[1, 28], 4),
        (&[1, 1, 1, 28], 0),
        (&[28, 28, 1, 28], 0),
        (&[1, 1, 1, 1, 28], 2),
    ] {
        for data in with_leftover_bits(codes, left) {
            assert_eq!(text_of(&data), Err(16), "{data:02X?}");
        }
    }
}

#[test]
fn leftover_bits_are_not_read() {
    for (length, left) in [(0, 0), (1, 2), (2, 4), (4, 0), (5, 2), (6, 4)] {
        for data in with_leftover_bits(&[1; 6][..length], left) {
            assert_eq!(text_of(&data), Ok(vec![b'A'; length]), "{data:02X?}");
            assert!(!is_closed(&data));
        }
    }
}

#[test]
fn nothing_is_read_behind_code_0() {
    for behind in [&[27, 31][..], &[28], &[0, 1, 0], &[1, 28, 63, 1, 28]] {
        for front in 0..6 {
            let data = packed(&[&[1; 6][..front], &[0], behind].concat());
            assert_eq!(text_of(&data), Ok(vec![b'A'; front]), "{data:02X?}");
        }
    }
}

/// Only the text's bytes change, and none with 9.
#[test]
fn every_room_to_read() {
    let data = packed(&[1, 2, 3, 4, 28, 5, 5, 30, 28, 2, 0]);
    let text = b"ABCD     E\n  ";
    for room in 0..text.len() + 3 {
        let mut out = vec![OLD; room];
        let answer = read(&data, &mut out).map(|text| text.length);
        if room < text.len() {
            assert_eq!((answer, out), (Err(9), vec![OLD; room]));
        } else {
            assert_eq!(answer, Ok(text.len()));
            assert_eq!(out, [text, &vec![OLD; room - text.len()][..]].concat());
        }
    }
    assert_eq!(read(&HEADER, &mut []).map(|text| text.length), Ok(0));
}

#[test]
fn every_room_to_write() {
    for (length, needed) in [(0, 5), (1, 6), (2, 7), (3, 7), (4, 8), (5, 9), (8, 11)] {
        let text = vec![b'?'; length];
        let data = write_all(16, 25, 0, &text).expect("a text");
        assert_eq!(data.len(), needed);
        for room in 0..needed + 3 {
            let mut out = vec![OLD; room];
            let answer = write(16, 25, 0, &text, &mut out);
            if room < needed {
                assert_eq!((answer, out), (Err(9), vec![OLD; room]));
            } else {
                assert_eq!(answer, Ok(needed));
                assert_eq!(out, [&data[..], &vec![OLD; room - needed]].concat());
            }
        }
    }
}

#[test]
fn refusals_to_write_in_order() {
    for (hours, minutes, padding, text, number) in [
        (32, 0, 0, &b"a"[..], 8),
        (0, 64, 0, b"a", 8),
        (0, 0, 16, b"a", 8),
        (255, 255, 255, b"A", 8),
        (31, 63, 15, b"a", 16),
        (31, 63, 15, b"ABCDEFGHIJKLMNOPQRSTUVWXYZ@", 16),
        (31, 63, 15, b"A", 9),
        (31, 63, 15, b"", 9),
    ] {
        let mut out = [OLD; 4];
        assert_eq!(write(hours, minutes, padding, text, &mut out), Err(number));
        assert_eq!(out, [OLD; 4]);
        let with_room = write_all(hours, minutes, padding, text).err();
        assert_eq!(with_room, (number != 9).then_some(number));
    }
}

#[test]
fn every_header_to_write() {
    for value in 0..=255 {
        for (hours, minutes, padding) in [(value, 63, 15), (31, value, 15), (31, 63, value)] {
            let answer = write_all(hours, minutes, padding, b"");
            if hours > 31 || minutes > 63 || padding > 15 {
                assert_eq!(answer, Err(8));
                continue;
            }
            let (header, text) = read_all(&answer.expect("a text")).expect("a text");
            assert_eq!((header.hours, header.minutes), (hours, minutes));
            assert_eq!((header.padding, text), (padding, vec![]));
        }
    }
}

/// Alone, and behind and in front of others.
#[test]
fn every_character_to_write() {
    for character in 0..=255 {
        for (front, behind) in (0..25).map(|n| (n / 5, n % 5)) {
            let text = [&[b'!'; 5][..front], &[character], &[b'"'; 5][..behind]].concat();
            let expected = code_of(character).map(|code| {
                let codes = [&[33; 5][..front], &[code], &[34; 5][..behind], &[0]];
                packed(&codes.concat())
            });
            assert_eq!(write_all(16, 25, 0, &text), expected.ok_or(16));
        }
    }
}

#[test]
fn written_texts_are_read_and_closed() {
    let mut random = Xorshift::new(50);
    for round in 0..2_000 {
        let text = any_text(&mut random, round % 600);
        let [hours, minutes, padding] = [32, 64, 16].map(|bound| random.below(bound) as u8);
        let data = write_all(hours, minutes, padding, &text).expect("a text");
        assert!(is_closed(&data));
        let (header, again) = read_all(&data).expect("a text");
        assert_eq!((header.hours, header.minutes), (hours, minutes));
        assert_eq!((header.padding, again), (padding, text));
    }
}

/// Closed are exactly the data that are the same, read and written.
fn check_closed(data: &[u8]) -> bool {
    let kept = rewritten(data).as_deref() == Ok(data);
    assert_eq!(is_closed(data), kept, "{data:02X?}");
    kept
}

#[test]
fn closed_forms() {
    for (codes, closed) in [
        (&[][..], false),
        (&[0], true),
        (&[0, 0], false),
        (&[1], false),
        (&[1, 0], true),
        (&[1, 1, 0], true),
        (&[1, 1, 0, 0], true),
        (&[1, 1, 0, 1], false),
        (&[1, 1, 1, 0], true),
        (&[1, 1, 1, 1], false),
        (&[1, 1, 1, 1, 0], true),
        (&[28, 1, 0], false),
        (&[27, 0], false),
        (&[31, 0], false),
    ] {
        assert_eq!(check_closed(&packed(codes)), closed, "{codes:?}");
    }
    for length in 0..4 {
        assert!(!check_closed(&HEADER[..length]));
    }
}

/// Of one byte only 0; of two one of 60 characters, code 0 and four zero bits.
#[test]
fn every_short_closed_form() {
    let closed = |packed: &[u8]| check_closed(&[&HEADER, packed].concat());
    assert_eq!((0..=255).filter(|&byte| closed(&[byte])).count(), 1);
    let two = (0..=u16::MAX).map(u16::to_be_bytes);
    assert_eq!(two.filter(|two| closed(two)).count(), 60);
}

/// Written texts with a bit flipped, a byte less or more, or left whole.
#[test]
fn damaged_closed_forms() {
    let mut random = Xorshift::new(51);
    let mut closed = 0;
    for _ in 0..20_000 {
        let length = random.below(40);
        let text = any_text(&mut random, length);
        let mut data = write_all(31, 0, 15, &text).expect("a text");
        let at = random.below(data.len());
        match random.below(5) {
            0 => data.truncate(at),
            1 => data.push([0, random.below(256) as u8][random.below(2)]),
            2 => *data.last_mut().expect("a text") ^= 1 << random.below(8),
            3 => data[at] ^= 1 << random.below(8),
            _ => {}
        }
        closed += usize::from(check_closed(&data));
    }
    assert!((4_000..16_000).contains(&closed), "{closed}");
}
