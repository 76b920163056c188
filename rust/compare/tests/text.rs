//! The proved library and the reference read and write the same weather texts.

use std::hint::black_box;

use gdl90::raw::{self, TextAnswer, WriteAnswer};
use gdl90::{add_information_frame, information_frames, Error, Text, LONGEST_TEXT};
use reference::information_frames::{list, FRAME_DATA_MAX};
use reference::messages::{OUTPUT_TOO_SHORT, OUT_OF_RANGE, PAYLOAD_LENGTH};
use reference::payloads::samples_of_001;
use reference::text::{self, END, NOT_TEXT, NO_CHARACTER, NO_HEADER, TAB};
use reference::texts::{any_codes, any_text, code_of, damaged, packed, whole, HEADER};
use reference::xorshift::Xorshift;

const ROUNDS: usize = 20_000;
/// Bytes on each side of a room that no call may touch.
const GUARD: usize = 16;
/// More than any frame has.
const OVERLONG: usize = 100_000;

/// A room between guards, each byte other than the next.
fn lent(room: usize) -> Vec<u8> {
    let bytes = (0..GUARD + room + GUARD).map(|place| 0xA5 + 29 * place);
    bytes.map(|byte| byte as u8).collect()
}

/// How often each number was answered.
#[derive(Debug, Default, PartialEq, Eq)]
struct Tally([usize; 17]);

impl Tally {
    fn add(&mut self, number: u8) {
        self.0[usize::from(number)] += 1;
    }

    /// These numbers so often, and no other.
    fn assert_is(&self, times: &[(u8, usize)]) {
        let mut expected = Tally::default();
        for &(number, times) in times {
            expected.0[usize::from(number)] = times;
        }
        assert_eq!(*self, expected);
    }

    /// Each of these at least so often, and no other.
    fn assert_has(&self, numbers: &[u8], least: usize) {
        for (number, &times) in (0..).zip(&self.0) {
            let enough = if numbers.contains(&number) {
                times >= least
            } else {
                times == 0
            };
            assert!(enough, "{number} in {self:?}");
        }
    }
}

// ---- reading

/// The reference's answer in the shape of the C function's.
fn read_answer(answer: Result<text::Text, u8>) -> TextAnswer {
    match answer {
        Ok(text) => TextAnswer {
            number: 0,
            hours: text.hours,
            minutes: text.minutes,
            padding: text.padding,
            length: text.length,
        },
        Err(number) => TextAnswer {
            number,
            ..TextAnswer::default()
        },
    }
}

/// Reads in a room of this size. Only the text's bytes change, so with a refusal
/// none does (RULES 'Numbers').
fn assert_read_agrees(data: &[u8], room: usize) -> (TextAnswer, Vec<u8>) {
    let (mut proved, mut expected) = (lent(room), lent(room));
    let place = GUARD..GUARD + room;
    let answer = raw::read_text(data, &mut proved[place.clone()]);
    // The compiler may hold that a call leaves the guards as they are.
    let proved = black_box(proved);
    let expected_answer = read_answer(text::read(data, &mut expected[place]));
    assert_eq!(answer, expected_answer, "room {room}, {data:02X?}");
    assert!(proved == expected, "room {room}, {data:02X?}");
    let text = assert_rest_unchanged(&proved, answer.length);
    (answer, text)
}

/// The bytes written to a room between guards, all others of which are as they
/// were.
fn assert_rest_unchanged(lent_bytes: &[u8], written: usize) -> Vec<u8> {
    let mut unchanged = lent(lent_bytes.len() - 2 * GUARD);
    let written = &lent_bytes[GUARD..][..written];
    unchanged[GUARD..][..written.len()].copy_from_slice(written);
    assert!(lent_bytes == unchanged);
    written.to_vec()
}

/// In room enough, as two codes are at most 63 bytes, and in none; a text that is
/// read also where it just fits, and where a byte is missing. Answers the number
/// in room enough.
fn assert_reads_agree(data: &[u8]) -> u8 {
    let (answer, text) = assert_read_agrees(data, 42 * data.len());
    let number_in = |room| assert_read_agrees(data, room).0.number;
    if text.is_empty() {
        assert_eq!(number_in(0), answer.number);
    } else {
        assert_eq!(number_in(text.len()), 0);
        assert_eq!(number_in(text.len() - 1), OUTPUT_TOO_SHORT);
        assert_eq!(number_in(0), OUTPUT_TOO_SHORT);
    }
    assert_safe_reads_agree(data, answer, &text);
    // Read and written it is the same exactly if it is of the closed form.
    let header = [answer.hours, answer.minutes, answer.padding];
    let same = answer.number == 0 && assert_writes_agree(header, &text).as_deref() == Ok(data);
    assert_eq!(same, text::is_closed(data), "{data:02X?}");
    answer.number
}

fn assert_safe_reads_agree(data: &[u8], answer: TextAnswer, characters: &[u8]) {
    let read = Text::read(data);
    assert_eq!(number(&read), answer.number);
    let mut room = vec![0; characters.len()];
    assert_eq!(read, Text::read_into(data, &mut room));
    if let Ok(text) = read {
        assert_eq!((text.hours, text.minutes), (answer.hours, answer.minutes));
        assert_eq!(text.padding, answer.padding);
        assert_eq!(text.as_bytes(), characters);
    }
}

fn number<T>(answer: &Result<T, Error>) -> u8 {
    answer.as_ref().map_or_else(|error| error.number(), |_| 0)
}

/// 001 §5.2.4: five texts. With a tab, and without a code 0, none is of the closed
/// form, so that other bytes are written.
#[test]
fn samples_of_001_agree() {
    let [_, _, payload] = samples_of_001();
    let airports = ["KSLE", "KPDX", "KEUG", "KAST", "KHIO"];
    let frames = list(&payload).expect("a whole payload");
    assert_eq!(frames.len(), airports.len());
    for (frame, airport) in frames.into_iter().zip(airports) {
        let data = &payload[frame.data];
        assert_eq!(assert_reads_agree(data), 0);
        let text = Text::read(data).expect("a text");
        let expected = format!(
            "TAF {airport} 260900ZAM 251315 08006KT P6SM FEW060 BKN120\n     \
             FM0400 VRB03KT P6SM SCT250=\n\x1E"
        );
        assert_eq!(text.as_str(), expected);
        assert_eq!((text.hours, text.minutes, text.padding), (16, 25, 0));
        let written = text.to_vec().expect("data");
        assert_eq!((data.len(), written.len()), (67, 70));
        assert!(!text::is_closed(data) && text::is_closed(&written));
        assert_eq!(assert_reads_agree(&written), 0);
        assert_eq!(Text::read(&written), Ok(text));
    }
}

/// Graphic products are of type 0 too; another type is not looked into.
#[test]
fn frames_have_texts() {
    let mut numbers = Tally::default();
    for payload in samples_of_001() {
        for frame in information_frames(&payload).expect("a whole payload") {
            let text = frame.text().expect("a frame of type 0");
            assert_eq!(assert_reads_agree(frame.data), number(&text));
            let (_, characters) = assert_read_agrees(frame.data, LONGEST_TEXT);
            assert_eq!(text.as_ref().map_or(&[][..], Text::as_bytes), characters);
            numbers.add(number(&text));
        }
    }
    numbers.assert_is(&[(0, 5), (NOT_TEXT, 7 + 12)]);
    let data = packed(&[1, END]);
    let mut payload = vec![0; PAYLOAD_LENGTH];
    for kind in 0..16 {
        add_information_frame(&mut payload, kind, &data).expect("room");
    }
    let frames = information_frames(&payload).expect("a whole payload");
    let texts = frames.map(|frame| frame.text().is_some());
    assert!(texts.eq((0..16).map(|kind| kind == 0)));
}

#[test]
fn every_code_at_every_place_agrees() {
    let mut numbers = Tally::default();
    for count in 1..=9 {
        for at in 0..count {
            for code in 0..64 {
                let mut codes = vec![33; count];
                codes[at] = code;
                numbers.add(assert_reads_agree(&packed(&codes)));
            }
        }
    }
    // Each stands at 45 places. 27 and 31 are refused at all of them, and a tab as
    // the last code, but for the third and the seventh: six bits are left there.
    numbers.assert_is(&[(0, 64 * 45 - 97), (NO_CHARACTER, 2 * 45 + 7)]);
}

/// At each place in three bytes, with a character behind them and without.
#[test]
fn every_two_codes_agree() {
    let mut numbers = Tally::default();
    for codes in (0..64 * 64).map(|n| [n / 64, n % 64].map(|code: u16| code as u8)) {
        for front in 0..4 {
            for behind in 0..2 {
                let codes = [&[1; 3][..front], &codes, &[2][..behind]].concat();
                numbers.add(assert_reads_agree(&packed(&codes)));
            }
        }
    }
    numbers.assert_has(&[0, NO_CHARACTER], 1_000);
}

/// Of the 17 bits before the hours one value is a text's: no flag, product 413,
/// not segmented, time option 0. The others are carried, whatever they are.
#[test]
fn every_header_agrees() {
    let read = |header: u32| {
        let data = [&header.to_be_bytes()[..], &[1 << 2]].concat();
        assert_reads_agree(&data)
    };
    let header = u32::from_be_bytes(HEADER);
    let mut numbers = Tally::default();
    for bits in 0..1 << 17 {
        numbers.add(read(bits << 15 | header % (1 << 15)));
    }
    numbers.assert_is(&[(0, 1), (NOT_TEXT, (1 << 17) - 1)]);
    let mut numbers = Tally::default();
    for carried in 0..1 << 15 {
        numbers.add(read(header >> 15 << 15 | carried));
    }
    numbers.assert_is(&[(0, 1 << 15)]);
}

/// With each count, in front of a character, of another tab and of nothing.
#[test]
fn tabs_agree() {
    let mut numbers = Tally::default();
    for count in 0..64 {
        let spaces = " ".repeat(count.into());
        for front in 0..4 {
            for (codes, characters) in [(&[2][..], "B"), (&[TAB, count], &spaces), (&[], "")] {
                let codes = [&[1; 3][..front], &[TAB, count], codes].concat();
                let data = packed(&codes);
                numbers.add(assert_reads_agree(&data));
                let text = Text::read(&data).expect("a text");
                let expected = format!("{}{spaces}{characters}", &"AAA"[..front]);
                assert_eq!(text.as_str(), expected);
            }
        }
    }
    numbers.assert_is(&[(0, 64 * 4 * 3)]);
}

/// Bits that are left behind a tab are no count if they are fewer than six.
#[test]
fn tabs_without_a_count_agree() {
    let mut numbers = Tally::default();
    for front in 0..40 {
        let codes = [vec![1; front], vec![TAB]].concat();
        let left = [0, 2, 4, 6][codes.len() % 4];
        for bits in 0..1 << left {
            let mut data = packed(&codes);
            *data.last_mut().expect("a header") |= bits;
            let number = assert_reads_agree(&data);
            assert_eq!(number == 0, left == 6, "{data:02X?}");
            numbers.add(number);
        }
    }
    numbers.assert_is(&[(0, 10 * 64), (NO_CHARACTER, 10 * (1 + 4 + 16))]);
}

/// A text that is closed by its data's last code, by a code 0, and by one with
/// anything behind it.
#[test]
fn every_length_of_text_agrees() {
    let mut random = Xorshift::new(60);
    let mut closed = 0;
    for length in 0..=600 {
        let codes = any_codes(&mut random, length);
        for behind in [&[][..], &[END], &[END, 27, 31, TAB]] {
            let data = packed(&[&codes, behind].concat());
            assert_eq!(assert_reads_agree(&data), 0);
            let text = Text::read(&data).expect("a text");
            assert_eq!(text.as_bytes().len(), length);
            closed += usize::from(text::is_closed(&data));
        }
    }
    // Behind three codes of four the last six bits are a code 0 as well.
    assert_eq!(closed, 601 + 150);
}

/// Characters and tabs, and random bytes, cut off.
#[test]
fn every_length_of_data_agrees() {
    let mut random = Xorshift::new(61);
    let mut numbers = Tally::default();
    for length in 0..=430 {
        let characters = any_codes(&mut random, 600);
        let tabs = [TAB, 63].repeat(300);
        for data in [
            packed(&characters),
            packed(&tabs),
            [&HEADER[..], &random.message(430)].concat(),
        ] {
            let number = assert_reads_agree(&data[..length]);
            assert_eq!(number == NO_HEADER, length < 4, "{length}");
            numbers.add(number);
        }
    }
    numbers.assert_has(&[0, NO_HEADER, NO_CHARACTER], 3 * 4);
}

#[test]
fn whole_data_agree() {
    let mut random = Xorshift::new(62);
    let (mut tabbed, mut closed) = (0, 0);
    for _ in 0..ROUNDS {
        let data = whole(&mut random);
        assert_eq!(assert_reads_agree(&data), 0, "{data:02X?}");
        let length = Text::read(&data).expect("a text").as_bytes().len();
        assert!(data.len() <= FRAME_DATA_MAX && length <= LONGEST_TEXT);
        tabbed += usize::from(length > 2 * data.len());
        closed += usize::from(text::is_closed(&data));
    }
    assert!(tabbed > 1_000 && closed > 1_000, "{tabbed} {closed}");
}

#[test]
fn damaged_data_agree() {
    let mut random = Xorshift::new(63);
    let mut numbers = Tally::default();
    for _ in 0..ROUNDS {
        numbers.add(assert_reads_agree(&damaged(&mut random)));
    }
    numbers.assert_has(&[0, NO_HEADER, NOT_TEXT, NO_CHARACTER], 500);
}

/// With a text's header in front of every second.
#[test]
fn random_bytes_agree() {
    let mut random = Xorshift::new(64);
    let mut numbers = Tally::default();
    for round in 0..ROUNDS {
        let header = [&[][..], &HEADER][round % 2];
        let data = [header, &random.message(round % 431)].concat();
        numbers.add(assert_reads_agree(&data));
    }
    numbers.assert_has(&[0, NO_HEADER, NOT_TEXT, NO_CHARACTER], 50);
}

/// 278 tabs of 63 spaces and a character are in 422 bytes.
#[test]
fn longest_text_of_a_frame_agrees() {
    let data = packed(&[&[TAB, 63].repeat(278)[..], &[1]].concat());
    assert_eq!(data.len(), FRAME_DATA_MAX);
    assert_eq!(assert_reads_agree(&data), 0);
    let text = Text::read(&data).expect("a text");
    assert_eq!(text.as_bytes().len(), LONGEST_TEXT);
}

/// Whole, and with what is refused at the very end.
#[test]
fn overlong_data_agree() {
    let mut random = Xorshift::new(65);
    // Four codes to three bytes: the last one ends with the last byte.
    let count = (OVERLONG - HEADER.len()) / 3 * 4;
    let mut data = packed(&any_codes(&mut random, count));
    assert_eq!(data.len(), OVERLONG);
    assert_eq!(assert_reads_agree(&data), 0);
    data[OVERLONG - 1] = data[OVERLONG - 1] & 0xC0 | 31;
    assert_eq!(assert_reads_agree(&data), NO_CHARACTER);
    let data = packed(&[TAB, 63].repeat(count / 2));
    assert_eq!(assert_reads_agree(&data), 0);
    // Two bits of a count are left.
    assert_eq!(assert_reads_agree(&data[..OVERLONG - 2]), NO_CHARACTER);
    let text = any_text(&mut random, OVERLONG);
    let data = assert_writes_agree([16, 25, 0], &text).expect("data");
    assert_eq!(assert_reads_agree(&data), 0);
}

// ---- writing

/// Writes in a room of this size. Only the data's bytes change, so with a refusal
/// none does (RULES 'Numbers').
fn assert_write_agrees(header: [u8; 3], text: &[u8], room: usize) -> Result<Vec<u8>, u8> {
    let [hours, minutes, padding] = header;
    let (mut proved, mut expected) = (lent(room), lent(room));
    let place = GUARD..GUARD + room;
    let answer = raw::write_text(hours, minutes, padding, text, &mut proved[place.clone()]);
    // As in reading.
    let proved = black_box(proved);
    let written = text::write(hours, minutes, padding, text, &mut expected[place]);
    let (number, length) = (written.err().unwrap_or(0), written.unwrap_or(0));
    let expected_answer = WriteAnswer { number, length };
    assert_eq!(answer, expected_answer, "{room}, {header:?}, {text:02X?}");
    assert!(proved == expected, "{room}, {header:?}, {text:02X?}");
    let data = assert_rest_unchanged(&proved, length);
    written.map(|_| data)
}

/// In room enough and in none; a text that is written also where it just fits, and
/// where a byte is missing. It is then of the closed form, and read as it was.
fn assert_writes_agree(header: [u8; 3], text: &[u8]) -> Result<Vec<u8>, u8> {
    let write = |room| assert_write_agrees(header, text, room);
    let written = write(text.len() + 6);
    match &written {
        Ok(data) => {
            assert_eq!(data.len(), 4 + (text.len() + 1) - (text.len() + 1) / 4);
            assert_eq!(write(data.len()), written);
            assert_eq!(write(data.len() - 1), Err(OUTPUT_TOO_SHORT));
            assert_eq!(write(0), Err(OUTPUT_TOO_SHORT));
            assert!(text::is_closed(data));
            let (answer, read) = assert_read_agrees(data, text.len());
            assert_eq!([answer.hours, answer.minutes, answer.padding], header);
            assert_eq!(read, text);
        }
        Err(_) => assert_eq!(write(0), written),
    }
    assert_safe_writes_agree(header, text, &written);
    written
}

fn assert_safe_writes_agree(header: [u8; 3], text: &[u8], written: &Result<Vec<u8>, u8>) {
    // Bytes that are no string cannot be given to the safe function.
    let Ok(text) = std::str::from_utf8(text) else {
        return;
    };
    let [hours, minutes, padding] = header;
    match Text::new(hours, minutes, padding, text) {
        Ok(made) => {
            assert_eq!(made.to_vec().map_err(Error::number), *written);
            let mut out = lent(text.len());
            let length = made.write(&mut out).expect("room enough");
            assert_eq!(Ok(&out[..length]), written.as_deref());
        }
        Err(error) => assert_eq!(Err(error.number()), *written),
    }
}

/// Alone, and at each place among others.
#[test]
fn every_character_to_write_agrees() {
    let mut numbers = Tally::default();
    for character in 0..=u8::MAX {
        for (front, behind) in (0..36).map(|n| (n / 6, n % 6)) {
            let text = [&[b'Z'; 6][..front], &[character], &[b'?'; 6][..behind]].concat();
            let written = assert_writes_agree([16, 25, 0], &text);
            assert_eq!(written.is_ok(), code_of(character).is_some());
            numbers.add(written.err().unwrap_or(0));
        }
    }
    numbers.assert_is(&[(0, 60 * 36), (NO_CHARACTER, 196 * 36)]);
}

/// 8 is answered before 16, which is answered before 9.
#[test]
fn every_header_to_write_agrees() {
    let mut numbers = Tally::default();
    for value in 0..=u8::MAX {
        for others in [[0, 0, 0], [31, 63, 15]] {
            for (field, last) in [31, 63, 15].into_iter().enumerate() {
                let mut header = others;
                header[field] = value;
                for (text, otherwise) in [(b"A", 0), (b"a", NO_CHARACTER)] {
                    let number = assert_writes_agree(header, text).err().unwrap_or(0);
                    let expected = if value > last {
                        OUT_OF_RANGE
                    } else {
                        otherwise
                    };
                    assert_eq!(number, expected, "{header:?}");
                    numbers.add(number);
                }
            }
        }
    }
    let fit = 2 * (32 + 64 + 16);
    let refused = 4 * 3 * 256 - 2 * fit;
    numbers.assert_is(&[(0, fit), (NO_CHARACTER, fit), (OUT_OF_RANGE, refused)]);
}

#[test]
fn texts_to_write_agree() {
    let mut random = Xorshift::new(66);
    let mut numbers = Tally::default();
    for round in 0..ROUNDS {
        let length = 1 + round % 600;
        let mut text = any_text(&mut random, length);
        if random.below(4) == 0 {
            text[random.below(length)] = random.below(0x100) as u8;
        }
        let header = [34, 66, 18].map(|end| random.below(end) as u8);
        let written = assert_writes_agree(header, &text);
        numbers.add(written.err().unwrap_or(0));
    }
    numbers.assert_has(&[0, OUT_OF_RANGE, NO_CHARACTER], 500);
}
