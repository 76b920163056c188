//! The proved library and the reference read the same entries and messages from a
//! whole recording, and these are what feeding it gives.

use compare::collecting::{any_bytes, any_mixed, proved_answers, without_flags};
use compare::lent::Lent;
use compare::numbers::Counts;
use gdl90::raw::{self, RecordingAnswer};
use reference::collecting::{Kept, ROOM};
use reference::framing::{ESCAPE, FLAG, MESSAGE_MAX, OUTPUT_TOO_SHORT};
use reference::recording::{between_flags, framed, speed_recording, tiny, SHAPES};
use reference::vectors::{HEARTBEAT, SALEM};
use reference::whole_recording::{self, Read};
use reference::xorshift::Xorshift;

/// Bytes of the mixed recordings; all others come on top.
const STREAM_BYTES: usize = 10_000_000;
/// Numbers of the list for an entry.
const ENTRY: usize = 3;

/// How many numbers and bytes are lent.
type Size = (usize, usize);

/// What is lent to one side.
struct Memory {
    list: Lent<usize>,
    messages: Lent<u8>,
}

impl Memory {
    /// What it holds before goes by the place and by a number that varies.
    fn new((numbers, bytes): Size, fill: usize) -> Self {
        let element = |place: usize| fill.wrapping_mul(2 * place + 1);
        Self {
            list: Lent::new(numbers, element),
            messages: Lent::new(bytes, |place| (element(place) >> 8) as u8),
        }
    }

    /// So many entries, and the messages whose lengths they have. All else is as it
    /// was, so with no entries everything (RULES 'Recordings').
    fn written(&self, entries: usize) -> (&[usize], &[u8]) {
        let list = self.list.assert_rest_unchanged(ENTRY * entries);
        let bytes = list.chunks(ENTRY).map(|entry| entry[2]).sum();
        (list, self.messages.assert_rest_unchanged(bytes))
    }
}

/// Of a long recording only the beginning is shown.
fn told(recording: &[u8]) -> String {
    let shown = &recording[..recording.len().min(500)];
    format!("{} bytes: {shown:02X?}", recording.len())
}

/// The reference's answer in the shape of the C function's.
fn reference_read(recording: &[u8], memory: &mut Memory) -> RecordingAnswer {
    let (list, messages) = (memory.list.lend(), memory.messages.lend());
    match whole_recording::read(recording, list, messages) {
        Read::Entries(entries) => RecordingAnswer { number: 0, entries },
        Read::Refused(number) => RecordingAnswer { number, entries: 0 },
    }
}

/// Reads where so much is lent: the list and the messages, or the number of a
/// refusal.
fn assert_read_agrees(recording: &[u8], size: Size, fill: usize) -> Result<Listed, u8> {
    let [mut proved, mut expected] = [(); 2].map(|()| Memory::new(size, fill));
    let (list, messages) = (proved.list.lend(), proved.messages.lend());
    let answer = raw::read_recording(recording, list, messages);
    let expected_answer = reference_read(recording, &mut expected);
    assert_eq!(answer, expected_answer, "{size:?}, {}", told(recording));
    let (list, messages) = proved.written(answer.entries);
    let same = (list, messages) == expected.written(answer.entries);
    assert!(same, "{size:?}, {}", told(recording));
    if answer.number != 0 {
        return Err(answer.number);
    }
    Ok(Listed {
        list: list.to_vec(),
        messages: messages.to_vec(),
    })
}

#[derive(Debug, Default, PartialEq, Eq)]
struct Listed {
    list: Vec<usize>,
    messages: Vec<u8>,
}

impl Listed {
    /// What feeding gave, as it is listed.
    fn of(answers: &[Kept]) -> Self {
        let mut listed = Self::default();
        for kept in answers {
            let length = kept.message.len();
            listed
                .list
                .extend([kept.number.into(), kept.position, length]);
            listed.messages.extend(&kept.message);
        }
        listed
    }

    fn size(&self) -> Size {
        (self.list.len(), self.messages.len())
    }
}

/// What the recordings of one test gave.
struct Seen {
    random: Xorshift,
    /// Bytes of all of them.
    bytes: usize,
    /// The entries' answers.
    entries: Counts,
    /// How often all was enough, and how often the list, the room and both were too
    /// short.
    shortages: [[usize; 2]; 2],
}

impl Seen {
    fn new(seed: u64) -> Self {
        Self {
            random: Xorshift::new(seed),
            bytes: 0,
            entries: Counts::default(),
            shortages: [[0; 2]; 2],
        }
    }

    /// Reads in each of these sizes. 9 is answered exactly where list or room is too
    /// short for what is to be listed.
    fn assert_sizes(&mut self, recording: &[u8], listed: &Listed, sizes: &[Size]) {
        let (numbers, bytes) = listed.size();
        for &size in sizes {
            let short = [size.0 / ENTRY < numbers / ENTRY, size.1 < bytes];
            let expected = match short {
                [false, false] => Ok(listed),
                _ => Err(&OUTPUT_TOO_SHORT),
            };
            let read = assert_read_agrees(recording, size, self.random.next_u64() as usize);
            assert!(read.as_ref() == expected, "{size:?}, {}", told(recording));
            self.shortages[usize::from(short[0])][usize::from(short[1])] += 1;
        }
    }

    /// What is listed is what feeding the recording byte by byte gives, and in
    /// random pieces.
    fn listed(&mut self, recording: &[u8]) -> Listed {
        let answers = proved_answers(recording, || 1);
        let bound = [3, 20, 500, 2_000][self.random.below(4)];
        let pieces = proved_answers(recording, || self.random.below(bound));
        assert!(answers == pieces, "below {bound}, {}", told(recording));
        for kept in &answers {
            self.entries.add(kept.number);
        }
        self.bytes += recording.len();
        Listed::of(&answers)
    }

    /// In lists and rooms around what is needed.
    fn assert_agrees(&mut self, recording: &[u8]) {
        let listed = self.listed(recording);
        self.assert_sizes(recording, &listed, &around(recording, listed.size()));
    }

    /// In every list and room up to more than what is needed.
    fn assert_every_size(&mut self, recording: &[u8]) {
        let listed = self.listed(recording);
        let (numbers, bytes) = listed.size();
        for numbers in 0..numbers + 5 {
            let sizes: Vec<Size> = (0..bytes + 3).map(|bytes| (numbers, bytes)).collect();
            self.assert_sizes(recording, &listed, &sizes);
        }
    }

    /// Each of these answers, and each shortage, at least so often.
    fn assert_has(&self, numbers: &[u8], least: usize) {
        self.entries.assert_has(numbers, least);
        let rare = self.shortages.concat().iter().any(|&times| times < least);
        assert!(!rare, "{:?}", self.shortages);
    }
}

/// Sizes around the need; no recording of this length needs more than the largest
/// (RULES 'Recordings').
fn around(recording: &[u8], (numbers, bytes): Size) -> Vec<Size> {
    let (most, all) = (ENTRY * (recording.len() / 2), recording.len());
    assert!(numbers <= most && bytes <= all, "{}", told(recording));
    let mut sizes = vec![
        (numbers, bytes),
        (numbers + 1, bytes),
        (numbers + 2, bytes + 1),
        (numbers, all),
        (most, bytes),
        (most, all),
        (most + 7, all + 7),
        (0, all),
        (most, 0),
        (0, 0),
    ];
    if numbers > 0 {
        sizes.extend([(numbers - 1, bytes), (numbers - 1, all), (numbers - 2, all)]);
    }
    if bytes > 0 {
        sizes.extend([(numbers, bytes - 1), (most, bytes - 1)]);
        sizes.push((numbers - 1, bytes - 1));
    }
    sizes
}

#[test]
fn mixed_recordings_agree() {
    let mut seen = Seen::new(0x4EC0_4D00);
    while seen.bytes < STREAM_BYTES {
        let recording = any_mixed(&mut seen.random);
        seen.assert_agrees(&recording);
    }
    seen.assert_has(&[0, 1, 2, 3, 4, 5], 2_000);
}

/// Random, with many flags and escapes and with few, and without flags.
#[test]
fn random_recordings_agree() {
    let mut seen = Seen::new(0x4A4D_0300);
    for round in 0..4_000 {
        let length = seen.random.below(2_000);
        let recording = match round % 4 {
            0 => seen.random.message(length),
            1 => seen.random.message_with_escapes(length, 1),
            2 => seen.random.message_with_escapes(length, 4),
            _ => any_bytes(&mut seen.random),
        };
        seen.assert_agrees(&recording);
    }
    seen.assert_has(&[0, 1, 2, 3, 4, 5], 50);
}

/// Out of the bytes that matter to collecting.
#[test]
fn tiny_recordings_agree_in_every_size() {
    let mut seen = Seen::new(0x7119_0000);
    for _ in 0..20_000 {
        let recording = tiny(&mut seen.random);
        seen.assert_every_size(&recording);
    }
    seen.assert_has(&[0, 1, 2, 4, 5], 100);
}

/// All of up to five bytes out of these six, alone and between two flags.
#[test]
fn every_short_recording_agrees() {
    let bytes = [FLAG, ESCAPE, 0x5E, 0x5D, 0x00, 0x07];
    let mut seen = Seen::new(0x0A11_5407);
    for length in 0..=5 {
        for index in 0..bytes.len().pow(length) {
            let byte = |place| bytes[index / bytes.len().pow(place) % bytes.len()];
            let recording: Vec<u8> = (0..length).map(byte).collect();
            seen.assert_agrees(&recording);
            seen.assert_agrees(&[&[FLAG], &recording[..], &[FLAG]].concat());
        }
    }
    seen.assert_has(&[0, 1, 2, 4, 5], 50);
}

/// A MiB each: usual traffic, flags, escapes, no flag, noise, faults.
#[test]
fn long_recordings_agree() {
    let mut seen = Seen::new(0x0001_0318);
    seen.assert_agrees(&speed_recording());
    for (_, shape) in SHAPES {
        seen.assert_agrees(&shape());
    }
    assert!(seen.bytes >= 8 << 20);
    seen.assert_has(&[0, 1, 2, 3, 4, 5], 4);
}

/// Of messages that are all listed, and of a refusal before each and behind it.
#[test]
fn every_size_agrees() {
    let mut seen = Seen::new(0x0517_E500);
    let short = [&framed(&[1, 2, 3])[..], &framed(&[FLAG])].concat();
    let longest = framed(&[0x11; MESSAGE_MAX]);
    for frames in [&short, &framed(&HEARTBEAT), &framed(&SALEM), &longest] {
        for refused in [&[][..], &[0x07], &[ESCAPE], &[ESCAPE, 0x00], &[0x11; 439]] {
            let recording = [&[FLAG], refused, frames, refused, frames].concat();
            seen.assert_every_size(&recording);
        }
    }
    seen.assert_has(&[0, 1, 2, 3, 4], 8);
}

/// Nothing, flags, escapes, and bytes of which none is a flag; also before the
/// first flag, and behind the last.
#[test]
fn recordings_without_entries() {
    let mut seen = Seen::new(0x0E39_7400);
    for length in (0..40).chain([438, 439, 1_000, 100_000]) {
        let bytes = without_flags(&mut seen.random, length);
        for part in [vec![FLAG; length], vec![ESCAPE; length], bytes] {
            seen.assert_agrees(&part);
            seen.assert_agrees(&[&part[..], &[FLAG]].concat());
            seen.assert_agrees(&[&[FLAG], &part[..]].concat());
        }
    }
    seen.entries.assert_is(&[]);
    assert_eq!(seen.shortages, [[44 * 3 * 3 * 10, 0], [0, 0]]);
}

/// Parts of 436 bytes and more, escaped and not, and what follows them.
#[test]
fn overlong_parts_agree() {
    let mut seen = Seen::new(0x0439_0878);
    for length in (436..=442).chain([876, 877, 878, 879, 100_000]) {
        for byte in [0x11, FLAG] {
            let part = between_flags(&vec![byte; length]);
            let open = &part[..part.len() - 1];
            for behind in [&[][..], &[0x11], &[ESCAPE], &[ESCAPE, 0], &[ESCAPE, 0x5E]] {
                let recording = [open, behind, &framed(&HEARTBEAT), &[FLAG]].concat();
                seen.assert_agrees(&recording);
            }
        }
    }
    seen.assert_has(&[0, 1, 2, 3, 5], 5);
}

/// List and messages where everything fits.
fn read(recording: &[u8]) -> (Vec<usize>, Vec<u8>) {
    let size = (ENTRY * (recording.len() / 2), recording.len());
    let listed = assert_read_agrees(recording, size, 0x0123_4567_89AB_CDEF);
    let listed = listed.expect("enough for every recording");
    (listed.list, listed.messages)
}

/// The values of RULES 'Values' and the positions of RULES 'Collecting'.
#[test]
fn known_entries() {
    let recording = [
        &[0x55, ESCAPE][..],
        &framed(&HEARTBEAT),
        &[ESCAPE, FLAG, ESCAPE, 0x00, 0x07, FLAG, FLAG],
        &[0x07, 0x07, FLAG, 0x07, 0x07, 0x00, FLAG],
        &[0x00, 0x81, 0x41, 0xDB, 0xD0, 0x08, 0x02, 0xB3, 0x8A, FLAG],
        &[ESCAPE, 0x5E, ESCAPE, 0x5E, 0x00, FLAG],
        &[ESCAPE, 0x5E].repeat(ROOM + 1),
        &[FLAG, 0x07, 0x07, 0x00],
    ];
    let list = [
        [0, 0, 7],
        [2, 1, 0],
        [1, 2, 0],
        [4, 2, 0],
        [0, 0, 1],
        [5, 9, 0],
        [0, 0, 1],
        [3, 878, 0],
    ];
    let messages = [&HEARTBEAT[..], &[0x07], &[0x7E]];
    assert_eq!(
        read(&recording.concat()),
        (list.concat(), messages.concat())
    );
}

/// With a byte between every two flags there are as many as half of the bytes.
#[test]
fn most_entries() {
    for count in [1, 2, 3, 100, 70_000] {
        let recording = [&[FLAG], &[0x07, FLAG].repeat(count)[..]].concat();
        assert_eq!(recording.len() / 2, count);
        assert_eq!(read(&recording), ([4, 1, 0].repeat(count), vec![]));
    }
}
