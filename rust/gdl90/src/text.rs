//! Weather texts in the data of an information frame, 001 §5.2.

use std::borrow::Cow;
use std::fmt;
use std::str::SplitTerminator;

use crate::error::unknown;
use crate::{raw, Error};

/// Room for the text of every information frame: of 422 bytes of data, 278 tabs
/// of 63 spaces and one character more.
pub const LONGEST_TEXT: usize = longest_text(422);

/// Room that most texts fit, kept without the heap.
const USUAL_TEXT: usize = 1_024;

/// What stands between two records.
const SEPARATOR: char = '\x1E';

/// The longest text of so many bytes of data: behind four bytes of header there
/// are codes of six bits, and two of them are a tab of up to 63 spaces.
const fn longest_text(data_length: usize) -> usize {
    let packed = data_length.saturating_sub(4);
    let codes = packed + packed / 3;
    (codes / 2).saturating_mul(63).saturating_add(codes % 2)
}

/// A weather text, such as a forecast or a report, with what its header carries.
///
/// Its characters are A to Z, those of ASCII from 32, the space, to 63, `\n`, and
/// `\x1E` between records; a text with others cannot be made. Shown with `{}` it
/// is one line in words.
///
/// ```
/// use gdl90::{add_information_frame, information_frames, Text, PAYLOAD_LENGTH};
///
/// let text = Text::new(16, 56, 0, "METAR KSLE 261656Z 00000KT 10SM CLR")?;
/// let mut payload = [0; PAYLOAD_LENGTH];
/// add_information_frame(&mut payload, 0, &text.to_vec()?)?;
/// for frame in information_frames(&payload)? {
///     // Frames of other types have no text.
///     if let Some(read) = frame.text() {
///         assert_eq!(read?, text);
///     }
/// }
/// # Ok::<(), gdl90::Error>(())
/// ```
#[derive(Clone, Debug, PartialEq, Eq, Hash)]
pub struct Text<'a> {
    /// The header's hours, as they stand there. Can be written: 0 to 31.
    pub hours: u8,
    /// The header's minutes, likewise. Can be written: 0 to 63.
    pub minutes: u8,
    /// The header's last four bits. Can be written: 0 to 15.
    pub padding: u8,
    /// As the library read them, or as it can write them.
    characters: Cow<'a, str>,
}

impl Text<'static> {
    /// Reads the text of an information frame's data. A tab becomes its spaces.
    ///
    /// Most texts take nothing on the heap but themselves. One of more than 1,024
    /// characters is first read to room for the longest of so many data: 63 bytes
    /// for every 12 bits, so at most 42 for each byte.
    ///
    /// # Errors
    ///
    /// [`Error::NoTextHeader`] for fewer than four bytes, then [`Error::NotText`]
    /// for another header than 001 §5.2.2.1 has for texts, such as that of another
    /// product, then [`Error::NoCharacter`] for a code that is no character, or a
    /// tab with no count behind it.
    ///
    /// ```
    /// use gdl90::{Error, Text};
    ///
    /// let text = Text::read(&[0x06, 0x74, 0x41, 0x90, 0x50, 0x11, 0xA0])?;
    /// assert_eq!((text.hours, text.minutes), (16, 25));
    /// assert_eq!(text.as_str(), "TAF ");
    /// assert_eq!(Text::read(&[0x00, 0xFC, 0x00, 0x00]), Err(Error::NotText));
    /// # Ok::<(), gdl90::Error>(())
    /// ```
    pub fn read(data: &[u8]) -> Result<Self, Error> {
        match Text::read_into(data, &mut [0; USUAL_TEXT]) {
            Err(Error::NoRoom) => {
                let mut out = vec![0; longest_text(data.len())];
                Text::read_into(data, &mut out).map(Text::into_owned)
            }
            read => read.map(Text::into_owned),
        }
    }
}

impl<'a> Text<'a> {
    /// Reads the text of an information frame's data to the start of `out`, of
    /// which it is then a part: nothing is kept on the heap. [`LONGEST_TEXT`]
    /// bytes are enough for any frame; what stands behind the text stays.
    ///
    /// # Errors
    ///
    /// Those of [`read`](Text::read), then [`Error::NoRoom`] exactly if `out` is
    /// shorter than the text.
    pub fn read_into(data: &[u8], out: &'a mut [u8]) -> Result<Self, Error> {
        let read = raw::read_text(data, out);
        let characters = &out[..read.result()?];
        // All are ASCII.
        let characters =
            std::str::from_utf8(characters).unwrap_or_else(|_| unknown("a text that is not UTF-8"));
        Ok(Self {
            hours: read.hours,
            minutes: read.minutes,
            padding: read.padding,
            characters: characters.into(),
        })
    }

    /// A text of these characters, lent or owned, if it can be written.
    ///
    /// # Errors
    ///
    /// [`Error::OutOfRange`] for hours over 31, minutes over 63 or padding over
    /// 15, then [`Error::NoCharacter`] for a character that a text cannot have.
    ///
    /// ```
    /// use gdl90::{Error, Text};
    ///
    /// assert!(Text::new(9, 0, 0, "WIND 08006KT").is_ok());
    /// assert_eq!(Text::new(9, 0, 0, "wind 08006KT"), Err(Error::NoCharacter));
    /// assert_eq!(Text::new(9, 64, 0, "WIND 08006KT"), Err(Error::OutOfRange));
    /// ```
    pub fn new(
        hours: u8,
        minutes: u8,
        padding: u8,
        characters: impl Into<Cow<'a, str>>,
    ) -> Result<Self, Error> {
        let text = Self {
            hours,
            minutes,
            padding,
            characters: characters.into(),
        };
        // Too little room is what is refused last.
        match text.write(&mut []) {
            Ok(_) | Err(Error::NoRoom) => Ok(text),
            Err(error) => Err(error),
        }
    }

    /// The characters, all of them ASCII.
    pub fn as_str(&self) -> &str {
        &self.characters
    }

    /// The characters, a byte each.
    pub fn as_bytes(&self) -> &[u8] {
        self.characters.as_bytes()
    }

    /// The records, without the `\x1E` between them.
    ///
    /// Behind a last `\x1E` there is no record, so that one which ends a text, as
    /// in 001 §5.2.4, makes none that is empty, and an empty text has none. Two
    /// side by side have an empty record between them.
    ///
    /// ```
    /// # use gdl90::Text;
    /// let text = Text::new(16, 25, 0, "TAF KSLE\n\x1ETAF KPDX\n\x1E")?;
    /// assert!(text.records().eq(["TAF KSLE\n", "TAF KPDX\n"]));
    /// # Ok::<(), gdl90::Error>(())
    /// ```
    pub fn records(&self) -> SplitTerminator<'_, char> {
        self.as_str().split_terminator(SEPARATOR)
    }

    /// Writes an information frame's data to the start of `out` and answers how
    /// many bytes they are: `4 + (n + 1) - (n + 1) / 4` for n characters. Spaces
    /// are written one by one, not as tabs.
    ///
    /// # Errors
    ///
    /// [`Error::OutOfRange`] for a field of the header, then [`Error::NoRoom`].
    pub fn write(&self, out: &mut [u8]) -> Result<usize, Error> {
        let (hours, minutes, padding) = (self.hours, self.minutes, self.padding);
        raw::write_text(hours, minutes, padding, self.as_bytes(), out).result()
    }

    /// The data, as [`write`](Self::write) writes them. A frame has room for those
    /// of 556 characters.
    ///
    /// # Errors
    ///
    /// [`Error::OutOfRange`] for a field of the header.
    pub fn to_vec(&self) -> Result<Vec<u8>, Error> {
        let codes = self.as_bytes().len() + 1;
        let mut out = vec![0; 4 + codes - codes / 4];
        let length = self.write(&mut out)?;
        out.truncate(length);
        Ok(out)
    }

    /// The same text with characters of its own, on the heap.
    pub fn into_owned(self) -> Text<'static> {
        Text {
            hours: self.hours,
            minutes: self.minutes,
            padding: self.padding,
            characters: self.characters.into_owned().into(),
        }
    }
}

/// All but the padding; new lines, separators and double quotes as escapes.
impl fmt::Display for Text<'_> {
    fn fmt(&self, f: &mut fmt::Formatter<'_>) -> fmt::Result {
        let (hours, minutes, characters) = (self.hours, self.minutes, self.as_str());
        let count = characters.len();
        write!(
            f,
            "text of {hours:02}:{minutes:02}, {count} characters: {characters:?}"
        )
    }
}
