//! Between the structs of `raw` and typed values, and between text and values.

use std::fmt::Debug;

use gdl90::raw::{self, BELOW, NONE, OVER};
use gdl90::{
    CallSign, Collector, Error, GeometricAltitude, Heartbeat, HeightAboveTerrain, Message, Refusal,
    Report,
};

/// Marks up to the last that a field has become values; all others are 8
/// (RULES 'Structs for C').
fn assert_marks<Raw, Value>(last: u8, with_mark: impl Fn(u8) -> Raw)
where
    Raw: Copy + Debug + PartialEq + From<Value>,
    Value: Copy + Debug + PartialEq + TryFrom<Raw, Error = Error>,
{
    for mark in 0..=u8::MAX {
        let raw = with_mark(mark);
        let value: Result<Value, Error> = raw.try_into();
        match value {
            Ok(value) => assert_eq!(Raw::from(value), raw),
            Err(error) => assert_eq!(error, Error::OutOfRange),
        }
        assert_eq!(value.is_ok(), mark <= last, "{raw:?}");
    }
}

#[test]
fn marks() {
    assert_marks::<_, HeightAboveTerrain>(NONE, |height_mark| raw::Height {
        height_mark,
        ..Default::default()
    });
    assert_marks::<_, GeometricAltitude>(OVER, |merit_mark| raw::Geometric {
        merit_mark,
        ..Default::default()
    });
    // A bit, not a mark.
    assert_marks::<_, Heartbeat>(1, |reserved| raw::Heartbeat {
        reserved,
        ..Default::default()
    });
}

#[test]
fn marks_of_a_report() {
    let report = raw::Report::default();
    assert_marks::<_, Report>(NONE, |position_mark| raw::Report {
        position_mark,
        ..report
    });
    assert_marks::<_, Report>(NONE, |altitude_mark| raw::Report {
        altitude_mark,
        ..report
    });
    assert_marks::<_, Report>(OVER, |speed_mark| raw::Report {
        speed_mark,
        ..report
    });
    assert_marks::<_, Report>(BELOW, |climb_mark| raw::Report {
        climb_mark,
        ..report
    });
    // Not a mark: 001 Table 9 has four.
    assert_marks::<_, Report>(3, |track_kind| raw::Report {
        track_kind,
        ..report
    });
}

/// The library reads none such, but a caller may make one up.
#[test]
fn climbs_over_16_bits() {
    for climb in [32_768, -32_769, i32::MAX, i32::MIN] {
        let raw = raw::Report {
            climb,
            ..Default::default()
        };
        assert_eq!(Report::try_from(raw), Err(Error::OutOfRange));
    }
}

#[test]
fn call_signs() {
    for (text, bytes) in [
        ("", b"        "),
        ("N825V", b"N825V   "),
        ("N 1", b"N 1     "),
        ("ABCDEFGH", b"ABCDEFGH"),
    ] {
        assert_eq!(CallSign::try_from(text), Ok(CallSign(*bytes)));
        assert_eq!(CallSign::from(*bytes).text(), text);
    }
    assert_eq!(CallSign(*b"N1\0\0 \0  ").text(), "N1");
    assert_eq!(CallSign(*b" N1     ").text(), " N1");
    assert_eq!(CallSign(*b"N\xFF1     ").text(), "N\u{FFFD}1");
    assert_eq!(CallSign::try_from("ABCDEFGHI"), Err(Error::OutOfRange));
}

/// A collected message is its bytes, wherever it is moved to.
#[test]
fn received_messages() {
    let (first, second) = ([2, 0, 1], [9, 1, 0]);
    let stream = [first, second].map(|message| gdl90::framed(&message).unwrap());
    let mut collector = Collector::new();
    let both: Result<Vec<_>, Refusal> = collector.answers(&stream.concat()).collect();
    let both = both.unwrap();
    assert_eq!((&*both[0], both[1].as_ref()), (&first[..], &second[..]));
    assert_ne!(both[0], both[1]);
    let again = Collector::new().answers(&stream[0]).next();
    assert_eq!(again, Some(Ok(both[0])));
    assert_eq!(format!("{:?}", both[0]), "Received([2, 0, 1])");
    assert_eq!(both[1].message(), Message::read(&second));
    assert_eq!(Message::try_from(&second[..]), Message::read(&second));
}

#[test]
fn payloads_of_uplinks_are_not_copied() {
    let mut message = [0x55; 436];
    message[0] = 7;
    let Ok(Message::Uplink(uplink)) = Message::read(&message) else {
        panic!("no uplink");
    };
    assert_eq!(uplink.payload.as_ptr_range(), message[4..].as_ptr_range());
}

/// Of an empty slice too, which has no first byte to choose by.
#[test]
fn refusals_of_reading() {
    assert_eq!(Message::read(&[]), Err(Error::UnknownId));
    assert_eq!(Message::read(&[1; 7]), Err(Error::UnknownId));
    assert_eq!(Message::read(&[0; 8]), Err(Error::WrongLength));
    assert_eq!(
        Message::read(&[0, 0, 0x80, 0x81, 0x51, 0, 0]), // 86,401
        Err(Error::OutOfRange)
    );
}
