//! From the reference's values to those of the crate gdl90 and back, field by
//! field.

use gdl90::{CallSign, GeometricSteps, HeightAboveTerrain, PressureSteps};
use reference::messages as reference;

/// The value of the crate gdl90.
pub fn from_reference(message: &reference::Message) -> gdl90::Message<'_> {
    match message {
        reference::Message::Heartbeat(heartbeat) => from_heartbeat(heartbeat).into(),
        reference::Message::Initialization(bytes) => gdl90::Initialization {
            first: bytes.first,
            second: bytes.second,
        }
        .into(),
        reference::Message::Uplink(uplink) => gdl90::Uplink {
            reception: uplink.reception,
            payload: &uplink.payload,
        }
        .into(),
        reference::Message::Height(reference::Height(height)) => {
            HeightAboveTerrain(height.map(|feet| gdl90::TerrainFeet(feet.0))).into()
        }
        reference::Message::Ownship(report) => gdl90::Message::Ownship(from_report(report)),
        reference::Message::Geometric(geometric) => from_geometric(geometric).into(),
        reference::Message::Traffic(report) => gdl90::Message::Traffic(from_report(report)),
    }
}

/// The reference's value.
pub fn to_reference(message: gdl90::Message<'_>) -> reference::Message {
    match message {
        gdl90::Message::Heartbeat(heartbeat) => {
            reference::Message::Heartbeat(to_heartbeat(heartbeat))
        }
        gdl90::Message::Initialization(bytes) => {
            reference::Message::Initialization(reference::Initialization {
                first: bytes.first,
                second: bytes.second,
            })
        }
        gdl90::Message::Uplink(uplink) => reference::Message::Uplink(reference::Uplink {
            reception: uplink.reception,
            payload: uplink.payload.to_vec(),
        }),
        gdl90::Message::Height(HeightAboveTerrain(height)) => reference::Message::Height(
            reference::Height(height.map(|feet| reference::TerrainFeet(feet.0))),
        ),
        gdl90::Message::Ownship(report) => reference::Message::Ownship(to_report(report)),
        gdl90::Message::Geometric(geometric) => {
            reference::Message::Geometric(to_geometric(geometric))
        }
        gdl90::Message::Traffic(report) => reference::Message::Traffic(to_report(report)),
        other => panic!("the reference has no such kind: {other:?}"),
    }
}

fn from_heartbeat(heartbeat: &reference::Heartbeat) -> gdl90::Heartbeat {
    gdl90::Heartbeat {
        status_1: heartbeat.status_1,
        status_2: heartbeat.status_2,
        time: heartbeat.time,
        uplinks: heartbeat.uplinks,
        reserved: heartbeat.reserved,
        basic_and_long: heartbeat.basic_and_long,
    }
}

fn to_heartbeat(heartbeat: gdl90::Heartbeat) -> reference::Heartbeat {
    reference::Heartbeat {
        status_1: heartbeat.status_1,
        status_2: heartbeat.status_2,
        time: heartbeat.time,
        uplinks: heartbeat.uplinks,
        reserved: heartbeat.reserved,
        basic_and_long: heartbeat.basic_and_long,
    }
}

fn from_geometric(geometric: &reference::GeometricAltitude) -> gdl90::GeometricAltitude {
    gdl90::GeometricAltitude {
        altitude: GeometricSteps(geometric.altitude.0),
        warning: geometric.warning,
        merit: match geometric.merit {
            reference::Merit::Metres(metres) => Some(gdl90::Merit::Metres(metres)),
            reference::Merit::Over => Some(gdl90::Merit::Over),
            reference::Merit::None => None,
        },
    }
}

fn to_geometric(geometric: gdl90::GeometricAltitude) -> reference::GeometricAltitude {
    reference::GeometricAltitude {
        altitude: reference::FiveFootSteps(geometric.altitude.0),
        warning: geometric.warning,
        merit: match geometric.merit {
            Some(gdl90::Merit::Metres(metres)) => reference::Merit::Metres(metres),
            Some(gdl90::Merit::Over) => reference::Merit::Over,
            None => reference::Merit::None,
        },
    }
}

fn from_report(report: &reference::Report) -> gdl90::Report {
    gdl90::Report {
        alert: report.alert,
        address_type: report.address_type,
        address: report.address,
        position: from_position(report.position),
        altitude: report.altitude.map(|steps| PressureSteps(steps.0)),
        track_kind: from_track_kind(report.track_kind),
        extrapolated: report.extrapolated,
        airborne: report.airborne,
        integrity: report.integrity,
        accuracy: report.accuracy,
        speed: match report.speed {
            reference::Speed::Knots(knots) => Some(gdl90::Speed::Knots(knots)),
            reference::Speed::Over => Some(gdl90::Speed::Over),
            reference::Speed::None => None,
        },
        climb: match report.climb {
            reference::Climb::Steps(steps) => Some(gdl90::Climb::Steps(steps)),
            reference::Climb::Above => Some(gdl90::Climb::Above),
            reference::Climb::Below => Some(gdl90::Climb::Below),
            reference::Climb::None => None,
        },
        track: report.track,
        emitter: report.emitter,
        call_sign: CallSign(report.call_sign),
        priority: report.priority,
        spare: report.spare,
    }
}

fn to_report(report: gdl90::Report) -> reference::Report {
    reference::Report {
        alert: report.alert,
        address_type: report.address_type,
        address: report.address,
        position: to_position(report.position),
        altitude: report
            .altitude
            .map(|steps| reference::AltitudeSteps(steps.0)),
        track_kind: to_track_kind(report.track_kind),
        extrapolated: report.extrapolated,
        airborne: report.airborne,
        integrity: report.integrity,
        accuracy: report.accuracy,
        speed: match report.speed {
            Some(gdl90::Speed::Knots(knots)) => reference::Speed::Knots(knots),
            Some(gdl90::Speed::Over) => reference::Speed::Over,
            None => reference::Speed::None,
        },
        climb: match report.climb {
            Some(gdl90::Climb::Steps(steps)) => reference::Climb::Steps(steps),
            Some(gdl90::Climb::Above) => reference::Climb::Above,
            Some(gdl90::Climb::Below) => reference::Climb::Below,
            None => reference::Climb::None,
        },
        track: report.track,
        emitter: report.emitter,
        call_sign: report.call_sign.0,
        priority: report.priority,
        spare: report.spare,
    }
}

fn from_position(position: reference::Position) -> Option<gdl90::Position> {
    match position {
        reference::Position::At {
            latitude,
            longitude,
        } => Some(gdl90::Position {
            latitude,
            longitude,
        }),
        reference::Position::None => None,
    }
}

fn to_position(position: Option<gdl90::Position>) -> reference::Position {
    match position {
        Some(position) => reference::Position::At {
            latitude: position.latitude,
            longitude: position.longitude,
        },
        None => reference::Position::None,
    }
}

fn from_track_kind(kind: reference::TrackKind) -> gdl90::TrackKind {
    match kind {
        reference::TrackKind::NotValid => gdl90::TrackKind::NotValid,
        reference::TrackKind::TrueTrack => gdl90::TrackKind::TrueTrack,
        reference::TrackKind::MagneticHeading => gdl90::TrackKind::MagneticHeading,
        reference::TrackKind::TrueHeading => gdl90::TrackKind::TrueHeading,
    }
}

fn to_track_kind(kind: gdl90::TrackKind) -> reference::TrackKind {
    match kind {
        gdl90::TrackKind::NotValid => reference::TrackKind::NotValid,
        gdl90::TrackKind::TrueTrack => reference::TrackKind::TrueTrack,
        gdl90::TrackKind::MagneticHeading => reference::TrackKind::MagneticHeading,
        gdl90::TrackKind::TrueHeading => reference::TrackKind::TrueHeading,
    }
}
