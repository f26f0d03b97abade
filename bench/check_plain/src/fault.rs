//! Why a set-up is refused, and the line that says so.
use std::fmt;

/// What is wrong at a key.
#[derive(Clone, Copy)]
pub enum Wrong {
    Unknown = 201,
    Missing,
    OtherType,
    OtherValue,
}

/// A table of a set-up; those of a list are counted from 1.
#[derive(Clone, Copy)]
pub enum Place {
    Top,
    Untyped(usize),
    Call(usize),
}

/// What does not fit; untyped regions are counted from 1.
#[derive(Clone, Copy)]
pub enum Defect {
    Outside,
    Unaligned(usize),
    UntypedOutside(usize),
    Overlap(usize),
    Slots,
}

pub enum Fault {
    Text,
    At { wrong: Wrong, place: Place, key: String },
    Layout(Defect),
    /// The set-up has another format or profile than this program takes.
    NotTaken,
}

const TEXT: u32 = 200;
const LAYOUT: u32 = 205;
const MAX_SHOWN_KEY_BYTES: usize = 40;

fn shown(key: &str) -> &str {
    let is_plain = |byte: u8| byte.is_ascii_alphanumeric() || byte == b'_' || byte == b'-';
    if (1..=MAX_SHOWN_KEY_BYTES).contains(&key.len()) && key.bytes().all(is_plain) {
        key
    } else {
        "?"
    }
}

impl fmt::Display for Place {
    fn fmt(&self, f: &mut fmt::Formatter) -> fmt::Result {
        match self {
            Place::Top => write!(f, "top"),
            Place::Untyped(n) => write!(f, "untyped {n}"),
            Place::Call(n) => write!(f, "call {n}"),
        }
    }
}

impl fmt::Display for Defect {
    fn fmt(&self, f: &mut fmt::Formatter) -> fmt::Result {
        match self {
            Defect::Outside => write!(f, "layout outside"),
            Defect::Unaligned(n) => write!(f, "untyped {n} unaligned"),
            Defect::UntypedOutside(n) => write!(f, "untyped {n} outside"),
            Defect::Overlap(n) => write!(f, "untyped {n} overlap"),
            Defect::Slots => write!(f, "layout slots"),
        }
    }
}

impl fmt::Display for Fault {
    fn fmt(&self, f: &mut fmt::Formatter) -> fmt::Result {
        match self {
            Fault::Text => write!(f, "set-up refused {TEXT} at text"),
            Fault::At { wrong, place, key } => {
                write!(f, "set-up refused {} at {place} key {}", *wrong as u32, shown(key))
            }
            Fault::Layout(defect) => write!(f, "set-up refused {LAYOUT} at {defect}"),
            Fault::NotTaken => write!(f, "another format or profile"),
        }
    }
}
