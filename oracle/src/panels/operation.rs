//! An operation of a script, in words and as a number.
use std::fmt::{self, Display};

/// How many bytes a cabinet has.
pub const IMAGE: u32 = 16;
/// What its bytes are called.
const BYTES: [&str; 4] = ["status", "pending", "enable", "zero"];

#[derive(Debug, Clone, Copy, PartialEq, Eq, PartialOrd, Ord)]
pub enum Kind {
    Rounds,
    Read,
    Write,
    Line,
}

#[derive(Debug, Clone, Copy, PartialEq)]
pub enum Operation {
    Rounds(u32),
    /// Of an address.
    Read(u32),
    /// To an address, of this byte.
    Write(u32, u8),
    /// Of the charger at this place.
    Line(u32),
}

impl Operation {
    /// What a number asks for.
    pub fn of(number: u64) -> Self {
        let [kind, byte, _, _, argument @ ..] = number.to_le_bytes();
        let argument = u32::from_le_bytes(argument);
        match kind % 4 {
            0 => Self::Rounds(argument),
            1 => Self::Read(argument),
            2 => Self::Write(argument, byte),
            _ => Self::Line(argument),
        }
    }

    /// The number that asks for it, with these bits where none is looked at.
    pub fn number(self, any: u64) -> u64 {
        let [low, byte, ..] = any.to_le_bytes();
        let (kind, byte, argument) = match self {
            Self::Rounds(count) => (0, byte, count),
            Self::Read(address) => (1, byte, address),
            Self::Write(address, written) => (2, written, address),
            Self::Line(charger) => (3, byte, charger),
        };
        let [_, _, third, fourth, ..] = any.to_le_bytes();
        let [a, b, c, d] = argument.to_le_bytes();
        u64::from_le_bytes([low / 4 * 4 + kind, byte, third, fourth, a, b, c, d])
    }

    pub fn kind(self) -> Kind {
        match self {
            Self::Rounds(_) => Kind::Rounds,
            Self::Read(_) => Kind::Read,
            Self::Write(..) => Kind::Write,
            Self::Line(_) => Kind::Line,
        }
    }
}

/// An address in words: whose byte it is, the first charger being at place 0.
fn byte_at(address: u32) -> String {
    let (charger, at) = (address / IMAGE, address % IMAGE);
    let name = match at {
        0..4 => BYTES[at as usize].to_string(),
        4..8 => format!("id's byte {}", at - 4),
        _ => format!("energy's byte {}", at - 8),
    };
    format!("{address}, the {name} of place {charger}")
}

impl Display for Operation {
    fn fmt(&self, f: &mut fmt::Formatter<'_>) -> fmt::Result {
        match *self {
            Self::Rounds(count) => write!(f, "{count} round{}", if count == 1 { "" } else { "s" }),
            Self::Read(address) => write!(f, "read {}", byte_at(address)),
            Self::Write(address, byte) => write!(f, "write {byte:#04x} to {}", byte_at(address)),
            Self::Line(charger) => write!(f, "line of place {charger}"),
        }
    }
}

/// A part of a script that still differs. No single operation of it can go.
pub fn shrunk(script: &[u64], differs: impl Fn(&[u64]) -> bool) -> Vec<u64> {
    let mut few = script.to_vec();
    let mut width = few.len();
    while width > 0 {
        let mut at = 0;
        while at < few.len() {
            let fewer = [&few[..at], &few[(at + width).min(few.len())..]].concat();
            if differs(&fewer) { few = fewer } else { at += width }
        }
        width /= 2;
    }
    few
}

/// The operations of a script, one a line.
pub fn described(script: &[u64]) -> String {
    script
        .iter()
        .enumerate()
        .map(|(k, number)| format!("\n  operation {k}: {} ({number:#x})", Operation::of(*number)))
        .collect()
}
