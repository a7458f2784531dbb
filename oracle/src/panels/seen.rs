//! What the scripts of a comparison came across.
use super::operation::Kind;
use std::collections::BTreeMap;
use std::fmt::{self, Display};

/// What is rare, or easily got wrong.
#[derive(Debug, Clone, Copy, PartialEq, Eq, PartialOrd, Ord)]
pub enum Sight {
    NoRounds,
    RoundsPastTheEnd,
    BothEvents,
    ClearedBefore,
    ClearedAfter,
    SetAgain,
    OnesBesideTheBits,
    NoOnes,
    BitsDropped,
    LineUp,
    LineDown,
    Charging,
    Idle,
    Freed,
    Unplayed,
}

const SIGHTS: [(Sight, &str); 15] = [
    (Sight::NoRounds, "0 rounds asked for"),
    (Sight::RoundsPastTheEnd, "rounds past the end"),
    (Sight::BothEvents, "a lone round with both events of a charger"),
    (Sight::ClearedBefore, "a bit cleared right before its event"),
    (Sight::ClearedAfter, "a bit cleared right after its event"),
    (Sight::SetAgain, "a bit read that was set anew after its clearing"),
    (Sight::OnesBesideTheBits, "pending written with ones beside its bits"),
    (Sight::NoOnes, "zeros written to set bits of pending"),
    (Sight::BitsDropped, "enable written with bits that are dropped"),
    (Sight::LineUp, "a line raised"),
    (Sight::LineDown, "a line not raised while pending or enable has bits"),
    (Sight::Charging, "a charging car's status read"),
    (Sight::Idle, "an idle car's status read"),
    (Sight::Freed, "a free cabinet read that had a car"),
    (Sight::Unplayed, "operations without room in the output"),
];

/// How many operations of each kind had each answer, and how often each sight was seen.
#[derive(Default)]
pub struct Seen {
    operations: BTreeMap<(Kind, u8), u64>,
    sights: BTreeMap<Sight, u64>,
}

impl Seen {
    pub fn operation(&mut self, kind: Kind, answer: u8) {
        *self.operations.entry((kind, answer)).or_default() += 1;
    }

    pub fn sight(&mut self, sight: Sight, holds: bool) {
        *self.sights.entry(sight).or_default() += u64::from(holds);
    }
}

impl Display for Seen {
    fn fmt(&self, f: &mut fmt::Formatter<'_>) -> fmt::Result {
        let operations = self.operations.iter().map(|((kind, answer), count)| format!("{kind:?} {answer}: {count}"));
        write!(f, "operations by kind and answer: {}", operations.collect::<Vec<_>>().join(", "))?;
        for (sight, name) in SIGHTS {
            write!(f, "\n  {name}: {}", self.sights.get(&sight).unwrap_or(&0))?;
        }
        Ok(())
    }
}
