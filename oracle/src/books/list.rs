//! A list of sessions with any bits: the book that the writer writes for it, and what reading that gives.
use crate::blocks::{u16_at, u64_at};
use crate::book::{self, Entry, book_bytes};
use crate::draw::Draw;
use crate::plan::MOST_FLEETS;
use crate::{Header, Sessions};

const MOST_SESSIONS: usize = 64;

pub struct List {
    pub engine: u8,
    pub ended: bool,
    pub used: u64,
    pub entries: Vec<Entry>,
}

impl List {
    /// So many sessions, now and then all of one outcome.
    pub fn drawn(draw: &mut Draw, count: usize) -> Self {
        let only = draw.below(24) as u8;
        let outcomes: Vec<u8> = (0..count).map(|_| if only < 4 { only } else { draw.below(4) as u8 }).collect();
        Self::of_outcomes(draw, &outcomes)
    }

    /// Any bits in every field that a session of its outcome has; connector and fleet within their limits.
    pub fn of_outcomes(draw: &mut Draw, outcomes: &[u8]) -> Self {
        Self {
            engine: draw.below(2) as u8,
            ended: draw.one_in(2),
            used: whole(draw),
            entries: outcomes.iter().map(|outcome| entry(draw, *outcome)).collect(),
        }
    }

    pub fn book(&self) -> Vec<u8> {
        let mut book = vec![0; book_bytes(self.entries.len())];
        book::write(&mut book, self.engine, self.ended, self.used, &self.entries);
        book
    }

    /// The list that the writer writes these blocks for, if there is one.
    pub fn written_as(book: &[u8]) -> Option<Self> {
        let count = usize::from(u16_at(book, 4));
        if count > MOST_SESSIONS || book.len() != book_bytes(count) {
            return None;
        }
        let list = Self { engine: book[6], ended: book[7] == 1, used: u64_at(book, 8), entries: book::read(book) };
        let code = |entry: &Entry| entry.connector.is_none_or(|code| (1..=5).contains(&code));
        let fleet = |entry: &Entry| entry.fleet <= MOST_FLEETS;
        let known =
            list.engine <= 1 && list.entries.iter().all(|entry| entry.outcome <= 3 && code(entry) && fleet(entry));
        (known && list.book() == book).then_some(list)
    }

    pub fn header(&self) -> Header {
        [self.entries.len() as u64, u64::from(self.engine), u64::from(self.ended), self.used]
    }

    pub fn sessions(&self) -> Sessions {
        let mut sessions = [0; 1024];
        for (sixteen, entry) in sessions.chunks_exact_mut(16).zip(&self.entries) {
            sixteen.copy_from_slice(&entry.numbers());
        }
        sessions
    }
}

fn entry(draw: &mut Draw, outcome: u8) -> Entry {
    let (plugged, charged) = (outcome <= 1, outcome == 1);
    Entry {
        vehicle: id(draw),
        profile: id(draw),
        charger: plugged.then(|| id(draw)),
        connector: plugged.then(|| draw.among(1, 5) as u8),
        outcome,
        fleet: fleet(draw),
        arrival: whole(draw),
        plugin: plugged.then(|| whole(draw)),
        unplug: charged.then(|| whole(draw)),
        wait: whole(draw),
        duration: charged.then(|| float(draw)),
        idle: plugged.then(|| float(draw)),
        peak: charged.then(|| float(draw)),
        energy: charged.then(|| float(draw)),
        start: float(draw),
        end: plugged.then(|| float(draw)),
    }
}

fn id(draw: &mut Draw) -> u32 {
    if draw.one_in(2) { draw.pick(&[0, 0, 1, 7, u32::MAX]) } else { draw.number() as u32 }
}

fn fleet(draw: &mut Draw) -> u16 {
    let any = draw.below(65) as u16;
    draw.pick(&[0, 1, 64, any])
}

fn whole(draw: &mut Draw) -> u64 {
    let special = [0, 0, 1, 2_020, u64::from(u32::MAX), 1 << 32, 1 << 63, u64::MAX];
    if draw.one_in(2) { draw.pick(&special) } else { draw.number() }
}

/// Half of them special: zeros, infinities, subnormal ones, and NaNs of both signs and kinds with payloads.
fn float(draw: &mut Draw) -> f64 {
    let payload = draw.among(1, (1 << 52) - 1);
    let special = [
        0,
        1 << 63,
        1,
        0x3ff0_0000_0000_0000,
        0x7ff0_0000_0000_0000,
        0xfff0_0000_0000_0000,
        0x7ff8_0000_0000_0000,
        0x7ff0_0000_0000_0001,
        0x7ff0_0000_0000_0000 | payload,
        0xfff0_0000_0000_0000 | payload,
        u64::MAX,
    ];
    f64::from_bits(if draw.one_in(2) { draw.pick(&special) } else { draw.number() })
}
