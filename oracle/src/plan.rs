//! The plan: its fields and refusals 4 to 11 of document 01's table.
use crate::blocks::{BLOCK, CHECK, f64_at, u16_at, u32_at, u64_at, wrong_checks, zero};
use std::ops::Range;

pub const MOST_PROFILES: usize = 16;
pub const MOST_CHARGERS: usize = 32;
pub const MOST_VEHICLES: usize = 64;
pub const MOST_BLOCKS: usize = 1 + MOST_PROFILES + MOST_CHARGERS + MOST_VEHICLES;
pub const MOST_POINTS: usize = 30;
pub const LONGEST_STAY: f64 = 604_800.0;
const LONGEST_WAIT: u64 = 1_000_000;
pub const MOST_FLEETS: u16 = 64;
const MOST_PLACES: u8 = 64;

#[derive(Debug, Clone, Copy, PartialEq, Eq)]
pub struct Refusal {
    pub number: u64,
    pub places: [u64; 2],
}

impl Refusal {
    pub fn new(number: u64, first: usize, second: usize) -> Self {
        Self { number, places: [first as u64, second as u64] }
    }
}

#[derive(Debug)]
pub struct Profile {
    pub id: u32,
    pub battery: f64,
    /// SOC and power, in the order of the block.
    pub points: Vec<(f64, f64)>,
}

#[derive(Debug)]
pub struct Charger {
    pub id: u32,
    /// The block's codes; none means Nacs alone.
    pub codes: Vec<u8>,
    pub max_power: f64,
    pub current: f64,
    pub voltage: f64,
    /// Request 8: by connector code, 0 where the lead has no cap.
    pub caps: [f64; 5],
}

/// Where the caps of the leads stand, by connector code.
pub const CAPS: [usize; 5] = [40, 48, 56, 64, 72];
/// Where a vehicle names its fleet, and where the header has the queue places of fleets 1 to 64.
pub const FLEET: usize = 60;
pub const PLACES: Range<usize> = 24..88;

#[derive(Debug)]
pub struct Vehicle {
    pub id: u32,
    /// The place of its profile among the profiles.
    pub profile: usize,
    pub codes: Vec<u8>,
    pub start: f64,
    pub target: f64,
    pub idle: f64,
    pub arrival: u64,
    pub wait: u64,
    pub queue_limit: u32,
    /// Request 9: 0 where it has none.
    pub fleet: u16,
}

#[derive(Debug)]
pub struct Plan {
    pub limit: Option<f64>,
    /// Request 10: the limit is shared evenly.
    pub even_shares: bool,
    /// Request 9: the queue places of fleets 1 to 64, in order.
    pub places: [u8; 64],
    pub profiles: Vec<Profile>,
    pub chargers: Vec<Charger>,
    pub vehicles: Vec<Vehicle>,
}

impl Plan {
    pub fn charger_block(&self, charger: usize) -> usize {
        2 + self.profiles.len() + charger
    }

    pub fn vehicle_block(&self, vehicle: usize) -> usize {
        2 + self.profiles.len() + self.chargers.len() + vehicle
    }
}

/// The kinds of block after the header, by the header's counts.
#[derive(Debug, Clone, Copy, PartialEq, Eq)]
pub enum Kind {
    Header,
    Profile,
    Charger,
    Vehicle,
}

/// Blocks of a plan with their kinds. Block k of the document is `blocks[k - 1]`.
struct Blocks<'a> {
    bytes: &'a [u8],
    profiles: usize,
    chargers: usize,
}

impl<'a> Blocks<'a> {
    fn all(&self) -> impl Iterator<Item = (usize, Kind, &'a [u8])> {
        let (profiles, chargers) = (self.profiles, self.chargers);
        self.bytes.chunks_exact(BLOCK).enumerate().map(move |(k, block)| {
            let kind = match k {
                0 => Kind::Header,
                k if k <= profiles => Kind::Profile,
                k if k <= profiles + chargers => Kind::Charger,
                _ => Kind::Vehicle,
            };
            (k + 1, kind, block)
        })
    }

    fn of(&self, wanted: Kind) -> impl Iterator<Item = (usize, &'a [u8])> {
        self.all().filter(move |(_, kind, _)| *kind == wanted).map(|(place, _, block)| (place, block))
    }
}

pub fn read(bytes: &[u8]) -> Result<Plan, Refusal> {
    length(bytes)?;
    checks(bytes)?;
    let blocks = header(bytes)?;
    first(7, blocks.all().filter(|(_, kind, block)| !well_formed(*kind, block)).map(|(place, _, _)| place))?;
    first(8, blocks.of(Kind::Profile).filter(|(_, block)| u16_at(block, 4) == 0).map(|(place, _)| place))?;
    first(9, blocks.of(Kind::Profile).filter(|(_, block)| repeats(&socs(block))).map(|(place, _)| place))?;
    first(
        10,
        blocks
            .all()
            .filter(|(place, kind, block)| id_used_before(&blocks, *place, *kind, block))
            .map(|(place, _, _)| place),
    )?;
    first(
        11,
        blocks.of(Kind::Vehicle).filter(|(_, block)| profile_place(&blocks, block).is_none()).map(|(place, _)| place),
    )?;
    Ok(plan_of(&blocks))
}

fn first(number: u64, mut places: impl Iterator<Item = usize>) -> Result<(), Refusal> {
    match places.next() {
        Some(place) => Err(Refusal::new(number, place, 0)),
        None => Ok(()),
    }
}

fn length(bytes: &[u8]) -> Result<(), Refusal> {
    let good = !bytes.is_empty() && bytes.len().is_multiple_of(BLOCK) && bytes.len() / BLOCK <= MOST_BLOCKS;
    if good { Ok(()) } else { Err(Refusal::new(4, 0, 0)) }
}

fn checks(bytes: &[u8]) -> Result<(), Refusal> {
    first(5, wrong_checks(bytes))
}

fn header(bytes: &[u8]) -> Result<Blocks<'_>, Refusal> {
    let [profiles, chargers, vehicles] = [4, 6, 8].map(|at| usize::from(u16_at(bytes, at)));
    let good = bytes.starts_with(b"PLAN")
        && profiles <= MOST_PROFILES
        && chargers <= MOST_CHARGERS
        && vehicles <= MOST_VEHICLES
        && (1 + profiles + chargers + vehicles) * BLOCK == bytes.len();
    if good { Ok(Blocks { bytes, profiles, chargers }) } else { Err(Refusal::new(6, 1, 0)) }
}

fn within(block: &[u8], at: usize, low: f64, high: f64) -> bool {
    let value = f64_at(block, at);
    value.is_sign_positive() && low <= value && value <= high
}

/// Check 7 for one block.
fn well_formed(kind: Kind, block: &[u8]) -> bool {
    match kind {
        Kind::Header => header_fields(block),
        Kind::Profile => profile_fields(block),
        Kind::Charger => charger_fields(block),
        Kind::Vehicle => vehicle_fields(block),
    }
}

fn header_fields(block: &[u8]) -> bool {
    let limit = match block[12] {
        0 => zero(&block[16..24]),
        1 | 2 => within(block, 16, 0.125, 65_536.0),
        _ => false,
    };
    limit
        && zero(&block[10..12])
        && zero(&block[13..16])
        && block[PLACES].iter().all(|places| *places <= MOST_PLACES)
        && zero(&block[88..CHECK])
}

fn profile_fields(block: &[u8]) -> bool {
    let points = usize::from(u16_at(block, 4));
    points <= MOST_POINTS
        && zero(&block[6..8])
        && within(block, 8, 1.0, 1_024.0)
        && (0..points).all(|k| within(block, 16 + 16 * k, 0.0, 1.0) && within(block, 24 + 16 * k, 0.125, 1_024.0))
        && zero(&block[16 + 16 * points..CHECK])
}

/// A count byte and five code bytes after it.
fn connector_fields(block: &[u8], at: usize) -> bool {
    let count = usize::from(block[at]);
    let codes = &block[at + 1..at + 6];
    count <= 5 && codes[..count].iter().all(|code| (1..=5).contains(code)) && zero(&codes[count..])
}

fn charger_fields(block: &[u8]) -> bool {
    connector_fields(block, 4)
        && zero(&block[10..16])
        && within(block, 16, 0.125, 1_024.0)
        && within(block, 24, 1.0, 4_096.0)
        && within(block, 32, 1.0, 4_096.0)
        && CAPS.iter().all(|&at| zero(&block[at..at + 8]) || within(block, at, 1.0, 4_096.0))
        && zero(&block[80..CHECK])
}

fn vehicle_fields(block: &[u8]) -> bool {
    connector_fields(block, 8)
        && zero(&block[14..16])
        && within(block, 16, 0.0, 1.0)
        && within(block, 24, 0.0, 1.0)
        && within(block, 32, 0.0, LONGEST_STAY)
        && u64_at(block, 40) <= LONGEST_WAIT
        && u64_at(block, 48) <= LONGEST_WAIT
        && u16_at(block, FLEET) <= MOST_FLEETS
        && zero(&block[62..CHECK])
}

fn points(block: &[u8]) -> Vec<(f64, f64)> {
    (0..usize::from(u16_at(block, 4))).map(|k| (f64_at(block, 16 + 16 * k), f64_at(block, 24 + 16 * k))).collect()
}

fn socs(block: &[u8]) -> Vec<f64> {
    points(block).iter().map(|point| point.0).collect()
}

fn repeats(values: &[f64]) -> bool {
    values.iter().enumerate().any(|(k, value)| values[..k].contains(value))
}

fn id_used_before(blocks: &Blocks, place: usize, kind: Kind, block: &[u8]) -> bool {
    kind != Kind::Header
        && blocks
            .of(kind)
            .take_while(|(other, _)| *other < place)
            .any(|(_, other)| u32_at(other, 0) == u32_at(block, 0))
}

fn profile_place(blocks: &Blocks, vehicle: &[u8]) -> Option<usize> {
    blocks.of(Kind::Profile).position(|(_, profile)| u32_at(profile, 0) == u32_at(vehicle, 4))
}

fn plan_of(blocks: &Blocks) -> Plan {
    let codes = |block: &[u8], at: usize| block[at + 1..at + 1 + usize::from(block[at])].to_vec();
    let profile =
        |(_, block): (usize, &[u8])| Profile { id: u32_at(block, 0), battery: f64_at(block, 8), points: points(block) };
    let charger = |(_, block): (usize, &[u8])| Charger {
        id: u32_at(block, 0),
        codes: codes(block, 4),
        max_power: f64_at(block, 16),
        current: f64_at(block, 24),
        voltage: f64_at(block, 32),
        caps: CAPS.map(|at| f64_at(block, at)),
    };
    let vehicle = |(_, block): (usize, &[u8])| Vehicle {
        id: u32_at(block, 0),
        profile: profile_place(blocks, block).unwrap(),
        codes: codes(block, 8),
        start: f64_at(block, 16),
        target: f64_at(block, 24),
        idle: f64_at(block, 32),
        arrival: u64_at(block, 40),
        wait: u64_at(block, 48),
        queue_limit: u32_at(block, 56),
        fleet: u16_at(block, FLEET),
    };
    Plan {
        limit: (blocks.bytes[12] != 0).then(|| f64_at(blocks.bytes, 16)),
        even_shares: blocks.bytes[12] == 2,
        places: blocks.bytes[PLACES].try_into().unwrap(),
        profiles: blocks.of(Kind::Profile).map(profile).collect(),
        chargers: blocks.of(Kind::Charger).map(charger).collect(),
        vehicles: blocks.of(Kind::Vehicle).map(vehicle).collect(),
    }
}
