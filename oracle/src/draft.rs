//! A plan in parts, for making and altering plans.
use crate::blocks::{BLOCK, Block, CHECK, check_of, f64_at, put, put_f64, seal, u16_at, u32_at};
use crate::plan::{FLEET, MOST_CHARGERS, MOST_PROFILES, MOST_VEHICLES, PLACES};

/// Blocks whose last four bytes hold how far the check is off: zero where it is right.
#[derive(Clone, PartialEq)]
pub struct Draft {
    pub header: Block,
    pub profiles: Vec<Block>,
    pub chargers: Vec<Block>,
    pub vehicles: Vec<Block>,
}

impl Default for Draft {
    fn default() -> Self {
        let mut header = [0; BLOCK];
        put(&mut header, 0, b"PLAN");
        Self { header, profiles: Vec::new(), chargers: Vec::new(), vehicles: Vec::new() }
    }
}

impl Draft {
    pub fn set_limit(&mut self, limit: f64) {
        self.header[12] = 1;
        put_f64(&mut self.header, 16, limit);
    }

    /// A limit that is shared evenly.
    pub fn set_even_shares(&mut self, limit: f64) {
        self.set_limit(limit);
        self.header[12] = 2;
    }

    /// The queue places of a fleet, which is 1 to 64.
    pub fn set_places(&mut self, fleet: u16, places: u8) {
        self.header[PLACES][usize::from(fleet) - 1] = places;
    }

    pub fn places(&self, fleet: u16) -> u8 {
        self.header[PLACES][usize::from(fleet) - 1]
    }

    /// The parts of a plan whose header agrees with its length.
    pub fn of(bytes: &[u8]) -> Option<Self> {
        if bytes.is_empty() || !bytes.len().is_multiple_of(BLOCK) {
            return None;
        }
        let [profiles, chargers, vehicles] = [4, 6, 8].map(|at| usize::from(u16_at(bytes, at)));
        let fits = profiles <= MOST_PROFILES
            && chargers <= MOST_CHARGERS
            && vehicles <= MOST_VEHICLES
            && (1 + profiles + chargers + vehicles) * BLOCK == bytes.len();
        if !fits {
            return None;
        }
        let mut blocks = bytes.chunks_exact(BLOCK).enumerate().map(|(k, bytes)| {
            let mut block: Block = bytes.try_into().unwrap();
            let off = u32_at(&block, CHECK).wrapping_sub(check_of(&block, k + 1));
            put(&mut block, CHECK, &off.to_le_bytes());
            block
        });
        Some(Self {
            header: blocks.next()?,
            profiles: blocks.by_ref().take(profiles).collect(),
            chargers: blocks.by_ref().take(chargers).collect(),
            vehicles: blocks.collect(),
        })
    }

    pub fn blocks_mut(&mut self) -> impl Iterator<Item = &mut Block> {
        let rest = self.profiles.iter_mut().chain(&mut self.chargers).chain(&mut self.vehicles);
        std::iter::once(&mut self.header).chain(rest)
    }

    pub fn block_mut(&mut self, k: usize) -> &mut Block {
        self.blocks_mut().nth(k).unwrap()
    }

    pub fn block_count(&self) -> usize {
        1 + self.profiles.len() + self.chargers.len() + self.vehicles.len()
    }

    /// The plan with the header's counts and every check set.
    pub fn bytes(&self) -> Vec<u8> {
        let mut whole = self.clone();
        put(&mut whole.header, 4, &(self.profiles.len() as u16).to_le_bytes());
        put(&mut whole.header, 6, &(self.chargers.len() as u16).to_le_bytes());
        put(&mut whole.header, 8, &(self.vehicles.len() as u16).to_le_bytes());
        for (k, block) in whole.blocks_mut().enumerate() {
            let check = u32_at(block, CHECK).wrapping_add(check_of(block, k + 1));
            put(block, CHECK, &check.to_le_bytes());
        }
        whole.blocks_mut().flat_map(|block| *block).collect()
    }
}

pub fn profile(id: u32, battery: f64, points: &[(f64, f64)]) -> Block {
    let mut block = [0; BLOCK];
    put(&mut block, 0, &id.to_le_bytes());
    put_f64(&mut block, 8, battery);
    set_points(&mut block, points);
    block
}

pub fn set_points(block: &mut Block, points: &[(f64, f64)]) {
    block[16..CHECK].fill(0);
    put(block, 4, &(points.len() as u16).to_le_bytes());
    for (k, (soc, power)) in points.iter().enumerate() {
        put_f64(block, 16 + 16 * k, *soc);
        put_f64(block, 24 + 16 * k, *power);
    }
}

pub fn points(block: &Block) -> Vec<(f64, f64)> {
    let count = usize::from(u16_at(block, 4)).min(30);
    (0..count).map(|k| (f64_at(block, 16 + 16 * k), f64_at(block, 24 + 16 * k))).collect()
}

pub fn charger(id: u32, codes: &[u8], max_power: f64, current: f64, voltage: f64) -> Block {
    let mut block = [0; BLOCK];
    put(&mut block, 0, &id.to_le_bytes());
    block[4] = codes.len() as u8;
    put(&mut block, 5, codes);
    put_f64(&mut block, 16, max_power);
    put_f64(&mut block, 24, current);
    put_f64(&mut block, 32, voltage);
    block
}

/// A vehicle's fields; the default is the car of document 01's worked bay.
#[derive(Debug, Clone)]
pub struct Car {
    pub id: u32,
    pub profile: u32,
    pub codes: Vec<u8>,
    pub start: f64,
    pub target: f64,
    pub idle: f64,
    pub arrival: u64,
    pub wait: u64,
    pub queue_limit: u32,
    pub fleet: u16,
}

impl Default for Car {
    fn default() -> Self {
        Self {
            id: 1,
            profile: 1,
            codes: Vec::new(),
            start: 0.25,
            target: 0.75,
            idle: 120.0,
            arrival: 100,
            wait: 1_800,
            queue_limit: 10,
            fleet: 0,
        }
    }
}

impl Car {
    pub fn block(&self) -> Block {
        let mut block = [0; BLOCK];
        put(&mut block, 0, &self.id.to_le_bytes());
        put(&mut block, 4, &self.profile.to_le_bytes());
        block[8] = self.codes.len() as u8;
        put(&mut block, 9, &self.codes);
        put_f64(&mut block, 16, self.start);
        put_f64(&mut block, 24, self.target);
        put_f64(&mut block, 32, self.idle);
        put(&mut block, 40, &self.arrival.to_le_bytes());
        put(&mut block, 48, &self.wait.to_le_bytes());
        put(&mut block, 56, &self.queue_limit.to_le_bytes());
        put(&mut block, FLEET, &self.fleet.to_le_bytes());
        block
    }

    /// The block for a late booking: its check is that of the place behind the plan.
    pub fn behind(&self, plan: &[u8]) -> Block {
        let mut block = self.block();
        seal(&mut block, plan.len() / BLOCK + 1);
        block
    }
}
