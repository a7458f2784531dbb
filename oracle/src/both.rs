//! The calls of requests 1, 7, 11 and 12 on both sides, and what a case draws for them.
use crate::accounts::Run;
use crate::blocks::{BLOCK, hash, put, put_f64, reseal, u16_at, u32_at, u64_at};
use crate::book::LEAST_BOOK;
use crate::draft::Draft;
use crate::draw::Draw;
use crate::dump::LEAST_DUMP;
use crate::generate::Case;
use crate::plan::FLEET;
use crate::sides::{
    first_byte, numbers, other_book_late, other_dump, other_panel, other_practice, other_resume, prefilled,
};
use crate::{Numbers, book_late, dump, panel, panels, practice, resume, words};
use std::collections::BTreeMap;
use std::fmt::{self, Display};

pub type Found<T = ()> = Result<T, String>;

pub const MOST: u32 = 10_000_000;

/// How many calls had each answer.
#[derive(Default)]
pub struct Tally {
    pub dumps: BTreeMap<u64, u64>,
    pub continued: BTreeMap<u64, u64>,
    pub booked: BTreeMap<u64, u64>,
    pub practised: BTreeMap<u64, u64>,
    /// The checks of what the last of these calls wrote.
    pub days: BTreeMap<u64, u64>,
    pub panels: BTreeMap<u64, u64>,
    pub seen: panels::Seen,
}

/// A call, with the lengths of the buffers that it may write to.
#[derive(Clone, Copy)]
pub enum Call<'a> {
    Dump { plan: &'a [u8], engine: u32, allowance: u32, book: usize, dump: usize },
    Continue { plan: &'a [u8], dump: &'a [u8], further: u32, book: usize },
    BookLate { plan: &'a [u8], dump: &'a [u8], car: &'a [u8], new_dump: usize },
    Practice { plan: &'a [u8], seed: u32, count: u32, out: usize },
    Panel { plan: &'a [u8], script: &'a [u64], out: usize },
}

/// The numbers of a call, and its prefilled buffers after it. One that it has not is empty.
pub struct Left {
    pub numbers: Numbers,
    pub book: Vec<u8>,
    /// The new one where a car is booked.
    pub dump: Vec<u8>,
    pub day: Vec<u8>,
    /// Of a script's operations.
    pub answers: Vec<u8>,
}

impl Call<'_> {
    fn lent(&self) -> Left {
        let lengths = match *self {
            Self::Dump { book, dump, .. } => [book, dump, 0, 0],
            Self::Continue { book, .. } => [book, 0, 0, 0],
            Self::BookLate { new_dump, .. } => [0, new_dump, 0, 0],
            Self::Practice { out, .. } => [0, 0, out, 0],
            Self::Panel { out, .. } => [0, 0, 0, out],
        };
        let [book, dump, day, answers] = lengths.map(prefilled);
        Left { numbers: [0; 11], book, dump, day, answers }
    }

    fn wanted(&self) -> Left {
        let mut left = self.lent();
        left.numbers = match *self {
            Self::Dump { plan, engine, allowance, .. } => dump(plan, engine, allowance, &mut left.book, &mut left.dump),
            Self::Continue { plan, dump, further, .. } => resume(plan, dump, further, &mut left.book),
            Self::BookLate { plan, dump, car, .. } => book_late(plan, dump, car, &mut left.dump),
            Self::Practice { plan, seed, count, .. } => practice(plan, seed, count, &mut left.day),
            Self::Panel { plan, script, .. } => panel(plan, script, &mut left.answers),
        };
        left
    }

    fn got(&self) -> Left {
        let mut left = self.lent();
        left.numbers = match *self {
            Self::Dump { plan, engine, allowance, .. } => {
                other_dump(plan, engine, allowance, &mut left.book, &mut left.dump)
            }
            Self::Continue { plan, dump, further, .. } => other_resume(plan, dump, further, &mut left.book),
            Self::BookLate { plan, dump, car, .. } => other_book_late(plan, dump, car, &mut left.dump),
            Self::Practice { plan, seed, count, .. } => other_practice(plan, seed, count, &mut left.day),
            Self::Panel { plan, script, .. } => other_panel(plan, script, &mut left.answers),
        };
        left
    }

    /// How what the other side left differs from what it should have.
    fn difference(&self, wanted: &Left, got: &Left) -> Option<String> {
        if wanted.numbers != got.numbers {
            return Some(format!("wanted {}, got {}", numbers(&wanted.numbers), numbers(&got.numbers)));
        }
        let of = |name: &str, byte: Option<String>| byte.map(|byte| format!("{name}: {byte}"));
        of("dump", first_byte(&wanted.dump, &got.dump))
            .or_else(|| of("book", first_byte(&wanted.book, &got.book)))
            .or_else(|| of("day", first_byte(&wanted.day, &got.day)))
            .or_else(|| self.first_answer(&wanted.answers, &got.answers))
    }

    /// The first operation of a script with another answer, or the first other byte past the answers.
    fn first_answer(&self, wanted: &[u8], got: &[u8]) -> Option<String> {
        let Self::Panel { script, .. } = self else { return None };
        let other = |(wanted, got): (&[u8], &[u8])| wanted != got;
        let mut pairs = wanted.chunks_exact(2).zip(got.chunks_exact(2)).take(script.len());
        match pairs.position(other) {
            Some(k) => {
                let [wanted, got] = [wanted, got].map(|answers| &answers[2 * k..2 * k + 2]);
                Some(format!("operation {k}, {}: wanted {wanted:?}, got {got:?}", panels::Operation::of(script[k])))
            }
            None => first_byte(wanted, got),
        }
    }

    /// The operations of a script that are enough for a difference, and what it is then.
    fn smaller(&self) -> String {
        let Self::Panel { plan, script, out } = *self else { return String::new() };
        let difference = |script: &[u64]| {
            let call = Call::Panel { plan, script, out };
            call.difference(&call.wanted(), &call.got())
        };
        let few = panels::shrunk(script, |fewer| difference(fewer).is_some());
        let words = difference(&few).unwrap_or_default();
        format!("\nby these of its operations: {words}{}", panels::described(&few))
    }

    /// What is handed in, where that is more than the case's plan.
    pub fn digits(&self) -> String {
        let given: &[(&str, &[u8])] = match *self {
            Self::Dump { .. } => return String::new(),
            Self::Continue { plan, dump, .. } => &[("plan", plan), ("dump", dump)],
            Self::BookLate { plan, dump, car, .. } => &[("plan", plan), ("dump", dump), ("car", car)],
            Self::Practice { plan, .. } | Self::Panel { plan, .. } => &[("plan", plan)],
        };
        given
            .iter()
            .map(|(name, bytes)| format!("\nits {name}, [n] being n zero bytes: {}", words::hex(bytes)))
            .collect()
    }
}

impl Display for Call<'_> {
    fn fmt(&self, f: &mut fmt::Formatter<'_>) -> fmt::Result {
        match self {
            Self::Dump { engine, allowance, book, dump, .. } => {
                write!(f, "dump by engine {engine}, allowance {allowance}, buffers of {book} and {dump} bytes")
            }
            Self::Continue { dump, further, book, .. } => {
                write!(f, "continue by {further}, a dump of {} bytes, a book of {book} bytes", dump.len())
            }
            Self::BookLate { dump, car, new_dump, .. } => {
                let car = words::describe_car(car);
                write!(f, "book {car}, a dump of {} bytes, a buffer of {new_dump} bytes", dump.len())
            }
            Self::Practice { plan, seed, count, out } => {
                write!(f, "a day of {count} by seed {seed}, a plan of {} bytes, an output of {out} bytes", plan.len())
            }
            Self::Panel { script, out, .. } => {
                write!(f, "a script of {} operations, an output of {out} bytes", script.len())
            }
        }
    }
}

/// Both sides, and the case's own draws.
pub struct Bench<'a> {
    pub draw: Draw,
    pub tally: &'a mut Tally,
}

impl<'a> Bench<'a> {
    pub fn of(case: &Case, tally: &'a mut Tally) -> Self {
        Self { draw: Draw::new(hash(&case.plan), u64::from(case.allowance)), tally }
    }

    /// Makes the call on both sides. Gives what it left behind where they agree.
    pub fn alike(&mut self, call: Call, what: impl Display) -> Found<Left> {
        let (wanted, got) = (call.wanted(), call.got());
        let answers = match call {
            Call::Dump { .. } => &mut self.tally.dumps,
            Call::Continue { .. } => &mut self.tally.continued,
            Call::BookLate { .. } => &mut self.tally.booked,
            Call::Practice { .. } => &mut self.tally.practised,
            Call::Panel { .. } => &mut self.tally.panels,
        };
        *answers.entry(wanted.numbers[0]).or_default() += 1;
        match call.difference(&wanted, &got) {
            Some(difference) => Err(format!("{what}: {call}: {difference}{}{}", call.smaller(), call.digits())),
            None => Ok(wanted),
        }
    }

    /// Makes the call on both sides, and expects this answer.
    pub fn answered(&mut self, call: Call, number: u64, what: impl Display) -> Found<Left> {
        let left = self.alike(call, &what)?;
        match left.numbers[0] == number {
            true => Ok(left),
            false => Err(format!("{what}: {call}: both sides answer {}, not {number}", left.numbers[0])),
        }
    }

    /// Makes the call on both sides, and expects these numbers.
    pub fn numbered(&mut self, call: Call, expected: &Numbers, what: impl Display) -> Found<Left> {
        let left = self.alike(call, &what)?;
        match left.numbers == *expected {
            true => Ok(left),
            false => {
                let [wanted, got] = [expected, &left.numbers].map(numbers);
                Err(format!("{what}: {call}: both sides answer {got}, not {wanted}"))
            }
        }
    }

    /// The length of a book's buffer that will do.
    pub fn book(&mut self) -> usize {
        self.draw.pick(&[LEAST_BOOK, LEAST_BOOK, LEAST_BOOK, LEAST_BOOK + 1, LEAST_BOOK + 512])
    }

    /// The length of a dump's buffer that will do.
    pub fn enough_room(&mut self) -> usize {
        self.draw.pick(&[LEAST_DUMP, LEAST_DUMP, LEAST_DUMP + 1, LEAST_DUMP + 512, 20_000])
    }

    /// The length of a dump's buffer, perhaps too short.
    pub fn room(&mut self) -> usize {
        self.draw.pick(&[LEAST_DUMP, LEAST_DUMP, LEAST_DUMP, LEAST_DUMP + 1, LEAST_DUMP - 1, 0])
    }

    pub fn perhaps_damaged(&mut self, plan: &[u8]) -> Vec<u8> {
        let mut plan = plan.to_vec();
        if plan.len() < BLOCK || self.draw.one_in(3) {
            return plan;
        }
        let block = self.draw.below((plan.len() / BLOCK) as u64) as usize;
        plan[block * BLOCK + self.draw.below(64) as usize] ^= 1 << self.draw.below(8);
        match self.draw.below(4) {
            0 => {}
            1 => plan.truncate(plan.len() - 1),
            _ => reseal(&mut plan, block),
        }
        plan
    }

    /// One of the dumps, perhaps with a wrong byte, or bytes that are none.
    pub fn perhaps_a_dump(&mut self, dumps: &[Vec<u8>]) -> Vec<u8> {
        if dumps.is_empty() || self.draw.one_in(3) {
            let len = self.draw.pick(&[0, 1, 23, 24, BLOCK, 3 * BLOCK, LEAST_DUMP]);
            return (0..len).map(|_| self.draw.number() as u8).collect();
        }
        let mut dump = dumps[self.draw.below(dumps.len() as u64) as usize].clone();
        if self.draw.one_in(2) {
            let at = self.draw.below(dump.len() as u64) as usize;
            dump[at] ^= 1 << self.draw.below(8);
        }
        dump
    }

    /// The plan with one field of one vehicle or charger changed, a fleet's places, two vehicles swapped or one gone.
    pub fn altered(&mut self, plan: &[u8]) -> Vec<u8> {
        let mut draft = Draft::of(plan).expect("an accepted plan");
        if let Some(place) = draft.chargers.len().checked_sub(1).filter(|_| self.draw.one_in(4)) {
            let charger = &mut draft.chargers[self.draw.among(0, place as u64) as usize];
            put_f64(charger, self.draw.pick(&[16, 24, 32]), self.draw.float(50.0, 1_024.0));
            return draft.bytes();
        }
        let count = draft.vehicles.len() as u64;
        if count == 0 {
            draft.set_limit(50.0);
            return draft.bytes();
        }
        let [one, other] = [0; 2].map(|_| self.draw.below(count) as usize);
        let vehicle = &mut draft.vehicles[one];
        let [id, arrival, wait] = [u64::from(u32_at(vehicle, 0)), u64_at(vehicle, 40), u64_at(vehicle, 48)];
        let fleet = u16_at(vehicle, FLEET);
        match self.draw.below(10) {
            0 => put(vehicle, 0, &(id + 1_000).to_le_bytes()[..4]),
            1 => put_f64(vehicle, 24, self.draw.float(0.0, 1.0)),
            2 => put_f64(vehicle, 32, self.draw.float(0.0, 20.0)),
            3 => put(vehicle, 40, &(arrival + 1).to_le_bytes()),
            4 => put(vehicle, 48, &(wait + 1).to_le_bytes()),
            5 => put(vehicle, 56, &self.draw.below(3).to_le_bytes()[..4]),
            6 => draft.vehicles.swap(one, other),
            7 => put(vehicle, FLEET, &self.draw.below(4).to_le_bytes()[..2]),
            8 => draft.set_places(fleet.max(1), self.draw.below(3) as u8),
            _ => drop(draft.vehicles.remove(one)),
        }
        draft.bytes()
    }
}

/// The numbers and the book are those of the unbroken run, and what lies behind is as it was.
pub fn as_unbroken(left: &Left, run: &Run) -> Found {
    if left.numbers != run.numbers {
        return Err(format!("{}; the unbroken run {}", numbers(&left.numbers), numbers(&run.numbers)));
    }
    let mut book = prefilled(left.book.len());
    book[..LEAST_BOOK].copy_from_slice(&run.book);
    match first_byte(&book, &left.book) {
        Some(byte) => Err(format!("the unbroken run's book: {byte}")),
        None => Ok(()),
    }
}

/// The numbers of a refusal without places.
pub fn refusal(number: u64) -> Numbers {
    let mut numbers = [0; 11];
    numbers[0] = number;
    numbers
}
