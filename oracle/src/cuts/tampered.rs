//! Bytes that are not the plan's dump, or not it alone.
use crate::blocks::{BLOCK, CHECK, put, reseal};
use crate::both::{Bench, Call, Found};
use crate::dump::USED;
use std::fmt::Display;

/// Plans of at most so many blocks have every byte of a dump changed, one in so many of them.
const EVERY_BYTE: (usize, u64) = (12, 48);
const SOME_BYTES: usize = 8;

impl Bench<'_> {
    pub(super) fn tampered(&mut self, plan: &[u8], dumps: &[Vec<u8>]) -> Found {
        let cut = self.draw.below(dumps.len() as u64) as usize;
        self.bytes_changed(plan, cut, &dumps[cut])?;
        self.other_lengths(plan, cut, &dumps[cut])?;
        self.other_counts(plan, cut, dumps)?;
        self.other_plans(plan, cut, &dumps[cut])
    }

    /// Continues from these bytes, and expects the answer where the text says it.
    fn given(&mut self, plan: &[u8], bytes: &[u8], expected: Option<u64>, what: impl Display) -> Found {
        let further = self.draw.pick(&[0, 1, 5, 10_000_000]);
        let call = Call::Continue { plan, dump: bytes, further, book: self.book() };
        match expected {
            Some(number) => self.answered(call, number, what)?,
            None => self.alike(call, what)?,
        };
        Ok(())
    }

    /// One byte changed, with its block's check as it was and made good again.
    fn bytes_changed(&mut self, plan: &[u8], cut: usize, dump: &[u8]) -> Found {
        let (blocks, one_in) = EVERY_BYTE;
        let places: Vec<usize> = if plan.len() <= blocks * BLOCK && self.draw.one_in(one_in) {
            (0..dump.len()).collect()
        } else {
            (0..SOME_BYTES).map(|_| self.place(dump)).collect()
        };
        for at in places {
            let mut changed = dump.to_vec();
            changed[at] ^= self.draw.among(1, 255) as u8;
            self.given(plan, &changed, Some(14), format_args!("the dump after {cut} events, byte {at} changed"))?;
            if at % BLOCK < CHECK {
                reseal(&mut changed, at / BLOCK);
                let what = format_args!("the dump after {cut} events, byte {at} changed and the check made good");
                self.given(plan, &changed, Some(14), what)?;
            }
        }
        Ok(())
    }

    /// A byte of the dump, mostly one of its fields.
    fn place(&mut self, dump: &[u8]) -> usize {
        let block = self.draw.below((dump.len() / BLOCK) as u64) as usize;
        let within = match self.draw.below(4) {
            0 => self.draw.below(BLOCK as u64),
            1 => self.draw.among(CHECK as u64, BLOCK as u64 - 1),
            _ => self.draw.below(64),
        };
        block * BLOCK + within as usize
    }

    /// The dump cut short, and with bytes behind it.
    fn other_lengths(&mut self, plan: &[u8], cut: usize, dump: &[u8]) -> Found {
        let boundaries = (0..dump.len()).step_by(BLOCK);
        let some = self.draw.below(dump.len() as u64) as usize;
        for len in boundaries.chain([1, 15, 23, 24, CHECK, BLOCK - 1, dump.len() - 1, some]) {
            let what = format_args!("the first {len} bytes of the dump after {cut} events");
            self.given(plan, &dump[..len], Some(14), what)?;
        }
        let again = dump.len();
        for behind in [1, CHECK, BLOCK, 20_000 - dump.len(), again] {
            let mut longer = dump.to_vec();
            longer.extend((0..behind).map(|k| if behind == again { dump[k] } else { self.draw.number() as u8 }));
            let what = format_args!("the dump after {cut} events and {behind} bytes behind it");
            self.given(plan, &longer, Some(0), what)?;
        }
        Ok(())
    }

    /// The dump under other handled counts: those of other cuts, and those that the run never reaches.
    fn other_counts(&mut self, plan: &[u8], cut: usize, dumps: &[Vec<u8>]) -> Found {
        let own = cut as u64;
        let last = dumps.len() as u64 - 1;
        let far =
            [last + 1, last + 2, 10_000_000, 10_000_001, 1 << 31, u64::from(u32::MAX), 1 << 32, 1 << 63, u64::MAX];
        // The low half of a count may be right.
        let high = [own + (1 << 32), own + (1 << 63), own + (u64::from(u32::MAX) << 32)];
        for count in far.into_iter().chain(high).chain(0..=last).filter(|count| *count != own) {
            self.renamed(plan, cut, &dumps[cut], count)?;
        }
        for (other, dump) in dumps.iter().enumerate().filter(|(other, _)| *other != cut) {
            self.renamed(plan, other, dump, own)?;
        }
        Ok(())
    }

    fn renamed(&mut self, plan: &[u8], cut: usize, dump: &[u8], count: u64) -> Found {
        let mut renamed = dump.to_vec();
        put(&mut renamed, USED, &count.to_le_bytes());
        if !self.draw.one_in(8) {
            reseal(&mut renamed, 0);
        }
        self.given(plan, &renamed, Some(14), format_args!("the dump after {cut} events, naming {count}"))
    }

    /// The dump with plans that differ from its own a little: either answer may be right.
    fn other_plans(&mut self, plan: &[u8], cut: usize, dump: &[u8]) -> Found {
        for _ in 0..6 {
            let other = self.altered(plan);
            self.given(&other, dump, None, format_args!("the dump after {cut} events, with a plan altered a little"))?;
        }
        Ok(())
    }
}
