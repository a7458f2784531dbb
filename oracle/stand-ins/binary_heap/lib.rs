//! Stand-in for `std::collections::BinaryHeap`, with the order of request 4: the least time pops, and at equal times unplugs
//! come first, by charger place; then arrivals, then reneges, each by vehicle place.
use std::cmp::Ordering;

#[derive(Debug, Clone, Copy, PartialEq, Eq, PartialOrd, Ord)]
pub enum Kind {
    Unplug,
    Arrival,
    Renege,
}

/// Which turn an event has: its time, its kind and its place.
pub trait InTurn {
    fn turn(&self) -> (u64, Kind, usize);
}

#[derive(Debug)]
struct Entry<T>(T);

impl<T: InTurn> Ord for Entry<T> {
    fn cmp(&self, other: &Self) -> Ordering {
        self.0.turn().cmp(&other.0.turn()).reverse()
    }
}

impl<T: InTurn> PartialOrd for Entry<T> {
    fn partial_cmp(&self, other: &Self) -> Option<Ordering> {
        Some(self.cmp(other))
    }
}

impl<T: InTurn> PartialEq for Entry<T> {
    fn eq(&self, other: &Self) -> bool {
        self.cmp(other) == Ordering::Equal
    }
}

impl<T: InTurn> Eq for Entry<T> {}

#[derive(Debug)]
pub struct BinaryHeap<T>(std::collections::BinaryHeap<Entry<T>>);

impl<T: InTurn> BinaryHeap<T> {
    #[allow(clippy::new_without_default)]
    pub fn new() -> Self {
        Self(std::collections::BinaryHeap::new())
    }

    pub fn push(&mut self, item: T) {
        self.0.push(Entry(item));
    }

    pub fn pop(&mut self) -> Option<T> {
        self.0.pop().map(|entry| entry.0)
    }

    pub fn peek(&self) -> Option<&T> {
        self.0.peek().map(|entry| &entry.0)
    }

    pub fn is_empty(&self) -> bool {
        self.0.is_empty()
    }

    /// All items in no particular order.
    pub fn iter(&self) -> impl Iterator<Item = &T> {
        self.0.iter().map(|entry| &entry.0)
    }

    /// All items in the order in which they would pop.
    pub fn in_turn(&self) -> Vec<&T> {
        let mut items: Vec<&T> = self.iter().collect();
        items.sort_by_key(|item| item.turn());
        items
    }
}

#[cfg(test)]
mod tests {
    use super::{BinaryHeap, InTurn, Kind};

    struct Event(u64, Kind, usize);

    impl InTurn for Event {
        fn turn(&self) -> (u64, Kind, usize) {
            (self.0, self.1, self.2)
        }
    }

    #[test]
    fn time_then_kind_then_place() {
        use Kind::{Arrival, Renege, Unplug};
        let order = [
            (3, Unplug, 1),
            (3, Unplug, 2),
            (3, Arrival, 0),
            (3, Arrival, 7),
            (3, Renege, 0),
            (3, Renege, 7),
            (5, Unplug, 0),
            (5, Arrival, 4),
        ];
        for first in 0..order.len() {
            let mut heap = BinaryHeap::new();
            for k in 0..order.len() {
                let (time, kind, place) = order[(first + 3 * k) % order.len()];
                heap.push(Event(time, kind, place));
            }
            let listed: Vec<_> = heap.in_turn().iter().map(|event| event.turn()).collect();
            let popped: Vec<_> = std::iter::from_fn(|| heap.pop()).map(|event| event.turn()).collect();
            assert_eq!((listed, popped), (order.to_vec(), order.to_vec()));
        }
    }
}
