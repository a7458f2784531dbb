//! An array by place.
use uuid::Uuid;

/// One slot for each place up to the highest in use. `K` is always `Uuid` in the original.
#[derive(Debug)]
pub struct FxHashMap<K, V> {
    slots: Vec<Option<(K, V)>>,
    len: usize,
}

impl<K, V> Default for FxHashMap<K, V> {
    fn default() -> Self {
        Self { slots: Vec::new(), len: 0 }
    }
}

impl<V> FxHashMap<Uuid, V> {
    pub fn is_empty(&self) -> bool {
        self.len == 0
    }

    pub fn insert(&mut self, key: Uuid, value: V) -> Option<V> {
        let place = key.place();
        if self.slots.len() <= place {
            self.slots.resize_with(place + 1, || None);
        }
        let old = self.slots[place].replace((key, value));
        self.len += usize::from(old.is_none());
        old.map(|(_, value)| value)
    }

    pub fn remove(&mut self, key: &Uuid) -> Option<V> {
        let old = self.slots.get_mut(key.place())?.take()?;
        self.len -= 1;
        while let Some(None) = self.slots.last() {
            self.slots.pop();
        }
        Some(old.1)
    }

    pub fn get(&self, key: &Uuid) -> Option<&V> {
        self.slots.get(key.place())?.as_ref().map(|(_, value)| value)
    }

    pub fn keys(&self) -> impl Iterator<Item = &Uuid> {
        self.slots.iter().flatten().map(|(key, _)| key)
    }

    pub fn iter_mut(&mut self) -> impl Iterator<Item = (&Uuid, &mut V)> {
        self.slots.iter_mut().flatten().map(|(key, value)| (&*key, value))
    }

    pub fn values_mut(&mut self) -> impl Iterator<Item = &mut V> {
        self.slots.iter_mut().flatten().map(|(_, value)| value)
    }
}

impl<V> FromIterator<(Uuid, V)> for FxHashMap<Uuid, V> {
    fn from_iter<I: IntoIterator<Item = (Uuid, V)>>(pairs: I) -> Self {
        let mut map = Self::default();
        for (key, value) in pairs {
            map.insert(key, value);
        }
        map
    }
}

#[cfg(test)]
mod tests {
    use super::FxHashMap;
    use uuid::Uuid;

    #[test]
    fn walks_in_the_order_of_places() {
        let mut map: FxHashMap<Uuid, char> =
            [(3, 'd'), (0, 'a'), (2, 'c')].map(|(k, v)| (Uuid::at(k), v)).into_iter().collect();
        assert_eq!(map.values_mut().map(|value| *value).collect::<String>(), "acd");
        assert_eq!(
            (map.remove(&Uuid::at(3)), map.remove(&Uuid::at(3)), map.get(&Uuid::at(3))),
            (Some('d'), None, None)
        );
        assert_eq!(map.insert(Uuid::at(1), 'b'), None);
        assert_eq!(map.iter_mut().map(|(key, _)| key.place()).collect::<Vec<_>>(), [0, 1, 2]);
        for k in [0, 1, 2] {
            assert!(!map.is_empty());
            map.remove(&Uuid::at(k));
        }
        assert!(map.is_empty());
    }
}
