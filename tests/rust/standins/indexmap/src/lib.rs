//! Stand-in: a list of pairs in order, found by going through it.

#[derive(Debug)]
pub struct IndexMap<K, V> {
    pairs: Vec<(K, V)>,
}

impl<K, V> Default for IndexMap<K, V> {
    fn default() -> Self {
        Self { pairs: Vec::new() }
    }
}

impl<K: Eq, V> IndexMap<K, V> {
    pub fn is_empty(&self) -> bool {
        self.pairs.is_empty()
    }

    pub fn entry(&mut self, key: K) -> map::Entry<'_, K, V> {
        match self.pairs.iter().position(|(k, _)| *k == key) {
            Some(index) => map::Entry::Occupied(map::OccupiedEntry { map: self, index }),
            None => map::Entry::Vacant(map::VacantEntry { map: self, key }),
        }
    }
}

impl<K, V> IntoIterator for IndexMap<K, V> {
    type Item = (K, V);
    type IntoIter = std::vec::IntoIter<(K, V)>;
    fn into_iter(self) -> Self::IntoIter {
        self.pairs.into_iter()
    }
}

pub mod map {
    use super::IndexMap;

    pub enum Entry<'m, K, V> {
        Occupied(OccupiedEntry<'m, K, V>),
        Vacant(VacantEntry<'m, K, V>),
    }

    pub struct OccupiedEntry<'m, K, V> {
        pub(super) map: &'m mut IndexMap<K, V>,
        pub(super) index: usize,
    }

    impl<K, V> OccupiedEntry<'_, K, V> {
        pub fn get_mut(&mut self) -> &mut V {
            &mut self.map.pairs[self.index].1
        }

        pub fn index(&self) -> usize {
            self.index
        }

        /// Moves the pair to `to`; those between shift by one place.
        pub fn move_index(self, to: usize) {
            let pair = self.map.pairs.remove(self.index);
            self.map.pairs.insert(to, pair);
        }
    }

    pub struct VacantEntry<'m, K, V> {
        pub(super) map: &'m mut IndexMap<K, V>,
        pub(super) key: K,
    }

    impl<K, V> VacantEntry<'_, K, V> {
        pub fn insert(self, value: V) {
            self.map.pairs.push((self.key, value));
        }

        /// Inserts at `index`; those from there on shift by one place.
        pub fn shift_insert(self, index: usize, value: V) {
            self.map.pairs.insert(index, (self.key, value));
        }
    }
}
