//! Stand-in for the crate `ordermap`: a map and a set that keep the order of insertion, searched from the front.

/// A map in the order in which its keys came first; equality and hash look at the order too.
#[derive(Debug, Clone, PartialEq, Eq, Hash)]
pub struct OrderMap<K, V> {
    entries: Vec<(K, V)>,
}

impl<K, V> Default for OrderMap<K, V> {
    fn default() -> Self {
        OrderMap { entries: Vec::new() }
    }
}

impl<K: Eq, V> OrderMap<K, V> {
    pub fn new() -> Self {
        Self::default()
    }

    pub fn len(&self) -> usize {
        self.entries.len()
    }

    pub fn is_empty(&self) -> bool {
        self.entries.is_empty()
    }

    pub fn get_index(&self, index: usize) -> Option<(&K, &V)> {
        self.entries.get(index).map(|(k, v)| (k, v))
    }

    pub fn get(&self, key: &K) -> Option<&V> {
        self.iter().find(|(k, _)| *k == key).map(|(_, v)| v)
    }

    pub fn contains_key(&self, key: &K) -> bool {
        self.get(key).is_some()
    }

    /// An equal key keeps its place and itself; only its value is replaced.
    pub fn insert(&mut self, key: K, value: V) -> Option<V> {
        match self.entries.iter_mut().find(|(k, _)| *k == key) {
            Some((_, old)) => Some(std::mem::replace(old, value)),
            None => {
                self.entries.push((key, value));
                None
            }
        }
    }

    pub fn remove(&mut self, key: &K) -> Option<V> {
        let place = self.entries.iter().position(|(k, _)| k == key)?;
        Some(self.entries.remove(place).1)
    }

    pub fn clear(&mut self) {
        self.entries.clear();
    }

    pub fn iter(&self) -> impl Iterator<Item = (&K, &V)> {
        self.entries.iter().map(|(k, v)| (k, v))
    }
}

impl<K: Eq, V> FromIterator<(K, V)> for OrderMap<K, V> {
    fn from_iter<T: IntoIterator<Item = (K, V)>>(iter: T) -> Self {
        let mut map = OrderMap::new();
        for (key, value) in iter {
            map.insert(key, value);
        }
        map
    }
}

/// A set in the order in which its values came first.
#[derive(Debug, Clone, PartialEq, Eq, Hash)]
pub struct OrderSet<T> {
    values: Vec<T>,
}

impl<T> Default for OrderSet<T> {
    fn default() -> Self {
        OrderSet { values: Vec::new() }
    }
}

impl<T: Eq> OrderSet<T> {
    pub fn new() -> Self {
        Self::default()
    }

    pub fn len(&self) -> usize {
        self.values.len()
    }

    pub fn is_empty(&self) -> bool {
        self.values.is_empty()
    }

    pub fn contains(&self, value: &T) -> bool {
        self.values.contains(value)
    }

    /// A value equal to one already there is dropped.
    pub fn insert(&mut self, value: T) -> bool {
        let new = !self.contains(&value);
        if new {
            self.values.push(value);
        }
        new
    }

    pub fn clear(&mut self) {
        self.values.clear();
    }

    pub fn iter(&self) -> impl Iterator<Item = &T> {
        self.values.iter()
    }
}

impl<T: Eq> FromIterator<T> for OrderSet<T> {
    fn from_iter<I: IntoIterator<Item = T>>(iter: I) -> Self {
        let mut set = OrderSet::new();
        for value in iter {
            set.insert(value);
        }
        set
    }
}
