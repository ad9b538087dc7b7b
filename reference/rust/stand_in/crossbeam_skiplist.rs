//! Stand-in for the crate `crossbeam-skiplist`: a map ordered by its keys' `Ord` (for the memtable: `key::compare`), behind a lock.

use std::collections::BTreeMap;
use std::ops::{Bound, RangeBounds};
use std::sync::{Arc, RwLock};

pub mod map {
    use std::marker::PhantomData;
    use std::sync::Arc;

    /// One entry, shared with the map.
    pub struct Entry<'a, K, V> {
        pub(crate) key: Arc<K>,
        pub(crate) value: Arc<V>,
        pub(crate) map: PhantomData<&'a ()>,
    }

    impl<K, V> Entry<'_, K, V> {
        pub fn key(&self) -> &K {
            &self.key
        }

        pub fn value(&self) -> &V {
            &self.value
        }
    }
}

use map::Entry;

pub struct SkipMap<K, V> {
    entries: RwLock<BTreeMap<Arc<K>, Arc<V>>>,
}

impl<K: Ord, V> Default for SkipMap<K, V> {
    fn default() -> Self {
        Self {
            entries: RwLock::new(BTreeMap::new()),
        }
    }
}

impl<K: Ord, V> SkipMap<K, V> {
    pub fn insert(&self, key: K, value: V) {
        self.entries
            .write()
            .expect("map lock")
            .insert(Arc::new(key), Arc::new(value));
    }

    pub fn contains_key(&self, key: &K) -> bool {
        self.entries.read().expect("map lock").contains_key(key)
    }

    pub fn len(&self) -> usize {
        self.entries.read().expect("map lock").len()
    }

    pub fn is_empty(&self) -> bool {
        self.len() == 0
    }

    /// The first entry within the bound.
    pub fn lower_bound(&self, from: Bound<&K>) -> Option<Entry<'_, K, V>> {
        let entries = self.entries.read().expect("map lock");
        let (key, value) = entries.range::<K, _>((from, Bound::Unbounded)).next()?;
        Some(Entry {
            key: Arc::clone(key),
            value: Arc::clone(value),
            map: std::marker::PhantomData,
        })
    }

    pub fn iter(&self) -> Range<'_, K, V> {
        Range {
            map: self,
            from: Bound::Unbounded,
        }
    }

    /// The entries from the range's start on. The memtable asks only for ranges without an end.
    pub fn range<R: RangeBounds<K>>(&self, range: R) -> Range<'_, K, V>
    where
        K: Clone,
    {
        assert!(matches!(range.end_bound(), Bound::Unbounded));
        Range {
            map: self,
            from: range.start_bound().map(|k| Arc::new(k.clone())),
        }
    }
}

/// Entries in order, each found by a search behind the one before it.
pub struct Range<'a, K, V> {
    map: &'a SkipMap<K, V>,
    from: Bound<Arc<K>>,
}

impl<'a, K: Ord, V> Iterator for Range<'a, K, V> {
    type Item = Entry<'a, K, V>;

    fn next(&mut self) -> Option<Self::Item> {
        let entry = self.map.lower_bound(self.from.as_ref().map(|k| &**k))?;
        self.from = Bound::Excluded(Arc::clone(&entry.key));
        Some(entry)
    }
}
