//! Stands in for `dashmap`: one table behind one lock, with the few calls that the crate makes.

use std::{
    collections::HashMap,
    hash::{BuildHasher, Hash},
    marker::PhantomData,
    sync::{Arc, RwLock, RwLockReadGuard},
};

/// Entries in buckets by their hash.
pub struct Table<K, V> {
    buckets: HashMap<u64, Vec<(K, Arc<V>)>>,
}

impl<K, V> Table<K, V> {
    pub fn get(
        &self,
        hash: u64,
        mut same: impl FnMut(&(K, Arc<V>)) -> bool,
    ) -> Option<&(K, Arc<V>)> {
        self.buckets.get(&hash)?.iter().find(|entry| same(entry))
    }
}

pub struct Shard<K, V> {
    table: RwLock<Table<K, V>>,
}

impl<K, V> Shard<K, V> {
    pub fn read(&self) -> RwLockReadGuard<'_, Table<K, V>> {
        self.table.read().unwrap()
    }
}

pub struct DashMap<K, V, S> {
    shards: [Shard<K, V>; 1],
    hasher: S,
}

impl<K: Eq + Hash, V, S: BuildHasher> DashMap<K, V, S> {
    pub fn with_hasher(hasher: S) -> Self {
        let table = RwLock::new(Table {
            buckets: HashMap::new(),
        });
        Self {
            shards: [Shard { table }],
            hasher,
        }
    }

    pub fn shards(&self) -> &[Shard<K, V>] {
        &self.shards
    }

    pub fn determine_shard(&self, _hash: usize) -> usize {
        0
    }

    pub fn clear(&self) {
        self.shards[0].table.write().unwrap().buckets.clear();
    }

    pub fn insert(&self, key: K, value: V) {
        let hash = self.hasher.hash_one(&key);
        let mut table = self.shards[0].table.write().unwrap();
        let bucket = table.buckets.entry(hash).or_default();
        let value = Arc::new(value);
        match bucket.iter_mut().find(|entry| entry.0 == key) {
            Some(entry) => entry.1 = value,
            None => bucket.push((key, value)),
        }
    }

    pub fn get<Q>(&self, key: &Q) -> Option<mapref::one::Ref<'_, V>>
    where
        K: std::borrow::Borrow<Q>,
        Q: Eq + Hash + ?Sized,
    {
        let hash = self.hasher.hash_one(key);
        let table = self.shards[0].read();
        let found = table.get(hash, |entry| entry.0.borrow() == key)?;
        Some(mapref::one::Ref {
            value: Arc::clone(&found.1),
            lives: PhantomData,
        })
    }

    pub fn entry(&self, key: K) -> mapref::entry::Entry<'_, K, V, S>
    where
        K: Clone,
    {
        let hash = self.hasher.hash_one(&key);
        let found = self.shards[0]
            .read()
            .get(hash, |entry| entry.0 == key)
            .map(|e| e.0.clone());
        match found {
            Some(key) => mapref::entry::Entry::Occupied(mapref::entry::Occupied { key }),
            None => mapref::entry::Entry::Vacant(mapref::entry::Vacant { map: self, key }),
        }
    }
}

pub mod mapref {
    pub mod one {
        use std::{marker::PhantomData, sync::Arc};

        pub struct Ref<'a, V> {
            pub(crate) value: Arc<V>,
            pub(crate) lives: PhantomData<&'a ()>,
        }

        impl<V> Ref<'_, V> {
            pub fn value(&self) -> &V {
                &self.value
            }
        }
    }

    pub mod entry {
        use crate::DashMap;
        use std::hash::{BuildHasher, Hash};

        pub enum Entry<'a, K, V, S> {
            Occupied(Occupied<K>),
            Vacant(Vacant<'a, K, V, S>),
        }

        pub struct Occupied<K> {
            pub(crate) key: K,
        }

        impl<K> Occupied<K> {
            pub fn key(&self) -> &K {
                &self.key
            }
        }

        pub struct Vacant<'a, K, V, S> {
            pub(crate) map: &'a DashMap<K, V, S>,
            pub(crate) key: K,
        }

        impl<K: Eq + Hash, V, S: BuildHasher> Vacant<'_, K, V, S> {
            pub fn insert(self, value: V) {
                self.map.insert(self.key, value);
            }
        }
    }
}
