//! Ids, arenas and maps: what the data of a package is kept in.

use std::fmt;
use std::marker::PhantomData;
use std::ops::Index;
use std::slice;

/// The place of an entry in an arena.
pub trait Id: Copy {
    /// The id of the entry at a place.
    fn from_index(index: usize) -> Self;

    /// The place of the entry.
    fn index(self) -> usize;
}

macro_rules! ids {
    ($($(#[$doc:meta])* $name:ident;)*) => { $(
        $(#[$doc])*
        #[derive(Clone, Copy, Debug, PartialEq, Eq, PartialOrd, Ord, Hash)]
        pub struct $name(usize);

        impl Id for $name {
            fn from_index(index: usize) -> $name {
                $name(index)
            }

            fn index(self) -> usize {
                self.0
            }
        }

        impl fmt::Display for $name {
            fn fmt(&self, f: &mut fmt::Formatter<'_>) -> fmt::Result {
                self.0.fmt(f)
            }
        }
    )* };
}

ids! {
    /// A package of [`Group::packages`](crate::Group::packages).
    PackageId;
    /// A world of [`Package::worlds`](crate::Package::worlds).
    WorldId;
    /// An interface of [`Package::interfaces`](crate::Package::interfaces).
    InterfaceId;
    /// A type of [`Package::types`](crate::Package::types).
    TypeId;
}

/// Entries in order, each at its id.
#[derive(Clone, Debug, PartialEq, Eq)]
pub struct Arena<I, T> {
    entries: Vec<T>,
    ids: PhantomData<I>,
}

impl<I: Id, T> Arena<I, T> {
    /// How many entries there are.
    #[must_use]
    pub fn len(&self) -> usize {
        self.entries.len()
    }

    /// Whether there is no entry.
    #[must_use]
    pub fn is_empty(&self) -> bool {
        self.entries.is_empty()
    }

    /// The entry of an id, if there is one.
    #[must_use]
    pub fn get(&self, id: I) -> Option<&T> {
        self.entries.get(id.index())
    }

    /// The entries with their ids, in order.
    pub fn iter(&self) -> impl ExactSizeIterator<Item = (I, &T)> {
        self.entries.iter().enumerate().map(|(index, entry)| (I::from_index(index), entry))
    }

    /// The entries, in order.
    pub fn values(&self) -> slice::Iter<'_, T> {
        self.entries.iter()
    }
}

impl<I, T> From<Vec<T>> for Arena<I, T> {
    fn from(entries: Vec<T>) -> Arena<I, T> {
        Arena { entries, ids: PhantomData }
    }
}

impl<I: Id, T> Index<I> for Arena<I, T> {
    type Output = T;

    /// The entry of an id.
    ///
    /// # Panics
    ///
    /// The id is none of this arena. Each id of a package is one of that package's arenas.
    fn index(&self, id: I) -> &T {
        &self.entries[id.index()]
    }
}

/// Values by keys, in order.
#[derive(Clone, Debug, PartialEq, Eq)]
pub struct Map<K, V> {
    entries: Vec<(K, V)>,
}

impl<K, V> Map<K, V> {
    /// How many keys there are.
    #[must_use]
    pub fn len(&self) -> usize {
        self.entries.len()
    }

    /// Whether there is no key.
    #[must_use]
    pub fn is_empty(&self) -> bool {
        self.entries.is_empty()
    }

    /// The value of a key, which is searched from the first one on.
    #[must_use]
    pub fn get<Q: ?Sized>(&self, key: &Q) -> Option<&V>
    where
        K: PartialEq<Q>,
    {
        self.entries.iter().find(|entry| entry.0 == *key).map(|entry| &entry.1)
    }

    /// The keys and their values, in order.
    pub fn iter(&self) -> impl ExactSizeIterator<Item = (&K, &V)> {
        self.entries.iter().map(|(key, value)| (key, value))
    }

    /// The values, in order of their keys.
    pub fn values(&self) -> impl ExactSizeIterator<Item = &V> {
        self.entries.iter().map(|entry| &entry.1)
    }
}

impl<K, V> From<Vec<(K, V)>> for Map<K, V> {
    fn from(entries: Vec<(K, V)>) -> Map<K, V> {
        Map { entries }
    }
}
