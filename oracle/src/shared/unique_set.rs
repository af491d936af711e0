//! SHIM: a set of names; equality, order and hash by keys, without locations; walks by rising key
//! (for abilities: copy, drop, store, key).
use crate::shared::TName;
use std::{
    cmp::Ordering,
    collections::{btree_map, BTreeMap},
    fmt,
    hash::{Hash, Hasher},
};

pub struct UniqueSet<T: TName>(BTreeMap<T::Key, T::Loc>);

impl<T: TName> Clone for UniqueSet<T> {
    fn clone(&self) -> Self {
        UniqueSet(self.0.clone())
    }
}
impl<T: TName> fmt::Debug for UniqueSet<T>
where
    T::Key: fmt::Debug,
{
    fn fmt(&self, f: &mut fmt::Formatter) -> fmt::Result {
        f.debug_set().entries(self.0.keys()).finish()
    }
}
impl<T: TName> PartialEq for UniqueSet<T> {
    fn eq(&self, other: &Self) -> bool {
        self.0.keys().eq(other.0.keys())
    }
}
impl<T: TName> Eq for UniqueSet<T> {}
impl<T: TName> PartialOrd for UniqueSet<T> {
    fn partial_cmp(&self, other: &Self) -> Option<Ordering> {
        Some(self.cmp(other))
    }
}
impl<T: TName> Ord for UniqueSet<T> {
    fn cmp(&self, other: &Self) -> Ordering {
        self.0.keys().cmp(other.0.keys())
    }
}
impl<T: TName> Hash for UniqueSet<T>
where
    T::Key: Hash,
{
    fn hash<H: Hasher>(&self, state: &mut H) {
        for k in self.0.keys() {
            k.hash(state)
        }
    }
}

impl<T: TName> UniqueSet<T> {
    pub fn new() -> Self {
        UniqueSet(BTreeMap::new())
    }
    pub fn len(&self) -> usize {
        self.0.len()
    }
    pub fn is_empty(&self) -> bool {
        self.0.is_empty()
    }
    pub fn add(&mut self, elem: T) -> Result<(), (T, T::Loc)> {
        let old = self.0.get(elem.borrow().1).copied();
        if let Some(l) = old {
            return Err((elem, l));
        }
        let (loc, key) = elem.drop_loc();
        self.0.insert(key, loc);
        Ok(())
    }
    pub fn contains(&self, elem: &T) -> bool {
        self.0.contains_key(elem.borrow().1)
    }
    pub fn contains_(&self, key: &T::Key) -> bool {
        self.0.contains_key(key)
    }
    pub fn intersect(&self, other: &Self) -> Self {
        UniqueSet(self.0.iter().filter(|(k, _)| other.0.contains_key(k)).map(|(k, l)| (k.clone(), *l)).collect())
    }
    pub fn union(&self, other: &Self) -> Self {
        let mut m = other.0.clone();
        for (k, l) in &self.0 {
            m.insert(k.clone(), *l);
        }
        UniqueSet(m)
    }
    pub fn is_subset(&self, other: &Self) -> bool {
        self.0.keys().all(|k| other.0.contains_key(k))
    }
    pub fn from_elements(iter: impl IntoIterator<Item = T>) -> Result<Self, (T::Key, T::Loc, T::Loc)> {
        let mut s = Self::new();
        for t in iter {
            if let Err((t, old)) = s.add(t) {
                let (l, k) = t.drop_loc();
                return Err((k, l, old));
            }
        }
        Ok(s)
    }
    pub fn from_elements_(
        loc: T::Loc,
        iter: impl IntoIterator<Item = T::Key>,
    ) -> Result<Self, (T::Key, T::Loc, T::Loc)> {
        Self::from_elements(iter.into_iter().map(|k| T::add_loc(loc, k)))
    }
    pub fn iter(&self) -> Iter<'_, T> {
        Iter(self.0.iter())
    }
}

pub struct Iter<'a, T: TName>(btree_map::Iter<'a, T::Key, T::Loc>);

impl<'a, T: TName> Iterator for Iter<'a, T> {
    type Item = (T::Loc, &'a T::Key);
    fn next(&mut self) -> Option<Self::Item> {
        self.0.next().map(|(k, l)| (*l, k))
    }
    fn size_hint(&self) -> (usize, Option<usize>) {
        self.0.size_hint()
    }
}

pub struct IntoIter<T: TName>(btree_map::IntoIter<T::Key, T::Loc>);

impl<T: TName> Iterator for IntoIter<T> {
    type Item = T;
    fn next(&mut self) -> Option<T> {
        self.0.next().map(|(k, l)| T::add_loc(l, k))
    }
    fn size_hint(&self) -> (usize, Option<usize>) {
        self.0.size_hint()
    }
}

impl<T: TName> IntoIterator for UniqueSet<T> {
    type Item = T;
    type IntoIter = IntoIter<T>;
    fn into_iter(self) -> IntoIter<T> {
        IntoIter(self.0.into_iter())
    }
}
