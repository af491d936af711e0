//! SHIM: a map from names to values, by the name's key, without its location.
use crate::shared::TName;
use std::{collections::BTreeMap, fmt};

pub struct UniqueMap<K: TName, V>(pub BTreeMap<K::Key, (K::Loc, V)>);

impl<K: TName, V: Clone> Clone for UniqueMap<K, V> {
    fn clone(&self) -> Self {
        UniqueMap(self.0.clone())
    }
}

impl<K: TName, V: fmt::Debug> fmt::Debug for UniqueMap<K, V>
where
    K::Key: fmt::Debug,
{
    fn fmt(&self, f: &mut fmt::Formatter) -> fmt::Result {
        f.debug_map().entries(self.0.iter().map(|(k, (_, v))| (k, v))).finish()
    }
}

impl<K: TName, V: PartialEq> PartialEq for UniqueMap<K, V> {
    fn eq(&self, other: &Self) -> bool {
        self.0.len() == other.0.len()
            && self.0.iter().zip(&other.0).all(|((k1, (_, v1)), (k2, (_, v2)))| k1 == k2 && v1 == v2)
    }
}
impl<K: TName, V: Eq> Eq for UniqueMap<K, V> {}

impl<K: TName, V> UniqueMap<K, V> {
    pub fn new() -> Self {
        UniqueMap(BTreeMap::new())
    }
    pub fn len(&self) -> usize {
        self.0.len()
    }
    pub fn is_empty(&self) -> bool {
        self.0.is_empty()
    }
    pub fn add(&mut self, key: K, value: V) -> Result<(), (K, K::Loc)> {
        if let Some(old) = self.get_loc(&key) {
            let old = *old;
            return Err((key, old));
        }
        let (loc, k) = key.drop_loc();
        self.0.insert(k, (loc, value));
        Ok(())
    }
    pub fn contains_key(&self, key: &K) -> bool {
        self.0.contains_key(key.borrow().1)
    }
    pub fn contains_key_(&self, key: &K::Key) -> bool {
        self.0.contains_key(key)
    }
    pub fn get(&self, key: &K) -> Option<&V> {
        self.0.get(key.borrow().1).map(|(_, v)| v)
    }
    pub fn get_mut(&mut self, key: &K) -> Option<&mut V> {
        self.0.get_mut(key.borrow().1).map(|(_, v)| v)
    }
    pub fn get_loc(&self, key: &K) -> Option<&K::Loc> {
        self.0.get(key.borrow().1).map(|(l, _)| l)
    }
    pub fn remove(&mut self, key: &K) -> Option<V> {
        self.0.remove(key.borrow().1).map(|(_, v)| v)
    }
    pub fn remove_(&mut self, key: &K::Key) -> Option<V> {
        self.0.remove(key).map(|(_, v)| v)
    }
    pub fn ref_map<F, T>(&self, mut f: F) -> UniqueMap<K, T>
    where
        F: FnMut(K, &V) -> T,
    {
        UniqueMap(self.0.iter().map(|(k, (l, v))| (k.clone(), (*l, f(K::add_loc(*l, k.clone()), v)))).collect())
    }
    pub fn maybe_from_iter(iter: impl Iterator<Item = (K, V)>) -> Result<UniqueMap<K, V>, (K::Key, K::Loc, K::Loc)> {
        let mut m = Self::new();
        for (k, v) in iter {
            let (loc, key) = {
                let (l, k_) = k.borrow();
                (*l, k_.clone())
            };
            if let Err((_, old)) = m.add(k, v) {
                return Err((key, loc, old));
            }
        }
        Ok(m)
    }
    pub fn key_cloned_iter(&self) -> impl Iterator<Item = (K, &V)> {
        self.0.iter().map(|(k, (l, v))| (K::add_loc(*l, k.clone()), v))
    }
    pub fn iter<'a>(&'a self) -> std::vec::IntoIter<(K::Loc, &'a K::Key, &'a V)> {
        self.into_iter()
    }
    pub fn iter_mut<'a>(&'a mut self) -> impl Iterator<Item = (K::Loc, &'a K::Key, &'a mut V)>
    where
        K: 'a,
        K::Key: 'a,
        K::Loc: 'a,
    {
        self.0.iter_mut().map(|(k, (l, v))| (*l, k, v))
    }
}

impl<'a, K: TName, V> IntoIterator for &'a UniqueMap<K, V> {
    type Item = (K::Loc, &'a K::Key, &'a V);
    type IntoIter = std::vec::IntoIter<Self::Item>;
    fn into_iter(self) -> Self::IntoIter {
        self.0.iter().map(|(k, (l, v))| (*l, k, v)).collect::<Vec<_>>().into_iter()
    }
}

impl<K: TName, V> IntoIterator for UniqueMap<K, V> {
    type Item = (K, V);
    type IntoIter = std::vec::IntoIter<(K, V)>;
    fn into_iter(self) -> Self::IntoIter {
        self.0.into_iter().map(|(k, (l, v))| (K::add_loc(l, k), v)).collect::<Vec<_>>().into_iter()
    }
}
