//! In place of the crate `indexmap`, which the Rust's lowering names and never calls.
#[derive(Debug, Clone)]
pub struct IndexMap<K, V>(Vec<(K, V)>);

impl<K, V> IndexMap<K, V> {
    pub fn with_capacity(_: usize) -> Self {
        Self(Vec::new())
    }

    pub fn insert(&mut self, k: K, v: V) {
        self.0.push((k, v));
    }

    pub fn get<Q: ?Sized + PartialEq>(&self, q: &Q) -> Option<&V>
    where
        K: std::borrow::Borrow<Q>,
    {
        self.0.iter().find(|(k, _)| k.borrow() == q).map(|(_, v)| v)
    }
}
