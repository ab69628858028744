//! Stand-in for the crate indexmap: an ordered set, as metadata.rs uses it. A new design makes two sets of one item;
//! nothing is looked up in them or added to them afterwards.

#[derive(Debug, Clone)]
pub struct IndexSet<T> {
    items: Vec<T>,
}

impl<T, const N: usize> From<[T; N]> for IndexSet<T> {
    fn from(items: [T; N]) -> Self {
        IndexSet { items: Vec::from(items) }
    }
}

impl<T> IndexSet<T> {
    pub fn len(&self) -> usize {
        self.items.len()
    }

    pub fn get_index(&self, index: usize) -> Option<&T> {
        self.items.get(index)
    }

    pub fn get_index_of<Q: ?Sized>(&self, _item: &Q) -> Option<usize> {
        panic!("stand-in reached: indexmap, get_index_of")
    }

    pub fn insert_full(&mut self, _item: T) -> (usize, bool) {
        panic!("stand-in reached: indexmap, insert_full")
    }
}
