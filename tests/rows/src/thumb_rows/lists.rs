// Lists of given items.

use std::alloc::Global;
use sts_base::{NoMemory, Seq};

/// A list of these.
pub fn list<T: Copy + Drop>(alloc: Global, items: &[T]) -> Result<Seq<T>, NoMemory> {
    let mut all = Seq::new(alloc);
    for item in items {
        all.push(*item)?;
    }
    Ok(all)
}

/// A list of one.
pub fn one<T: Drop>(alloc: Global, item: T) -> Result<Seq<T>, NoMemory> {
    let mut all = Seq::new(alloc);
    all.push(item)?;
    Ok(all)
}
