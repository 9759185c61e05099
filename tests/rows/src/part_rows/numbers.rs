// The numbers of a row.

use crate::part_rows::refusals::refused;
use std::alloc::Global;
use std::io;

/// The numbers of a row, each behind a space.
pub fn numbers(alloc: Global, asked: &str) -> io::Result<Vec<i32>> {
    let mut all = Vec::new(alloc);
    for word in asked.split(' ') {
        match word.parse::<i32>() {
            Ok(number) => all.push(number)?,
            Err(_) => return Err(refused("no number")),
        }
    }
    Ok(all)
}
