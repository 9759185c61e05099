// A written type with more `[]` than any text has room for: it is dropped at the end with no call for a level.

use std::alloc::{AllocError, Global};
use sts_syntax::Shape;
use sts_syntax::build::boxed;

const LEVELS: u32 = 2_000_000;

/// A type as a program writes it.
pub fn drop_shape(alloc: Global) -> Result<(), AllocError> {
    let mut shape = Shape::Named { at: 7, name: 3 };
    for _ in 0..LEVELS {
        let Ok(item) = boxed(alloc, shape) else {
            return Err(AllocError);
        };
        shape = Shape::List(item);
    }
    Ok(())
}
