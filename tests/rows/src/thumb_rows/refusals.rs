// Why a row isn't answered: the program ends with such an error.

use std::io;
use std::io::ErrorKind;
use sts_base::NoMemory;

/// Want of memory.
pub fn no_memory(_: NoMemory) -> io::Error {
    io::Error::from(ErrorKind::OutOfMemory)
}

/// A row that has no form of its area.
pub fn refused(why: &str) -> io::Error {
    io::Error::new(ErrorKind::InvalidData, why)
}
