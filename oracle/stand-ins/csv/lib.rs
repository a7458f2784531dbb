//! Stand-in for `csv`: files of records are outside the oracle, so that each of these fails.
use std::path::Path;

#[derive(Debug)]
pub struct Error;

pub struct Writer;

impl Writer {
    pub fn from_path<P: AsRef<Path>>(_path: P) -> Result<Self, Error> {
        Err(Error)
    }

    pub fn serialize<T>(&mut self, _record: T) -> Result<(), Error> {
        Err(Error)
    }

    pub fn flush(&mut self) -> Result<(), Error> {
        Err(Error)
    }
}

pub struct Reader;

impl Reader {
    pub fn from_path<P: AsRef<Path>>(_path: P) -> Result<Self, Error> {
        Err(Error)
    }

    pub fn deserialize<T>(&mut self) -> impl Iterator<Item = Result<T, Error>> {
        std::iter::empty()
    }
}
