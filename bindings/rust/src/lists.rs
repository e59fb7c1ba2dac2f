use std::iter::FusedIterator;

use crate::error::Error;
use crate::ffi::{Id, Listed};
use crate::station::{gave, File, Station};

/// The frames that a station must send, those of directives first. It ends after an error.
#[derive(Debug)]
pub struct Frames<'a> {
    station: &'a mut Station,
    is_over: bool,
}

/// The published files of a station. It ends after an error.
#[derive(Debug)]
pub struct Files<'a> {
    station: &'a Station,
    index: usize,
    is_over: bool,
}

/// The transactions of a station. It ends after an error.
#[derive(Debug)]
pub struct Transactions<'a> {
    station: &'a Station,
    cursor: usize,
    is_over: bool,
}

/// A transaction that has a record at a station.
#[derive(Clone, Copy, Debug, PartialEq, Eq)]
#[non_exhaustive]
pub struct Transaction {
    /// Its name.
    pub id: Id,
    /// How far it has come.
    pub phase: Phase,
}

/// How far a transaction has come.
#[derive(Clone, Copy, Debug, PartialEq, Eq, Hash)]
#[non_exhaustive]
pub enum Phase {
    /// At the sender: the file goes out, until its receiver says Finished.
    Sending,
    /// At the sender: it was cancelled, which isn't acknowledged yet.
    Cancelling,
    /// At the receiver: the file comes in.
    Receiving,
    /// At the receiver: it is over, and Finished isn't acknowledged yet.
    Finishing,
    /// At either: it is over, and nothing is waited for. The record stays until it is forgotten.
    Closed,
}

/// The next item: what this gives, unless an error came before or nothing is left.
pub(crate) fn next_of<T>(
    is_over: &mut bool,
    give: impl FnOnce() -> Result<Option<T>, Error>,
) -> Option<Result<T, Error>> {
    if *is_over {
        return None;
    }
    let item = give().transpose();
    *is_over = !matches!(item, Some(Ok(_)));
    item
}

impl<'a> Frames<'a> {
    pub(crate) fn of(station: &'a mut Station) -> Frames<'a> {
        Frames { station, is_over: false }
    }
}

impl Iterator for Frames<'_> {
    type Item = Result<Vec<u8>, Error>;

    fn next(&mut self) -> Option<Result<Vec<u8>, Error>> {
        let station = &mut *self.station;
        next_of(&mut self.is_over, || station.transmit())
    }
}

impl FusedIterator for Frames<'_> {}

impl<'a> Files<'a> {
    pub(crate) fn of(station: &'a Station) -> Files<'a> {
        Files { station, index: 0, is_over: false }
    }
}

impl Iterator for Files<'_> {
    type Item = Result<File, Error>;

    fn next(&mut self) -> Option<Result<File, Error>> {
        let index = self.index;
        self.index += 1;
        next_of(&mut self.is_over, || self.station.file(index))
    }
}

impl FusedIterator for Files<'_> {}

impl<'a> Transactions<'a> {
    pub(crate) fn of(station: &'a Station) -> Transactions<'a> {
        Transactions { station, cursor: 0, is_over: false }
    }
}

impl Iterator for Transactions<'_> {
    type Item = Result<Transaction, Error>;

    fn next(&mut self) -> Option<Result<Transaction, Error>> {
        let (cursor, station) = (&mut self.cursor, self.station);
        next_of(&mut self.is_over, || {
            let mut listed = Listed::default();
            if !gave(station.handle().borrow_mut().transactions(cursor, &mut listed))? {
                return Ok(None);
            }
            Ok(Some(Transaction { id: listed.id, phase: Phase::of(listed.phase)? }))
        })
    }
}

impl FusedIterator for Transactions<'_> {}

impl Phase {
    fn of(number: u8) -> Result<Phase, Error> {
        match number {
            1 => Ok(Phase::Sending),
            2 => Ok(Phase::Cancelling),
            3 => Ok(Phase::Receiving),
            4 => Ok(Phase::Finishing),
            5 => Ok(Phase::Closed),
            _ => Err(Error::Unexpected(number.into())),
        }
    }
}
