use std::iter::FusedIterator;

use crate::codes::{Condition, Delivery, FileStatus};
use crate::error::Error;
use crate::ffi::{Id, Told};
use crate::lists::next_of;
use crate::station::{gave, Station};

/// What a station reports to its user of a transaction (CCSDS 727.0-B-5, section 3).
///
/// # Examples
///
/// ```
/// use cfdp::{Condition, Config, Indication, Station};
///
/// let mut station = Station::open(&Config::new(1, 2))?;
/// station.add(b"a", b"hello")?;
/// let id = station.put(b"a", b"b")?;
/// station.cancel(id)?;
/// let told = station.indications().collect::<Result<Vec<_>, _>>()?;
/// assert_eq!(told[0], Indication::Transaction { id });
/// assert!(told.iter().all(|it| it.id() == id && !it.is_complete()));
/// # Ok::<(), cfdp::Error>(())
/// ```
#[derive(Clone, Debug, PartialEq, Eq)]
#[non_exhaustive]
pub enum Indication {
    /// A put was accepted.
    Transaction {
        /// The transaction.
        id: Id,
    },
    /// The EOF was sent for the first time.
    EofSent {
        /// The transaction.
        id: Id,
    },
    /// Metadata came.
    MetadataRecv {
        /// The transaction.
        id: Id,
        /// The file's name at its sender.
        source: Vec<u8>,
        /// The file's name at its receiver.
        destination: Vec<u8>,
        /// Octets of the file.
        size: u64,
    },
    /// An EOF without an error came.
    EofRecv {
        /// The transaction.
        id: Id,
    },
    /// It is over here.
    Finished {
        /// The transaction.
        id: Id,
        /// Why it is over.
        condition: Condition,
        /// Whether all of the file was received.
        delivery: Delivery,
        /// What became of the file at its receiver.
        status: FileStatus,
    },
    /// It is suspended.
    Suspended {
        /// The transaction.
        id: Id,
        /// Why.
        condition: Condition,
    },
    /// It goes on.
    Resumed {
        /// The transaction.
        id: Id,
    },
    /// Something went wrong.
    Fault {
        /// The transaction.
        id: Id,
        /// What it was.
        condition: Condition,
    },
    /// It was abandoned, and the peer isn't notified.
    Abandoned {
        /// The transaction.
        id: Id,
        /// Why.
        condition: Condition,
    },
    /// How far the receiver holds the file.
    Progress {
        /// The transaction.
        id: Id,
        /// Octets from the start of the file on that the receiver holds.
        size: u64,
    },
}

impl Indication {
    /// Returns the transaction that it is of.
    #[must_use]
    pub fn id(&self) -> Id {
        match *self {
            Indication::Transaction { id }
            | Indication::EofSent { id }
            | Indication::MetadataRecv { id, .. }
            | Indication::EofRecv { id }
            | Indication::Finished { id, .. }
            | Indication::Suspended { id, .. }
            | Indication::Resumed { id }
            | Indication::Fault { id, .. }
            | Indication::Abandoned { id, .. }
            | Indication::Progress { id, .. } => id,
        }
    }

    /// Returns `true` if the transaction is over and the file is published: Finished with no error,
    /// data complete, file retained.
    #[must_use]
    pub fn is_complete(&self) -> bool {
        matches!(
            self,
            Indication::Finished {
                condition: Condition::NoError,
                delivery: Delivery::Complete,
                status: FileStatus::Retained,
                ..
            }
        )
    }

    pub(crate) fn of(told: &Told, names: &[u8]) -> Result<Indication, Error> {
        let (id, condition, size) = (told.id, Condition::from(told.condition), told.size);
        Ok(match told.kind {
            1 => Indication::Transaction { id },
            2 => Indication::EofSent { id },
            3 => {
                let end = told.source_len + told.destination_len;
                let source = names[..told.source_len].to_vec();
                let destination = names[told.source_len..end].to_vec();
                Indication::MetadataRecv { id, source, destination, size }
            }
            4 => Indication::EofRecv { id },
            5 => Indication::Finished {
                id,
                condition,
                delivery: Delivery::of(told.delivery)?,
                status: FileStatus::of(told.status)?,
            },
            6 => Indication::Suspended { id, condition },
            7 => Indication::Resumed { id },
            8 => Indication::Fault { id, condition },
            9 => Indication::Abandoned { id, condition },
            10 => Indication::Progress { id, size },
            other => return Err(Error::Unexpected(other.into())),
        })
    }
}

/// The indications that weren't read yet. The station releases one that is read. It ends after an
/// error.
#[derive(Debug)]
pub struct Indications<'a> {
    station: &'a mut Station,
    is_over: bool,
}

impl<'a> Indications<'a> {
    pub(crate) fn of(station: &'a mut Station) -> Indications<'a> {
        Indications { station, is_over: false }
    }
}

/// The next one, if there is one.
fn read(station: &Station) -> Result<Option<Indication>, Error> {
    let (mut told, mut names) = (Told::default(), [0; 510]);
    if !gave(station.handle().borrow_mut().next_indication(&mut told, &mut names))? {
        return Ok(None);
    }
    Indication::of(&told, &names).map(Some)
}

impl Iterator for Indications<'_> {
    type Item = Result<Indication, Error>;

    fn next(&mut self) -> Option<Result<Indication, Error>> {
        next_of(&mut self.is_over, || read(self.station))
    }
}

impl FusedIterator for Indications<'_> {}
