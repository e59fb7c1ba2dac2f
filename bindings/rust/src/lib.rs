//! A proved CFDP station (CCSDS 727.0-B-5, class 2) over AOS frames, with its files in memory or in
//! folders.
//!
//! ```
//! # fn main() -> Result<(), cfdp::Error> {
//! use cfdp::{Config, Station};
//!
//! let config = Config::new(1, 2);
//! let mut one = Station::open(&config)?;
//! let mut two = Station::open(&config.of_peer())?;
//! one.add(b"a.txt", b"hello")?;
//! one.put(b"a.txt", b"b.txt")?;
//! while let Some(frame) = one.transmit()? {
//!     two.receive(&frame); // your link is here
//! }
//! let file = two.file(0)?.expect("it is published");
//! assert_eq!((file.name, file.octets), (b"b.txt".to_vec(), b"hello".to_vec()));
//! # Ok(())
//! # }
//! ```
//!
//! Files, names and frames are any octets. A station may go from one thread to another (`Send`),
//! but isn't shared between threads (not `Sync`):
//!
//! ```compile_fail,E0277
//! fn shared<T: Sync>() {}
//! shared::<cfdp::Station>();
//! ```
//!
//! Its contracts, and what is proved of them, are those of `cfdp.h`; of this wrapper nothing is
//! proved. Enums and structs that a later release may extend are `#[non_exhaustive]`.
#![deny(unsafe_code, missing_docs)]
#![warn(missing_debug_implementations)]

mod codes;
mod config;
mod error;
#[allow(unsafe_code, missing_docs, missing_debug_implementations)]
mod ffi;
mod indication;
mod journal;
mod lists;
mod pdu;
mod security;
mod station;

pub use codes::{
    ChecksumType, Condition, Delivery, FileStatus, Handler, TransactionStatus, UnknownChecksumType,
};
pub use config::{Config, Link};
pub use error::{Error, Field, PduError};
pub use ffi::{Counters, FrameDrops, Id, PduDrops, SentPdus};
pub use indication::{Indication, Indications};
pub use journal::{Journal, JournalState};
pub use lists::{Files, Frames, Phase, Transaction, Transactions};
pub use pdu::{decode, Acknowledged, Content, Pdu};
pub use security::{Opener, Sealer, Security};
pub use station::{File, Lane, Polled, Station};

/// Returns the number of the library's interface: `CFDP_VERSION` of the `cfdp.h` that it was made
/// with.
#[must_use]
pub fn version() -> u32 {
    ffi::version()
}
