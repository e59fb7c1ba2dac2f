use crate::codes::{Condition, Delivery, FileStatus, TransactionStatus};
use crate::error::Error;
use crate::ffi::{self, Id};

/// A PDU.
#[derive(Clone, Copy, Debug, PartialEq, Eq)]
#[non_exhaustive]
pub struct Pdu {
    /// The transaction that it is of.
    pub id: Id,
    /// The entity that receives the file.
    pub destination: u64,
    /// Whether it goes toward the file's sender.
    pub toward_sender: bool,
    /// Whether sizes and offsets have 8 octets, and not 4.
    pub large: bool,
    /// Whether it ends in a CRC, of 2 octets.
    pub crc: bool,
    /// What it says.
    pub content: Content,
}

/// What a PDU says, by its kind.
#[derive(Clone, Copy, Debug, PartialEq, Eq)]
#[non_exhaustive]
pub enum Content {
    /// Octets of the file.
    FileData {
        /// Where they begin in the file.
        offset: u64,
        /// How many they are: the last octets of the PDU, before its CRC.
        data_len: usize,
    },
    /// The end of the file.
    Eof {
        /// Why the file ends.
        condition: Condition,
        /// The file's checksum.
        checksum: u32,
        /// Octets of the file.
        size: u64,
    },
    /// The receiver is done.
    Finished {
        /// Why it is.
        condition: Condition,
        /// Whether all of the file was received.
        delivery: Delivery,
        /// What became of the file.
        status: FileStatus,
    },
    /// An acknowledgement.
    Ack {
        /// What it acknowledges.
        acknowledged: Acknowledged,
        /// The condition of what it acknowledges.
        condition: Condition,
        /// How far the transaction is.
        status: TransactionStatus,
    },
    /// What file it is.
    Metadata {
        /// The number of the checksum type.
        /// [`ChecksumType`](crate::ChecksumType) has those that a station can compute.
        checksum_type: u8,
        /// Octets of the file.
        size: u64,
    },
    /// What the receiver asks for again.
    Nak {
        /// Where the scope begins.
        start: u64,
        /// Where the scope ends.
        end: u64,
        /// How many ranges are asked for.
        ranges: usize,
    },
    /// A request for a NAK or a Keep Alive.
    Prompt {
        /// Whether it asks for a Keep Alive.
        keep_alive: bool,
    },
    /// How far the receiver is.
    KeepAlive {
        /// Octets from the start of the file on.
        progress: u64,
    },
}

/// What an ACK acknowledges.
#[derive(Clone, Copy, Debug, PartialEq, Eq, Hash)]
pub enum Acknowledged {
    /// An EOF.
    Eof,
    /// A Finished.
    Finished,
}

/// Reads a PDU.
///
/// # Errors
///
/// `BadPdu` if the octets are no PDU: the first thing that is wrong with them.
///
/// # Examples
///
/// ```
/// use cfdp::{decode, Content, Error, PduError};
///
/// let prompt = b"\x20\x00\x02\x13\x00\x01\x00\x00\x00\x01\x00\x02\x09\x80";
/// assert_eq!(decode(prompt)?.content, Content::Prompt { keep_alive: true });
/// assert_eq!(decode(&prompt[..3]), Err(Error::BadPdu(PduError::Short)));
/// # Ok::<(), Error>(())
/// ```
pub fn decode(pdu: &[u8]) -> Result<Pdu, Error> {
    let mut it = ffi::Pdu::default();
    Error::check(ffi::decode(pdu, &mut it))?;
    Ok(Pdu {
        id: it.id,
        destination: it.destination,
        toward_sender: it.toward_sender == 1,
        large: it.large == 1,
        crc: it.crc == 1,
        content: Content::of(&it)?,
    })
}

impl Content {
    fn of(it: &ffi::Pdu) -> Result<Content, Error> {
        let condition = Condition::from(it.condition);
        Ok(match it.kind {
            0 => Content::FileData { offset: it.offset, data_len: it.data_len },
            4 => Content::Eof { condition, checksum: it.checksum, size: it.size },
            5 => Content::Finished {
                condition,
                delivery: Delivery::of(it.delivery)?,
                status: FileStatus::of(it.status)?,
            },
            6 => Content::Ack {
                acknowledged: Acknowledged::of(it.acknowledged)?,
                condition,
                status: TransactionStatus::of(it.status)?,
            },
            7 => Content::Metadata { checksum_type: it.checksum_kind, size: it.size },
            8 => Content::Nak { start: it.offset, end: it.size, ranges: it.pairs },
            9 => Content::Prompt { keep_alive: it.keep_alive == 1 },
            12 => Content::KeepAlive { progress: it.offset },
            other => return Err(Error::Unexpected(other.into())),
        })
    }
}

impl Acknowledged {
    fn of(code: u8) -> Result<Acknowledged, Error> {
        match code {
            4 => Ok(Acknowledged::Eof),
            5 => Ok(Acknowledged::Finished),
            _ => Err(Error::Unexpected(code.into())),
        }
    }
}
