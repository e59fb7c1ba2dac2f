//! The standard's codes (CCSDS 727.0-B-5).

use std::fmt;

use crate::error::Error;

/// A condition code (table 5-5): why a transaction ended, or what went wrong with it.
///
/// # Examples
///
/// ```
/// use cfdp::Condition;
///
/// assert_eq!(Condition::from(7), Condition::NakLimit);
/// assert_eq!(Condition::NakLimit.code(), 7);
/// assert_eq!(Condition::NakLimit.to_string(), "NAK limit reached");
/// ```
#[derive(Clone, Copy, Debug, PartialEq, Eq, Hash)]
#[non_exhaustive]
pub enum Condition {
    /// 0: all went well.
    NoError,
    /// 1: an EOF or a Finished was sent again up to its limit.
    AckLimit,
    /// 2: read from a peer alone.
    KeepAliveLimit,
    /// 3: read from a peer alone.
    TransmissionMode,
    /// 4: a filestore rejected something.
    Filestore,
    /// 5: the file that was received has another checksum.
    Checksum,
    /// 6: the file that was received has another size.
    FileSize,
    /// 7: what is missing did not come, asked for up to the limit.
    NakLimit,
    /// 8: nothing was received for too long.
    Inactivity,
    /// 10: read from a peer alone.
    CheckLimit,
    /// 11: the checksum type isn't supported.
    ChecksumType,
    /// 14: a user suspended the transaction.
    Suspended,
    /// 15: a user cancelled the transaction.
    Cancelled,
    /// A code that the standard gives no meaning.
    Other(u8),
}

impl Condition {
    /// Returns the code.
    #[must_use]
    pub fn code(self) -> u8 {
        match self {
            Condition::NoError => 0,
            Condition::AckLimit => 1,
            Condition::KeepAliveLimit => 2,
            Condition::TransmissionMode => 3,
            Condition::Filestore => 4,
            Condition::Checksum => 5,
            Condition::FileSize => 6,
            Condition::NakLimit => 7,
            Condition::Inactivity => 8,
            Condition::CheckLimit => 10,
            Condition::ChecksumType => 11,
            Condition::Suspended => 14,
            Condition::Cancelled => 15,
            Condition::Other(code) => code,
        }
    }
}

impl From<u8> for Condition {
    fn from(code: u8) -> Condition {
        match code {
            0 => Condition::NoError,
            1 => Condition::AckLimit,
            2 => Condition::KeepAliveLimit,
            3 => Condition::TransmissionMode,
            4 => Condition::Filestore,
            5 => Condition::Checksum,
            6 => Condition::FileSize,
            7 => Condition::NakLimit,
            8 => Condition::Inactivity,
            10 => Condition::CheckLimit,
            11 => Condition::ChecksumType,
            14 => Condition::Suspended,
            15 => Condition::Cancelled,
            code => Condition::Other(code),
        }
    }
}

impl fmt::Display for Condition {
    fn fmt(&self, f: &mut fmt::Formatter<'_>) -> fmt::Result {
        f.write_str(match self {
            Condition::NoError => "no error",
            Condition::AckLimit => "positive ACK limit reached",
            Condition::KeepAliveLimit => "keep alive limit reached",
            Condition::TransmissionMode => "invalid transmission mode",
            Condition::Filestore => "filestore rejection",
            Condition::Checksum => "file checksum failure",
            Condition::FileSize => "file size error",
            Condition::NakLimit => "NAK limit reached",
            Condition::Inactivity => "inactivity detected",
            Condition::CheckLimit => "check limit reached",
            Condition::ChecksumType => "unsupported checksum type",
            Condition::Suspended => "suspend request received",
            Condition::Cancelled => "cancel request received",
            Condition::Other(code) => return write!(f, "condition {code}"),
        })
    }
}

/// Whether all of a file was received (table 5-7).
#[derive(Clone, Copy, Debug, PartialEq, Eq, Hash)]
pub enum Delivery {
    /// All of it.
    Complete,
    /// Not all of it.
    Incomplete,
}

/// What became of a file at its receiver (table 5-7).
#[derive(Clone, Copy, Debug, PartialEq, Eq, Hash)]
pub enum FileStatus {
    /// The receiver discarded it.
    Discarded,
    /// The receiver's filestore rejected it.
    Rejected,
    /// It is published.
    Retained,
    /// Nothing is said of it.
    Unreported,
}

/// How far a transaction is at the station that sent an ACK (table 5-8).
#[derive(Clone, Copy, Debug, PartialEq, Eq, Hash)]
pub enum TransactionStatus {
    /// The station doesn't know it, and may have forgotten it.
    Undefined,
    /// It is open.
    Active,
    /// It is over.
    Terminated,
    /// The station never had it.
    Unrecognized,
}

/// What is done if a limit is reached, or nothing is received for too long (4.8).
#[derive(Clone, Copy, Debug, PartialEq, Eq, Hash)]
pub enum Handler {
    /// The transaction is cancelled.
    Cancel,
    /// The transaction is suspended.
    Suspend,
    /// It goes on.
    Ignore,
    /// The transaction is abandoned, and the peer isn't notified.
    Abandon,
}

/// The type of a file's checksum (SANA's registry).
///
/// # Examples
///
/// ```
/// use cfdp::ChecksumType;
///
/// assert_eq!(ChecksumType::try_from(3), Ok(ChecksumType::Ieee));
/// assert!(ChecksumType::try_from(4).is_err());
/// ```
#[derive(Clone, Copy, Debug, PartialEq, Eq, Hash)]
#[non_exhaustive]
pub enum ChecksumType {
    /// 0: the sum of words.
    Modular,
    /// 1: CRC-32 of Proximity-1.
    Proximity1,
    /// 2: CRC-32C.
    Castagnoli,
    /// 3: CRC-32 of IEEE 802.3.
    Ieee,
    /// 15: none. The checksum is 0, and nobody compares it.
    Null,
}

impl Delivery {
    pub(crate) fn of(code: u8) -> Result<Delivery, Error> {
        match code {
            0 => Ok(Delivery::Complete),
            1 => Ok(Delivery::Incomplete),
            _ => Err(Error::Unexpected(code.into())),
        }
    }
}

impl FileStatus {
    pub(crate) fn of(code: u8) -> Result<FileStatus, Error> {
        match code {
            0 => Ok(FileStatus::Discarded),
            1 => Ok(FileStatus::Rejected),
            2 => Ok(FileStatus::Retained),
            3 => Ok(FileStatus::Unreported),
            _ => Err(Error::Unexpected(code.into())),
        }
    }
}

impl TransactionStatus {
    pub(crate) fn of(code: u8) -> Result<TransactionStatus, Error> {
        match code {
            0 => Ok(TransactionStatus::Undefined),
            1 => Ok(TransactionStatus::Active),
            2 => Ok(TransactionStatus::Terminated),
            3 => Ok(TransactionStatus::Unrecognized),
            _ => Err(Error::Unexpected(code.into())),
        }
    }
}

impl Handler {
    pub(crate) fn number(self) -> u8 {
        match self {
            Handler::Cancel => 0,
            Handler::Suspend => 1,
            Handler::Ignore => 2,
            Handler::Abandon => 3,
        }
    }

    pub(crate) fn of(number: u8) -> Option<Handler> {
        match number {
            0 => Some(Handler::Cancel),
            1 => Some(Handler::Suspend),
            2 => Some(Handler::Ignore),
            3 => Some(Handler::Abandon),
            _ => None,
        }
    }
}

impl ChecksumType {
    /// Returns the type's number.
    #[must_use]
    pub fn number(self) -> u8 {
        match self {
            ChecksumType::Modular => 0,
            ChecksumType::Proximity1 => 1,
            ChecksumType::Castagnoli => 2,
            ChecksumType::Ieee => 3,
            ChecksumType::Null => 15,
        }
    }
}

/// A number that no checksum type has which a station can compute.
#[derive(Clone, Copy, Debug, PartialEq, Eq)]
pub struct UnknownChecksumType(
    /// The number.
    pub u8,
);

impl fmt::Display for UnknownChecksumType {
    fn fmt(&self, f: &mut fmt::Formatter<'_>) -> fmt::Result {
        write!(f, "unknown checksum type {}", self.0)
    }
}

impl std::error::Error for UnknownChecksumType {}

impl TryFrom<u8> for ChecksumType {
    type Error = UnknownChecksumType;

    fn try_from(number: u8) -> Result<ChecksumType, UnknownChecksumType> {
        match number {
            0 => Ok(ChecksumType::Modular),
            1 => Ok(ChecksumType::Proximity1),
            2 => Ok(ChecksumType::Castagnoli),
            3 => Ok(ChecksumType::Ieee),
            15 => Ok(ChecksumType::Null),
            number => Err(UnknownChecksumType(number)),
        }
    }
}
