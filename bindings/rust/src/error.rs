use std::fmt;

/// Why a call did nothing. `cfdp.h` says which call answers which.
#[derive(Clone, Copy, Debug, PartialEq, Eq)]
#[non_exhaustive]
pub enum Error {
    /// A value is out of its range.
    BadArgument,
    /// A field of the configuration is: which one, and what it must be.
    BadField(Field),
    /// There is no memory for it.
    NoMemory,
    /// The borrowed room has the wrong number of octets.
    NoRoom,
    /// The call is of files in memory, and the station has folders.
    InFolders,
    /// The folder to send from isn't there, or can't be read.
    NoOutbox,
    /// The folder to receive into isn't there, or can't be had.
    NoInbox,
    /// Another station receives into that folder.
    InboxInUse,
    /// The journal can't be read, or none can be written there.
    NoJournal,
    /// Another process has the journal.
    JournalInUse,
    /// The journal is of another entity, or with another peer.
    JournalOfOthers,
    /// The journal would lie in a folder that a station receives into.
    JournalMisplaced,
    /// A transaction is still sending the file.
    SourceInUse,
    /// The outbox has a file of that name.
    NameTaken,
    /// The outbox has no file of that name.
    NoSuchFile,
    /// A name hasn't 1 to 255 octets, or no file of a folder may have it.
    BadName,
    /// The file has more than 2^48 octets.
    TooLarge,
    /// The station has 4,096 records: some must be forgotten.
    TableFull,
    /// The next sequence number doesn't fit its width.
    NumbersSpent,
    /// The outbox failed.
    SourceFault,
    /// The transaction has no record here.
    Unknown,
    /// The transaction is over.
    AlreadyClosed,
    /// Only the file's sender can prompt.
    WrongSide,
    /// It is suspended already, or isn't, or a Prompt is due.
    AlreadySo,
    /// The transaction isn't over.
    StillOpen,
    /// A poll must still send an acknowledgement of it.
    AnswerDue,
    /// The octets are no PDU: the first thing that is wrong.
    BadPdu(PduError),
    /// A frame is too short for a frame of the link.
    ShortFrame,
    /// A frame's error control field differs from its check.
    DamagedFrame,
    /// A frame's security parameter index is that of another key.
    UnknownSpi,
    /// A frame's MAC isn't right under the key.
    NotAuthentic,
    /// A frame's sequence number isn't greater than the last one.
    Replayed,
    /// An answer or a code that this crate doesn't know: the library is of another release.
    Unexpected(u32),
}

/// A field of a [`Config`](crate::Config) that isn't in its range.
#[derive(Clone, Copy, Debug, PartialEq, Eq)]
pub struct Field {
    name: &'static str,
    range: &'static str,
}

impl Field {
    /// Returns its name, such as `sends.zone`.
    #[must_use]
    pub fn name(&self) -> &'static str {
        self.name
    }

    /// Returns what it must be, such as `16 to 2040`.
    #[must_use]
    pub fn range(&self) -> &'static str {
        self.range
    }
}

/// What is wrong with a PDU, the first thing.
#[derive(Clone, Copy, Debug, PartialEq, Eq)]
#[non_exhaustive]
pub enum PduError {
    /// It has fewer octets than its header.
    Short,
    /// The version in its header isn't 1.
    Version,
    /// Its CRC is wrong.
    Crc,
    /// The length in its header isn't the length of its data.
    Length,
    /// It has unacknowledged mode (class 1).
    Unacknowledged,
    /// Its directive code is unknown.
    Directive,
    /// A field runs past the end of its data.
    Truncated,
    /// Octets follow its last field.
    Trailing,
    /// A TLV option is incomplete.
    Tlv,
    /// Its condition code is 12 or 13.
    Condition,
}

/// The fields of a configuration, by the numbers 70 to 99, and what each must be.
const FIELDS: [(&str, &str); 30] = [
    ("size", "that of this library's struct"),
    ("id_width", "1 to 8"),
    ("entity", "in id_width octets"),
    ("peer", "in id_width octets, and not entity"),
    ("number_width", "1 to 8"),
    ("segment", "1 to 4096"),
    ("checksum", "0 to 3 or 15"),
    ("eof_time", "at least 1"),
    ("nak_time", "at least 1"),
    ("finished_time", "at least 1"),
    ("inactivity_time", "at least 1"),
    ("capacity", "8192 to 65536"),
    ("sends.virtual_channel", "0 to 62"),
    ("sends.data_virtual_channel", "0 to 62, and not sends.virtual_channel"),
    ("sends.zone", "16 to 2040"),
    ("sends.apid", "0 to 2046"),
    ("receives.virtual_channel", "0 to 62"),
    ("receives.data_virtual_channel", "0 to 62, and not receives.virtual_channel"),
    ("receives.zone", "16 to 2040"),
    ("receives.apid", "0 to 2046"),
    ("on_ack_limit", "0 to 3"),
    ("on_nak_limit", "0 to 3"),
    ("on_inactivity", "0 to 3"),
    ("sends.insert_zone", "0 to 64"),
    ("sends.control_field", "0 or 1"),
    ("sends.error_control", "0 or 1"),
    ("pdu_crc", "0 or 1"),
    ("receives.insert_zone", "0 to 64"),
    ("receives.control_field", "0 or 1"),
    ("receives.error_control", "0 or 1"),
];

impl Error {
    /// Returns the error that an answer but 0 stands for.
    pub(crate) fn of(answer: u32) -> Error {
        match answer {
            3 => Error::BadArgument,
            4 => Error::NoMemory,
            5 => Error::NoRoom,
            7 => Error::InFolders,
            11 => Error::NameTaken,
            12 => Error::NoOutbox,
            13 => Error::NoInbox,
            14 => Error::InboxInUse,
            15 => Error::SourceInUse,
            16 => Error::NoJournal,
            17 => Error::JournalInUse,
            18 => Error::JournalOfOthers,
            19 => Error::JournalMisplaced,
            21 => Error::NoSuchFile,
            22 => Error::BadName,
            23 => Error::TooLarge,
            24 => Error::TableFull,
            25 => Error::NumbersSpent,
            26 => Error::SourceFault,
            31 => Error::Unknown,
            32 => Error::AlreadyClosed,
            33 => Error::WrongSide,
            34 => Error::AlreadySo,
            35 => Error::StillOpen,
            36 => Error::AnswerDue,
            101 => Error::ShortFrame,
            102 => Error::DamagedFrame,
            103 => Error::UnknownSpi,
            104 => Error::NotAuthentic,
            105 => Error::Replayed,
            other => PduError::of(other)
                .map(Error::BadPdu)
                .or_else(|| Field::of(other).map(Error::BadField))
                .unwrap_or(Error::Unexpected(other)),
        }
    }

    pub(crate) fn check(answer: u32) -> Result<(), Error> {
        if answer == 0 {
            Ok(())
        } else {
            Err(Error::of(answer))
        }
    }
}

impl Field {
    fn of(answer: u32) -> Option<Field> {
        let place = answer.checked_sub(70)? as usize;
        FIELDS.get(place).map(|&(name, range)| Field { name, range })
    }
}

impl PduError {
    fn of(answer: u32) -> Option<PduError> {
        Some(match answer {
            51 => PduError::Short,
            52 => PduError::Version,
            53 => PduError::Crc,
            54 => PduError::Length,
            55 => PduError::Unacknowledged,
            57 => PduError::Directive,
            58 => PduError::Truncated,
            59 => PduError::Trailing,
            60 => PduError::Tlv,
            61 => PduError::Condition,
            _ => return None,
        })
    }
}

impl fmt::Display for Error {
    fn fmt(&self, f: &mut fmt::Formatter<'_>) -> fmt::Result {
        f.write_str(match self {
            Error::BadArgument => "a value is out of range",
            Error::NoMemory => "out of memory",
            Error::NoRoom => "the buffer is too small, or has the wrong size",
            Error::InFolders => "not available: the files are in folders",
            Error::NoOutbox => "cannot read the folder to send from",
            Error::NoInbox => "cannot use the folder to receive into",
            Error::InboxInUse => "another station already receives into that folder",
            Error::NoJournal => "cannot read or write the journal",
            Error::JournalInUse => "another station has the journal",
            Error::JournalOfOthers => "the journal is of another entity or peer",
            Error::JournalMisplaced => "the journal must not lie in an inbox",
            Error::SourceInUse => "a transaction is still sending the file",
            Error::NameTaken => "a file of that name already exists",
            Error::NoSuchFile => "no such file",
            Error::BadName => "file names must be 1 to 255 octets that the folder allows",
            Error::TooLarge => "file must be at most 2^48 octets",
            Error::TableFull => "the transaction table is full: forget some that are over",
            Error::NumbersSpent => "no sequence number is left",
            Error::SourceFault => "the outbox could not read the file",
            Error::Unknown => "unknown transaction",
            Error::AlreadyClosed => "the transaction is over",
            Error::WrongSide => "only the file's sender can prompt",
            Error::AlreadySo => "already in that state",
            Error::StillOpen => "the transaction is still open",
            Error::AnswerDue => "an acknowledgement must be sent first",
            Error::ShortFrame => "the frame is too short",
            Error::DamagedFrame => "the frame was damaged on the way",
            Error::UnknownSpi => "no key has the frame's security parameter index",
            Error::NotAuthentic => "the frame's MAC is wrong",
            Error::Replayed => "the frame's sequence number is not greater than the last one",
            Error::BadField(field) => {
                return write!(f, "{} must be {}", field.name, field.range);
            }
            Error::BadPdu(error) => return error.fmt(f),
            Error::Unexpected(answer) => return write!(f, "unexpected answer {answer}"),
        })
    }
}

impl fmt::Display for PduError {
    fn fmt(&self, f: &mut fmt::Formatter<'_>) -> fmt::Result {
        f.write_str(match self {
            PduError::Short => "the PDU is shorter than its header",
            PduError::Version => "PDU version must be 1",
            PduError::Crc => "the CRC of the PDU is wrong",
            PduError::Length => "the length in the PDU header is not the length of the data field",
            PduError::Unacknowledged => "the PDU has unacknowledged mode (class 1)",
            PduError::Directive => "unknown directive code",
            PduError::Truncated => "a field runs past the end of the data field",
            PduError::Trailing => "extra octets after the last field",
            PduError::Tlv => "a TLV option is incomplete",
            PduError::Condition => "condition code must not be 12 or 13",
        })
    }
}

impl std::error::Error for Error {}

impl std::error::Error for PduError {}
