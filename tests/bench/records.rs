//! The records of a journal.
//!
//!     add OCTETS    to add octets to the journal
//!     read          to tell its records, and how many octets follow its whole batches
//!     front LEN     to tell the same of its first octets
//!     again         to write all its records as one batch, and tell the octets
//!     clear         to begin an empty journal
use crate::bench::{Bench, played, unknown};
use crate::words::{number, octets, tell_octets, text};
use cfdp_directives::{Addressing, Outcome};
use journal_records::{JournalRecord, JournalText, ReadError, batch_of, read_journal};
use std::alloc::{AllocError, Global};

/// Plays a transcript.
pub fn play(alloc: Global, transcript: &str, out: &mut String) -> Result<(), AllocError> {
    let octets = Vec::new(alloc);
    played(RecordBench { alloc, octets }, transcript, out)
}

/// The octets of a journal.
#[derive(Drop)]
struct RecordBench {
    alloc: Global,
    octets: Vec<u8>,
}

impl Bench for RecordBench {
    fn does(&mut self, verb: &str, words: &str, out: &mut String) -> Result<(), AllocError> {
        match verb {
            "add" => self.octets.extend_from_slice(&octets(self.alloc, words)?),
            "read" => self.tells_front(self.octets.len(), out),
            "front" => self.tells_front(number(words), out),
            "again" => self.tells_again(out),
            "clear" => Ok(self.octets.clear()),
            _ => unknown(out),
        }
    }
}

impl RecordBench {
    /// Tells what so many octets at the front say.
    fn tells_front(&self, len: usize, out: &mut String) -> Result<(), AllocError> {
        let front = self.octets.get(..len).unwrap_or(&self.octets);
        match read_journal(self.alloc, front) {
            Ok(journal) => tell_journal(&journal, front.len(), out),
            Err(error) => tell_error(&error, out),
        }
    }

    /// Tells the one batch that all records are.
    fn tells_again(&self, out: &mut String) -> Result<(), AllocError> {
        match read_journal(self.alloc, &self.octets) {
            Ok(journal) => {
                let batch = batch_of(self.alloc, &journal.records)?;
                tell_octets(self.alloc, &batch, out)
            }
            Err(error) => tell_error(&error, out),
        }
    }
}

fn tell_error(error: &ReadError, out: &mut String) -> Result<(), AllocError> {
    write!(out, " {error}\n")
}

fn tell_journal(journal: &JournalText, len: usize, out: &mut String) -> Result<(), AllocError> {
    for record in &journal.records {
        tell_record(record, out)?;
    }
    write!(out, " and {} octets\n", len - journal.end)
}

/// Tells a record in a line, or those of a long one in several.
fn tell_record(record: &JournalRecord, out: &mut String) -> Result<(), AllocError> {
    match record {
        JournalRecord::Station(owner) => write!(
            out,
            " station {} of {} start {}\n",
            owner.entity, owner.peer, owner.start
        ),
        JournalRecord::Put(transfer) => {
            tell_addressing("put", &transfer.addressing, out)?;
            write!(
                out,
                "  {} as {}, {} octets, checksum {}, segment {}\n",
                text(transfer.source.as_slice()),
                text(transfer.destination.as_slice()),
                transfer.size,
                transfer.checksum_kind.code(),
                transfer.segment
            )
        }
        JournalRecord::Sent(id, sent) => {
            write!(out, " {}:{} sent {sent}\n", id.source, id.number)
        }
        JournalRecord::EofTaken(id) => write!(out, " {}:{} eof taken\n", id.source, id.number),
        JournalRecord::Cancelling(id, condition) => write!(
            out,
            " {}:{} cancelling {}\n",
            id.source,
            id.number,
            condition.code()
        ),
        JournalRecord::Opened(addressing, large) => {
            tell_addressing("opened", addressing, out)?;
            write!(out, "  large {large}\n")
        }
        other => tell_received(other, out),
    }
}

/// Tells a record of a receiver, or one of either side.
fn tell_received(record: &JournalRecord, out: &mut String) -> Result<(), AllocError> {
    match record {
        JournalRecord::HeardMetadata(id, info) => write!(
            out,
            " {}:{} metadata {} checksum {}\n",
            id.source,
            id.number,
            text(info.destination.as_slice()),
            info.checksum_kind.code()
        ),
        JournalRecord::HeardEof(id, ending) => write!(
            out,
            " {}:{} eof {} checksum {:08X}\n",
            id.source, id.number, ending.size, ending.checksum
        ),
        JournalRecord::Held(id, large, ranges) => {
            write!(out, " {}:{} held large {large}", id.source, id.number)?;
            tell_ranges(ranges.as_slice(), out)
        }
        JournalRecord::Publishing(id, name, size) => write!(
            out,
            " {}:{} publishing {}, {size} octets\n",
            id.source,
            id.number,
            text(name.as_slice())
        ),
        JournalRecord::Finishing(id, outcome) => {
            write!(out, " {}:{} finishing", id.source, id.number)?;
            tell_outcome(outcome, out)
        }
        JournalRecord::Closed(id, None) => write!(out, " {}:{} closed\n", id.source, id.number),
        JournalRecord::Closed(id, Some(outcome)) => {
            write!(out, " {}:{} closed", id.source, id.number)?;
            tell_outcome(outcome, out)
        }
        JournalRecord::Suspended(id, is) => {
            write!(out, " {}:{} suspended {is}\n", id.source, id.number)
        }
        JournalRecord::PendingFinished(id, outcome) => {
            write!(out, " {}:{} pending", id.source, id.number)?;
            tell_outcome(outcome, out)
        }
        JournalRecord::PendingAbandoned(id, condition) => write!(
            out,
            " {}:{} pending abandoned {}\n",
            id.source,
            id.number,
            condition.code()
        ),
        JournalRecord::Forgotten(source, ranges) => {
            write!(out, " {source} forgotten")?;
            tell_ranges(ranges.as_slice(), out)
        }
        _ => Ok(()),
    }
}

fn tell_addressing(
    what: &str,
    addressing: &Addressing,
    out: &mut String,
) -> Result<(), AllocError> {
    write!(
        out,
        " {}:{} {what} to {} widths {} {} crc {}\n",
        addressing.id.source,
        addressing.id.number,
        addressing.destination,
        addressing.id_width,
        addressing.number_width,
        addressing.crc
    )
}

fn tell_outcome(outcome: &Outcome, out: &mut String) -> Result<(), AllocError> {
    write!(
        out,
        " {} {:?} {:?}\n",
        outcome.condition.code(),
        outcome.delivery,
        outcome.status
    )
}

fn tell_ranges(ranges: &[(u64, u64)], out: &mut String) -> Result<(), AllocError> {
    for (start, end) in ranges {
        write!(out, " {start}-{end}")?;
    }
    write!(out, "\n")
}
