//! What a journal keeps of the senders of a station, and how they are restored from it.
use crate::words::{id, number, plain, text};
use cfdp_directives::{Condition, Octets};
use cfdp_header::TransactionId;
use cfdp_receiver::Receiver;
use cfdp_sender::{Sender, SenderPhase, Transfer};
use cfdp_station::{CommittedSender, Record};
use std::alloc::{AllocError, Global};

/// What a journal keeps of a sender, and how much of its file was sent.
#[derive(Drop)]
pub struct Note {
    pub kept: CommittedSender,
    pub sent: u64,
}

impl Note {
    /// Returns what a journal keeps of this sender. A closed sender has no names any more: they are
    /// taken from the note before, if there is one.
    pub fn of(alloc: Global, sender: &Sender, before: Option<&Note>) -> Result<Note, AllocError> {
        let (source, destination) = match (sender.names(), before) {
            (Some(names), _) => names,
            (None, Some(note)) => {
                let transfer = &note.kept.transfer;
                (transfer.source.as_slice(), transfer.destination.as_slice())
            }
            (None, None) => (plain("-"), plain("-")),
        };
        let transfer = Transfer {
            addressing: sender.addressing(),
            checksum_kind: sender.checksum_kind(),
            segment: sender.segment(),
            source: Octets::copied(alloc, source)?,
            destination: Octets::copied(alloc, destination)?,
            size: sender.size(),
        };
        let kept = CommittedSender {
            transfer,
            phase: sender.kept_phase(),
            suspended: sender.is_suspended(),
            eof_taken: sender.is_eof_taken(),
            acknowledged: sender.is_acknowledged(),
            condition: sender.condition(),
        };
        Ok(Note {
            kept,
            sent: sender.progress(),
        })
    }

    /// Returns a copy in which other values stand: pairs of a key and its value, all of them words.
    pub fn changed(&self, alloc: Global, words: &str) -> Result<Note, AllocError> {
        let mut note = self.copied(alloc)?;
        let mut key = "";
        for word in words.split_whitespace() {
            if key.is_empty() {
                key = word;
            } else {
                note.change(alloc, key, word)?;
                key = "";
            }
        }
        Ok(note)
    }

    fn copied(&self, alloc: Global) -> Result<Note, AllocError> {
        let old = &self.kept.transfer;
        let transfer = Transfer {
            addressing: old.addressing,
            checksum_kind: old.checksum_kind,
            segment: old.segment,
            source: Octets::copied(alloc, old.source.as_slice())?,
            destination: Octets::copied(alloc, old.destination.as_slice())?,
            size: old.size,
        };
        let kept = CommittedSender {
            transfer,
            phase: self.kept.phase,
            suspended: self.kept.suspended,
            eof_taken: self.kept.eof_taken,
            acknowledged: self.kept.acknowledged,
            condition: self.kept.condition,
        };
        Ok(Note {
            kept,
            sent: self.sent,
        })
    }

    fn change(&mut self, alloc: Global, key: &str, word: &str) -> Result<(), AllocError> {
        let transfer = &mut self.kept.transfer;
        match key {
            "sent" => self.sent = number(word),
            "id" => transfer.addressing.id = id(word),
            "to" => transfer.addressing.destination = number(word),
            "segment" => transfer.segment = number(word),
            "size" => transfer.size = number(word),
            "source" => transfer.source = Octets::copied(alloc, plain(word))?,
            "condition" => {
                if let Some(condition) = Condition::from_code(number(word)) {
                    self.kept.condition = condition;
                }
            }
            "phase" => self.kept.phase = phase(word),
            "suspended" => self.kept.suspended = word == "true",
            "eof" => self.kept.eof_taken = word == "true",
            _ => self.kept.acknowledged = word == "true",
        }
        Ok(())
    }
}

fn phase(word: &str) -> SenderPhase {
    match word {
        "Sending" => SenderPhase::Sending,
        "Cancelling" => SenderPhase::Cancelling,
        _ => SenderPhase::Closed,
    }
}

/// Writes what a journal keeps of a record.
pub fn tell_record(id: TransactionId, record: &Record, out: &mut String) -> Result<(), AllocError> {
    write!(out, " {}:{} ", id.source, id.number)?;
    match record {
        Record::Sends(sender) => tell_sender(sender, out),
        Record::Receives(receiver) => tell_receiver(receiver, out),
    }
}

fn tell_sender(sender: &Sender, out: &mut String) -> Result<(), AllocError> {
    let (source, destination) = match sender.names() {
        Some((source, destination)) => (text(source), text(destination)),
        None => ("-", "-"),
    };
    write!(
        out,
        "sends {source} as {destination}, {:?}, {} of {}{}{}{}, condition {}\n",
        sender.kept_phase(),
        sender.progress(),
        sender.size(),
        if sender.is_suspended() {
            ", suspended"
        } else {
            ""
        },
        if sender.is_eof_taken() { ", eof" } else { "" },
        if sender.is_acknowledged() {
            ", acknowledged"
        } else {
            ""
        },
        sender.condition().code()
    )
}

fn tell_receiver(receiver: &Receiver, out: &mut String) -> Result<(), AllocError> {
    write!(out, "receives {:?}", receiver.kept_phase())?;
    if let Some(info) = receiver.metadata() {
        write!(out, ", as {}", text(info.destination.as_slice()))?;
    }
    if let Some(ending) = receiver.ending() {
        write!(out, ", ends at {}", ending.size)?;
    }
    if let Some(outcome) = receiver.outcome() {
        write!(
            out,
            ", finished {} {:?} {:?}",
            outcome.condition.code(),
            outcome.delivery,
            outcome.status
        )?;
    }
    if receiver.is_suspended() {
        write!(out, ", suspended")?;
    }
    for (start, end) in receiver.held().ranges() {
        write!(out, " {start}-{end}")?;
    }
    write!(out, "\n")
}
