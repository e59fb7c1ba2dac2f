//! Two stations over stores in memory, joined by a link without delay, of which either is killed
//! and made again. Each PDU leaves in frames of its own. The words after the name of the bench set
//! both up.
//!
//!     1 WORDS, 2 WORDS   to ask the first one, or the second one
//!     turns FROM TO      at the times FROM, FROM + 10, .. below TO both take note of the time, and
//!                        each gives the other all that it has to send
//!
//! Of a station:
//!
//!     put NAME           to send that file, to be published as `b.txt`
//!     puts N NAME        to send that file N times: how often it is put, and why no more
//!     send N, lose N     to give the other station the next N PDUs, or nobody: each of them, and
//!                        why no more
//!     again FROM TO      to give the other station again what left in the frames with these
//!                        numbers, the first one 1, in all lives
//!     tick TIME          to take note of the time
//!     ask WORD S:N       of a transaction: cancel, suspend, resume
//!     forget S:N         to forget a transaction
//!     records            to tell what a journal keeps of each record
//!     commit             to keep this of each sender, in place of what was kept before
//!     kill KEYS          to kill the station and to make it again: with the files of its outbox
//!                        and its inbox, its next number, and its count of frames, of which one
//!                        number is left out. All else that it knew is gone. Keys of the setup
//!                        may have other numbers from then on
//!     restore S:N KEYS   to restore a sender from what was kept, in which values may be replaced:
//!                        sent N, id S:N, to N, segment N, size N, source NAME, condition N, phase
//!                        WORD; suspended, eof and acknowledged `true` or `false`
//!     forgets S N END    to restore that the transactions S:N, S:N + 1, .. before S:END are
//!                        forgotten
//!     forgotten S:N      whether a transaction was forgotten
//!     deadline           to tell the earliest deadline but those of inactivity
//!     told               to tell all that was indicated in this life
//!     drops              to tell how much was dropped, by number
//!     inbox              to tell each published file
use crate::bench::{Bench, played, unknown};
use crate::entity::files;
use crate::kept::{Note, tell_record};
use crate::setup::{ONE, Setup, TWO, station, with};
use crate::telling::{tell_all, tell_files};
use crate::words::{id, number, pair, text, word};
use cfdp_dump::{DumpForm, write_pdu};
use cfdp_header::TransactionId;
use cfdp_station::{EntityDrop, LinkDrop, Polled, Record, Station};
use cfdp_store::{Files, FuseOutbox, MemoryInbox, MemoryOutbox};
use link_stack::Up;
use octet_strings::OctetStrings;
use std::alloc::{AllocError, Global};
use valid_config::{Config, Valid};

/// The most PDUs that a station gives in a turn.
const MOST: u64 = 1000;

/// Plays a transcript on two stations whose setups have these numbers.
pub fn play(
    alloc: Global,
    setup: &str,
    transcript: &str,
    out: &mut String,
) -> Result<(), AllocError> {
    let one = Side::open(alloc, with(ONE, setup))?;
    let two = Side::open(alloc, with(TWO, setup))?;
    played(ResumingBench { alloc, one, two }, transcript, out)
}

/// Both stations.
#[derive(Drop)]
struct ResumingBench {
    alloc: Global,
    one: Side,
    two: Side,
}

impl Bench for ResumingBench {
    fn does(&mut self, verb: &str, words: &str, out: &mut String) -> Result<(), AllocError> {
        match verb {
            "1" => self.one.does(&mut self.two, words, out),
            "2" => self.two.does(&mut self.one, words, out),
            "turns" => self.turns(words),
            _ => unknown(out),
        }
    }
}

impl ResumingBench {
    fn turns(&mut self, words: &str) -> Result<(), AllocError> {
        let (from, to) = (number::<u64>(word(words, 0)), number::<u64>(word(words, 1)));
        let mut unread = String::new(self.alloc);
        for turn in 0..to.saturating_sub(from).div_ceil(10) {
            let now = from.saturating_add(turn.saturating_mul(10));
            self.one.station.tick(now)?;
            self.two.station.tick(now)?;
            self.one.sends(Some(&mut self.two), MOST, &mut unread)?;
            self.two.sends(Some(&mut self.one), MOST, &mut unread)?;
        }
        Ok(())
    }
}

/// A station through its lives, with what its journal has.
#[derive(Drop)]
struct Side {
    alloc: Global,
    setup: Setup,
    station: Station<FuseOutbox<MemoryOutbox>, MemoryInbox>,
    watch: Up,
    frames: Vec<Vec<u8>>,
    count: u32,
    notes: Vec<Note>,
}

/// Makes a station that was asked nothing, whose inbox has these files.
fn made(
    alloc: Global,
    setup: &Setup,
    published: Files,
) -> Result<Station<FuseOutbox<MemoryOutbox>, MemoryInbox>, AllocError> {
    let Ok(config) = station(setup).validate() else {
        return Err(AllocError);
    };
    let outbox = FuseOutbox::new(files(alloc, setup[0], setup[22])?, setup[23]);
    let inbox = MemoryInbox::with_files(alloc, published);
    Station::new(alloc, config, outbox, inbox)
}

fn copied(alloc: Global, files: &Files) -> Result<Files, AllocError> {
    let mut copy = Files::new(alloc);
    for (name, octets) in files.entries() {
        copy.insert(
            Vec::from_slice(alloc, name)?,
            Vec::from_slice(alloc, octets)?,
        )?;
    }
    Ok(copy)
}

impl Side {
    fn open(alloc: Global, setup: Setup) -> Result<Side, AllocError> {
        let Ok(config) = station(&setup).validate() else {
            return Err(AllocError);
        };
        Ok(Side {
            alloc,
            setup,
            station: made(alloc, &setup, Files::new(alloc))?,
            watch: Up::new(alloc, Valid::known(config.get().sends))?,
            frames: Vec::new(alloc),
            count: 0,
            notes: Vec::new(alloc),
        })
    }

    fn does(&mut self, other: &mut Side, words: &str, out: &mut String) -> Result<(), AllocError> {
        let (verb, words) = pair(words);
        match verb {
            "put" => self.puts(words, out),
            "puts" => self.puts_many(words, out),
            "send" => self.sends(Some(other), number(words), out),
            "lose" => self.sends(None, number(words), out),
            "again" => self.sends_again(other, words, out),
            "tick" => self.station.tick(number(words)),
            "ask" => self.calls(words, out),
            "forget" => {
                match self.station.forget(id(words)) {
                    Ok(()) => write!(out, " done\n"),
                    Err(e) => write!(out, " {e:?}\n"),
                }
            }
            "commit" => self.commits(),
            "kill" => self.restarts(words),
            "restore" => self.restores(words, out),
            "forgets" => self.restores_forgotten(words, out),
            _ => self.says(verb, words, out),
        }
    }

    fn says(&self, verb: &str, words: &str, out: &mut String) -> Result<(), AllocError> {
        match verb {
            "records" => self.tells_records(out),
            "forgotten" => write!(out, " {}\n", self.station.was_forgotten(id(words))),
            "deadline" => write!(out, " {:?}\n", self.station.next_deadline()),
            "told" => tell_all(self.station.indications(), None, out),
            "drops" => self.tells_drops(out),
            "inbox" => tell_files(self.station.inbox(), out),
            _ => unknown(out),
        }
    }

    fn puts(&mut self, name: &str, out: &mut String) -> Result<(), AllocError> {
        match self.station.put(name.as_bytes(), b"b.txt") {
            Ok(id) => {
                self.setup[4] = id.number.saturating_add(1);
                write!(out, " {}:{}\n", id.source, id.number)
            }
            Err(e) => write!(out, " {}\n", e.name()),
        }
    }

    fn puts_many(&mut self, words: &str, out: &mut String) -> Result<(), AllocError> {
        let (count, name) = pair(words);
        let mut done = 0u64;
        for _ in 0..number::<u64>(count) {
            match self.station.put(name.as_bytes(), b"b.txt") {
                Ok(id) => self.setup[4] = id.number.saturating_add(1),
                Err(e) => {
                    write!(out, " {}\n", e.name())?;
                    break;
                }
            }
            done = done.saturating_add(1);
        }
        write!(out, " put {done}\n")
    }

    /// Sends so many PDUs to the other station; to nobody if there is none.
    fn sends(
        &mut self,
        mut other: Option<&mut Side>,
        count: u64,
        out: &mut String,
    ) -> Result<(), AllocError> {
        for _ in 0..count {
            match self.station.poll()? {
                Polled::Moved => {}
                Polled::Nothing => return write!(out, " nothing\n"),
                Polled::Full => return write!(out, " full\n"),
                Polled::SourceFailed => return write!(out, " failed\n"),
            }
            self.station.flush();
            let first = self.frames.len();
            self.frames_leave(out)?;
            if let Some(other) = &mut other {
                other.receives(&self.frames[first..]);
            }
        }
        Ok(())
    }

    /// Notes the frames that wait, and tells the PDUs in them.
    fn frames_leave(&mut self, out: &mut String) -> Result<(), AllocError> {
        let mut pdus = OctetStrings::new(self.alloc);
        let mut frame = vec![in self.alloc; 0u8; self.station.frame_len()]?;
        while self.station.next_frame(&mut frame).is_some() {
            self.count = self.count.saturating_add(1);
            self.watch.receive(&frame, &mut pdus);
            self.frames.push(Vec::from_slice(self.alloc, &frame)?)?;
        }
        tell_pdus(self.alloc, &pdus, out)
    }

    fn receives(&mut self, frames: &[Vec<u8>]) {
        for frame in frames {
            self.station.receive(frame);
        }
    }

    fn sends_again(
        &mut self,
        other: &mut Side,
        words: &str,
        out: &mut String,
    ) -> Result<(), AllocError> {
        let from = number::<usize>(word(words, 0)).saturating_sub(1);
        let to = number::<usize>(word(words, 1));
        let mut pdus = OctetStrings::new(self.alloc);
        for frame in self.frames.get(from..to).unwrap_or(&[]) {
            self.watch.receive(frame, &mut pdus);
            other.station.receive(frame);
        }
        tell_pdus(self.alloc, &pdus, out)
    }

    fn calls(&mut self, words: &str, out: &mut String) -> Result<(), AllocError> {
        let (what, name) = pair(words);
        let asked = match what {
            "cancel" => self.station.cancel(id(name)),
            "suspend" => self.station.suspend(id(name)),
            _ => self.station.resume(id(name)),
        };
        match asked {
            Ok(()) => write!(out, " done\n"),
            Err(e) => write!(out, " {}\n", e.name()),
        }
    }

    fn tells_records(&self, out: &mut String) -> Result<(), AllocError> {
        for (id, record) in self.station.records() {
            tell_record(*id, record, out)?;
        }
        Ok(())
    }

    fn commits(&mut self) -> Result<(), AllocError> {
        let mut notes = Vec::new(self.alloc);
        for (id, record) in self.station.records() {
            if let Record::Sends(sender) = record {
                notes.push(Note::of(self.alloc, sender, self.note_of(*id))?)?;
            }
        }
        self.notes = notes;
        Ok(())
    }

    /// Returns what was kept of a sender.
    fn note_of(&self, id: TransactionId) -> Option<&Note> {
        for note in &self.notes {
            if note.kept.transfer.addressing.id == id {
                return Some(note);
            }
        }
        None
    }

    fn restarts(&mut self, words: &str) -> Result<(), AllocError> {
        self.setup = with(self.setup, words);
        let published = copied(self.alloc, self.station.inbox().published())?;
        self.station = made(self.alloc, &self.setup, published)?;
        self.count = self.count.saturating_add(1);
        self.station.count_frames_from(self.count);
        Ok(())
    }

    fn restores(&mut self, words: &str, out: &mut String) -> Result<(), AllocError> {
        let (name, changes) = pair(words);
        let note = match self.note_of(id(name)) {
            Some(note) => note.changed(self.alloc, changes)?,
            None => return write!(out, " nothing was kept\n"),
        };
        match self.station.restore_sender(note.kept, note.sent) {
            Ok(()) => write!(out, " restored\n"),
            Err(e) => write!(out, " {e:?}: {e}\n"),
        }
    }

    fn restores_forgotten(&mut self, words: &str, out: &mut String) -> Result<(), AllocError> {
        let (source, start) = (number(word(words, 0)), number(word(words, 1)));
        let end = number(word(words, 2));
        match self.station.restore_forgotten(source, start, end) {
            Ok(()) => write!(out, " restored\n"),
            Err(e) => write!(out, " {e:?}: {e}\n"),
        }
    }

    fn tells_drops(&self, out: &mut String) -> Result<(), AllocError> {
        for by in &LinkDrop::ALL {
            let count = self.station.link_drops(*by);
            if count != 0 {
                write!(out, " link {} {count}\n", by.number())?;
            }
        }
        for by in &EntityDrop::ALL {
            let count = self.station.drops(*by);
            if count != 0 {
                write!(out, " pdu {} {count}\n", by.number())?;
            }
        }
        Ok(())
    }
}

/// Writes which PDUs these are, each in a line.
fn tell_pdus(alloc: Global, pdus: &OctetStrings, out: &mut String) -> Result<(), AllocError> {
    for index in 0..pdus.len() {
        let mut line = Vec::new(alloc);
        if write_pdu(pdus.get(index), DumpForm::Short, &mut line).is_err() {
            return Err(AllocError);
        }
        write!(out, " {}", text(&line))?;
    }
    Ok(())
}
