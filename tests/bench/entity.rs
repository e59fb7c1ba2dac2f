//! Entities over an outbox, and an inbox in memory.
//!
//!     put NAME [AS] to send that file, to be published under the second name, or as `b.txt`
//!     puts N NAME   to send that file N times, as `b.txt`: how often it is put, and why no more
//!     hear PDU      to receive these octets
//!     series FIRST STEP COUNT FRONT BEHIND
//!                   to receive so many PDUs, in which a number of 8 digits stands between two
//!                   texts
//!     poll [ROOM [DATA]]
//!                   to send what is due, with room for a directive of so many octets, and for file
//!                   data of as many, or of DATA
//!     polls N       to send so much, and to say how much it was
//!     tick TIME     to take note of the time
//!     ask WORD      of the transaction 1:1: cancel, suspend, resume, nak, keep
//!     deadline      to tell the earliest deadline but those of inactivity
//!     phase         to tell how far the transaction 1:1 has come
//!     phases        to tell how far each transaction has come
//!     left          to say how many more transactions there is room for
//!     told          to tell all that was indicated
//!     drops         to tell how much was dropped, by number
//!     inbox         to tell each published file
//!     prefixes PDU, replaced PDU    as in `strangers`
//!     forget S:N    to forget a transaction
//!     forget closed to forget all that are closed and owe no acknowledgement
//!     forget told N to forget the first N indications
//!     forgotten S:N whether a transaction was forgotten
//!     first         to take the first indication that is left
//!     gone          to say how many indications were forgotten
//!     since N       to tell what was indicated after the first N, of all that there were; `gone`
//!                   if some of it was forgotten
//!
//! Two that are joined: `joined.rt`.
use crate::bench::{Bench, played, unknown};
use crate::joined::{Joined, Side};
use crate::setup::{ONE, Setup, TWO, entity, with};
use crate::strangers::{self, Fate, Seen, Target};
use crate::telling::{tell, tell_all, tell_files};
use crate::words::{id, number, octets, pair, tell_octets};
use cfdp_entity::{Entity, EntityConfig, EntityDrop, EntityPolled, Rooms};
use cfdp_header::TransactionId;
use cfdp_store::{FuseInbox, FuseOutbox, Inbox, MemoryInbox, MemoryOutbox, Outbox};
use std::alloc::{AllocError, Global};
use valid_config::Config;

/// The first transaction of entity 1.
const FIRST: TransactionId = TransactionId {
    source: 1,
    number: 1,
};

/// Room for each PDU.
const ROOM: usize = 5000;

/// The most PDUs sent at once.
const MOST: u8 = 200;

/// Plays a transcript on an entity that is set up so.
pub fn play(
    alloc: Global,
    setup: &Setup,
    transcript: &str,
    out: &mut String,
) -> Result<(), AllocError> {
    played(open(alloc, setup)?, transcript, out)
}

/// Plays a transcript on two entities whose setups have these numbers.
pub fn play_both(
    alloc: Global,
    setup: &str,
    transcript: &str,
    out: &mut String,
) -> Result<(), AllocError> {
    let one = open(alloc, &with(ONE, setup));
    let two = open(alloc, &with(TWO, setup));
    played(Joined::of(one, two)?, transcript, out)
}

/// Makes an entity with files that was asked nothing.
fn open(alloc: Global, setup: &Setup) -> Result<EntityBench<FuseOutbox<MemoryOutbox>>, AllocError> {
    let outbox = FuseOutbox::new(files(alloc, setup[0], setup[22])?, setup[23]);
    EntityBench::over(alloc, entity(setup), outbox, setup[24])
}

/// Returns the files of an entity: `a.txt`, and `0` to `9`, each of which says whose it is.
pub fn files(alloc: Global, entity: u64, octets: u64) -> Result<MemoryOutbox, AllocError> {
    let mut files = MemoryOutbox::new(alloc);
    let front = usize::try_from(octets).unwrap_or(5).min(5);
    add(alloc, &mut files, b"a.txt", &b"hello"[..front])?;
    for number in 0..10u8 {
        let text = format!(in alloc; "file {number} of entity {entity}")?;
        add(
            alloc,
            &mut files,
            &[b'0'.saturating_add(number)],
            text.as_bytes(),
        )?;
    }
    Ok(files)
}

fn add(
    alloc: Global,
    files: &mut MemoryOutbox,
    name: &[u8],
    octets: &[u8],
) -> Result<(), AllocError> {
    let name = Vec::from_slice(alloc, name)?;
    let octets = Vec::from_slice(alloc, octets)?;
    files.add(name, octets)
}

/// An entity.
#[derive(Drop)]
pub struct EntityBench<O: Outbox> {
    alloc: Global,
    entity: Entity<O, FuseInbox<MemoryInbox>>,
}

impl<O: Outbox> Bench for EntityBench<O> {
    fn does(&mut self, verb: &str, words: &str, out: &mut String) -> Result<(), AllocError> {
        match verb {
            "put" => self.puts(words, out),
            "puts" => self.puts_many(words, out),
            "hear" => self.hears(words, out),
            "series" => self.hears_series(words, out),
            "poll" => self.polls(words, out),
            "polls" => self.polls_many(words, out),
            "tick" => self.entity.tick(number(words)),
            "ask" => self.calls(words, out),
            "prefixes" | "replaced" => strangers::asks(self.alloc, self, verb, words, out),
            "forget" => self.forgets(words, out),
            "first" => {
                match self.entity.next_indication() {
                    Some(told) => tell(&told, None, out),
                    None => write!(out, " none\n"),
                }
            }
            _ => self.says(verb, words, out),
        }
    }
}

impl<O: Outbox> Target for EntityBench<O> {
    fn tries(&mut self, octets: &[u8]) -> Fate {
        let before = self.seen();
        if self.entity.receive(octets).is_ok() {
            return Fate::Taken;
        }
        let after = self.seen();
        if after.pdus == before.pdus.saturating_add(1) && after.is_still(before) {
            Fate::Refused
        } else {
            Fate::Broken
        }
    }
}

impl<O: Outbox> Side for EntityBench<O> {
    fn tick(&mut self, now: u64) -> Result<(), AllocError> {
        self.entity.tick(now)
    }

    fn gives(&mut self, other: &mut Self, every: u64, given: &mut u64) -> Result<(), AllocError> {
        for _ in 0..MOST {
            let mut pdu = vec![in self.alloc; 0xFFu8; ROOM]?;
            let len = self.moves(&mut pdu)?;
            if len == 0 {
                break;
            }
            pdu.truncate(len);
            *given = given.saturating_add(1);
            if every == 0 || *given % every != 0 {
                let _ = other.entity.receive(&pdu);
            }
        }
        Ok(())
    }
}

impl<O: Outbox> EntityBench<O> {
    /// Makes an entity over this outbox, and an inbox that fails from this call on.
    pub fn over(
        alloc: Global,
        config: EntityConfig,
        outbox: O,
        inbox_call: u64,
    ) -> Result<EntityBench<O>, AllocError> {
        let Ok(config) = config.validate() else {
            return Err(AllocError);
        };
        let inbox = FuseInbox::new(MemoryInbox::new(alloc), inbox_call);
        let entity = Entity::new(alloc, config, outbox, inbox)?;
        Ok(EntityBench { alloc, entity })
    }

    fn seen(&self) -> Seen {
        let mut pdus = 0u64;
        for by in &EntityDrop::ALL {
            pdus = pdus.saturating_add(self.entity.drops(*by));
        }
        Seen {
            frames: 0,
            zones: 0,
            pdus,
            told: self.entity.indications().len(),
            deadline: self.entity.next_deadline(),
            published: self.entity.inbox().inner().published().entries().len(),
            failures: self.entity.inbox().failures(),
        }
    }

    fn says(&self, verb: &str, words: &str, out: &mut String) -> Result<(), AllocError> {
        match verb {
            "phase" => write!(out, " {:?}\n", self.entity.phase(FIRST)),
            "left" => write!(out, " {}\n", self.entity.records_left()),
            "told" => tell_all(self.entity.indications(), None, out),
            "inbox" => tell_files(self.entity.inbox().inner(), out),
            "deadline" => write!(out, " {:?}\n", self.entity.next_deadline()),
            "forgotten" => write!(out, " {}\n", self.entity.was_forgotten(id(words))),
            "gone" => write!(out, " {}\n", self.entity.indications_gone()),
            "since" => {
                match self.entity.indications_since(number(words)) {
                    Some(rest) => tell_all(rest, None, out),
                    None => write!(out, " gone\n"),
                }
            }
            "phases" => self.tells_phases(out),
            "drops" => self.tells_drops(out),
            _ => unknown(out),
        }
    }

    fn tells_phases(&self, out: &mut String) -> Result<(), AllocError> {
        for (id, phase) in self.entity.transactions() {
            write!(out, " {}:{} {phase:?}\n", id.source, id.number)?;
        }
        Ok(())
    }

    fn tells_drops(&self, out: &mut String) -> Result<(), AllocError> {
        for by in &EntityDrop::ALL {
            let count = self.entity.drops(*by);
            if count != 0 {
                write!(out, " {} {count}\n", by.number())?;
            }
        }
        Ok(())
    }

    fn forgets(&mut self, words: &str, out: &mut String) -> Result<(), AllocError> {
        let (what, rest) = pair(words);
        match what {
            "told" => return Ok(self.entity.forget_indications(number(rest))),
            "closed" => self.entity.forget_closed()?,
            _ => {
                if let Err(e) = self.entity.forget(id(what)) {
                    return write!(out, " {e:?}\n");
                }
            }
        }
        write!(out, " done\n")
    }

    fn puts(&mut self, words: &str, out: &mut String) -> Result<(), AllocError> {
        let (source, destination) = pair(words);
        let destination = if destination.is_empty() {
            "b.txt"
        } else {
            destination
        };
        match self.entity.put(source.as_bytes(), destination.as_bytes()) {
            Ok(id) => write!(out, " {}:{}\n", id.source, id.number),
            Err(e) => write!(out, " {}\n", e.name()),
        }
    }

    fn puts_many(&mut self, words: &str, out: &mut String) -> Result<(), AllocError> {
        let (count, name) = pair(words);
        let mut done = 0u64;
        for _ in 0..number::<u64>(count) {
            if let Err(e) = self.entity.put(name.as_bytes(), b"b.txt") {
                write!(out, " {}\n", e.name())?;
                break;
            }
            done = done.saturating_add(1);
        }
        write!(out, " put {done}\n")
    }

    fn hears(&mut self, text: &str, out: &mut String) -> Result<(), AllocError> {
        let pdu = octets(self.alloc, text)?;
        match self.entity.receive(&pdu) {
            Ok(()) => write!(out, " taken\n"),
            Err(e) => write!(out, " {}\n", e.name()),
        }
    }

    fn hears_series(&mut self, words: &str, out: &mut String) -> Result<(), AllocError> {
        let (first, rest) = pair(words);
        let (step, rest) = pair(rest);
        let (count, texts) = pair(rest);
        let (front, behind) = pair(texts);
        let mut at = number::<u64>(first);
        let mut taken = 0u64;
        for _ in 0..number::<u64>(count) {
            let text = format!(in self.alloc; "{front}{at:08X}{behind}")?;
            let pdu = octets(self.alloc, text.as_str())?;
            match self.entity.receive(&pdu) {
                Ok(()) => taken = taken.saturating_add(1),
                Err(e) => write!(out, " {} {at}\n", e.name())?,
            }
            at = at.saturating_add(number(step));
        }
        write!(out, " taken {taken}\n")
    }

    fn polls(&mut self, words: &str, out: &mut String) -> Result<(), AllocError> {
        let (directives, file_data) = pair(words);
        let directives = directives.parse::<usize>().unwrap_or(ROOM);
        let file_data = file_data.parse::<usize>().unwrap_or(directives);
        let rooms = Rooms {
            directives,
            file_data,
        };
        let mut octets = vec![in self.alloc; 0xFFu8; directives.max(file_data)]?;
        match self.entity.poll(rooms, &mut octets)? {
            EntityPolled::Moved { len, file_data } => {
                octets.truncate(len);
                write!(
                    out,
                    " {}",
                    if file_data { "file data" } else { "directive" }
                )?;
                tell_octets(self.alloc, &octets, out)
            }
            EntityPolled::Nothing => write!(out, " nothing\n"),
            EntityPolled::Full => write!(out, " full\n"),
            EntityPolled::SourceFailed => write!(out, " failed\n"),
        }
    }

    fn polls_many(&mut self, count: &str, out: &mut String) -> Result<(), AllocError> {
        let mut octets = vec![in self.alloc; 0xFFu8; ROOM]?;
        let mut moved = 0u64;
        for _ in 0..number::<u64>(count) {
            if self.moves(&mut octets)? == 0 {
                break;
            }
            moved = moved.saturating_add(1);
        }
        write!(out, " moved {moved}\n")
    }

    /// Sends what is due into these octets, and returns how many it has: 0 if nothing is due or the
    /// outbox failed.
    fn moves(&mut self, octets: &mut [u8]) -> Result<usize, AllocError> {
        if octets.len() < ROOM {
            return Ok(0);
        }
        let rooms = Rooms {
            directives: ROOM,
            file_data: ROOM,
        };
        match self.entity.poll(rooms, octets)? {
            EntityPolled::Moved { len, .. } => Ok(len),
            EntityPolled::Nothing | EntityPolled::Full | EntityPolled::SourceFailed => Ok(0),
        }
    }

    fn calls(&mut self, word: &str, out: &mut String) -> Result<(), AllocError> {
        let asked = match word {
            "cancel" => self.entity.cancel(FIRST),
            "suspend" => self.entity.suspend(FIRST),
            "resume" => self.entity.resume(FIRST),
            _ => self.entity.prompt(FIRST, word == "keep"),
        };
        match asked {
            Ok(()) => write!(out, " done\n"),
            Err(e) => write!(out, " {}\n", e.name()),
        }
    }
}
