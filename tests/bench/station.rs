//! A station over stores in memory. The outbox has the files of an entity.
//!
//!     put NAME      to send that file, to be published as `b.txt`
//!     transmit      to tell the next frame that is due, and its lane
//!     take FRAME    to receive a frame: the PDUs that come up
//!     prefixes FRAME, replaced FRAME, storm SEED COUNT FRAME    as in `strangers`
//!     told S:N      to tell what was indicated of a transaction
//!     drops         to tell what was dropped, of the link and of the PDUs that came up, by number
//!     inbox         to tell each published file
use crate::bench::{Bench, played, unknown};
use crate::entity::files;
use crate::setup::{Setup, station};
use crate::strangers::{self, Fate, Seen, Target};
use crate::telling::tell_all;
use crate::words::{id, octets, tell_octets, text};
use cfdp_station::{EntityDrop, LinkDrop, Station};
use cfdp_store::{Inbox, MemoryInbox, MemoryOutbox};
use link_stack::Up;
use octet_strings::OctetStrings;
use std::alloc::{AllocError, Global};
use valid_config::{Config, Valid};

/// Plays a transcript on a station that is set up so.
pub fn play(
    alloc: Global,
    setup: &Setup,
    transcript: &str,
    out: &mut String,
) -> Result<(), AllocError> {
    played(StationBench::open(alloc, setup)?, transcript, out)
}

/// A station. A receiving end beside it takes the same frames, to show which PDUs came in the last
/// one.
#[derive(Drop)]
struct StationBench {
    alloc: Global,
    station: Station<MemoryOutbox, MemoryInbox>,
    up: Up,
    came: OctetStrings,
}

impl Bench for StationBench {
    fn does(&mut self, verb: &str, words: &str, out: &mut String) -> Result<(), AllocError> {
        match verb {
            "put" => {
                match self.station.put(words.as_bytes(), b"b.txt") {
                    Ok(id) => write!(out, " {}:{}\n", id.source, id.number),
                    Err(e) => write!(out, " {}\n", e.name()),
                }
            }
            "transmit" => self.transmits(out),
            "take" => self.takes(words, out),
            "prefixes" | "replaced" | "storm" => {
                strangers::asks(self.alloc, self, verb, words, out)
            }
            "told" => tell_all(self.station.indications(), Some(id(words)), out),
            "drops" => self.tells_drops(out),
            "inbox" => self.tells_inbox(out),
            _ => unknown(out),
        }
    }
}

impl Target for StationBench {
    fn tries(&mut self, octets: &[u8]) -> Fate {
        let before = self.seen();
        self.receive(octets);
        let (after, came) = (self.seen(), self.came.len() as u64);
        let dropped = after.pdus.saturating_sub(before.pdus);
        let is_still = after.is_still(before);
        // No more of its PDUs are dropped than came, and nothing else changes if all of them are.
        let is_heard = after.frames == before.frames
            && (dropped < came || dropped == came && is_still);
        let is_refused = after.frames == before.frames.saturating_add(1)
            && after.zones == before.zones
            && after.pdus == before.pdus
            && is_still
            && came == 0;
        match (is_heard, is_refused) {
            (true, _) => Fate::Taken,
            (_, true) => Fate::Refused,
            _ => Fate::Broken,
        }
    }
}

impl StationBench {
    /// Makes a station that was asked nothing.
    fn open(alloc: Global, setup: &Setup) -> Result<StationBench, AllocError> {
        let Ok(config) = station(setup).validate() else {
            return Err(AllocError);
        };
        let up = Up::new(alloc, Valid::known(config.get().receives))?;
        let files = files(alloc, setup[0], setup[22])?;
        let station = Station::new(alloc, config, files, MemoryInbox::new(alloc))?;
        Ok(StationBench {
            alloc,
            station,
            up,
            came: OctetStrings::new(alloc),
        })
    }

    fn transmits(&mut self, out: &mut String) -> Result<(), AllocError> {
        let mut frame = vec![in self.alloc; 0xFFu8; 40]?;
        match self.station.transmit(&mut frame)? {
            Some(lane) => {
                write!(out, " {lane:?}")?;
                tell_octets(self.alloc, &frame, out)
            }
            None => write!(out, " nothing\n"),
        }
    }

    /// Takes a frame. The PDUs that it gives come out of a receiving end of its own too.
    fn receive(&mut self, frame: &[u8]) {
        self.came.clear();
        self.up.receive(frame, &mut self.came);
        self.station.receive(frame);
    }

    fn takes(&mut self, digits: &str, out: &mut String) -> Result<(), AllocError> {
        self.receive(&octets(self.alloc, digits)?);
        for place in 0..self.came.len() {
            tell_octets(self.alloc, self.came.get(place), out)?;
        }
        Ok(())
    }

    fn seen(&self) -> Seen {
        let mut pdus = 0u64;
        for by in &EntityDrop::ALL {
            pdus = pdus.saturating_add(self.station.drops(*by));
        }
        Seen {
            frames: self.dropped_by_link(true),
            zones: self.dropped_by_link(false),
            pdus,
            told: self.station.indications().len(),
            deadline: self.station.next_deadline(),
            published: self.station.inbox().published().entries().len(),
            failures: self.station.inbox().failures(),
        }
    }

    /// Returns how often the link dropped whole frames, or else something in one.
    fn dropped_by_link(&self, whole: bool) -> u64 {
        let mut count = 0u64;
        for by in &LinkDrop::ALL {
            if by.source().is_some() == whole {
                count = count.saturating_add(self.station.link_drops(*by));
            }
        }
        count
    }

    fn tells_drops(&self, out: &mut String) -> Result<(), AllocError> {
        for by in &LinkDrop::ALL {
            let count = self.station.link_drops(*by);
            if count != 0 {
                write!(out, " link {} {count}\n", by.number())?;
            }
        }
        for by in &EntityDrop::ALL {
            let count = self.station.drops(*by);
            if count != 0 {
                write!(out, " pdu {} {count}\n", by.number())?;
            }
        }
        Ok(())
    }

    fn tells_inbox(&self, out: &mut String) -> Result<(), AllocError> {
        for (name, octets) in self.station.inbox().published().entries() {
            write!(out, " {}", text(name))?;
            tell_octets(self.alloc, octets, out)?;
        }
        Ok(())
    }
}
