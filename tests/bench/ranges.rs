//! Ranges of offsets.
//!
//!     insert START END    to add offsets
//!     covers START END    to say whether all of these are held
//!     missing LIMIT       to tell the gaps below an offset
//!     gaps START LIMIT    to tell those from an offset on
//!     count               to tell how many gaps there are before the end
//!     admits START END    to say under which limits of gaps, 0 to 3, these may be added
//!     front MAX           to tell the first range, of so many offsets at the most
//!     take MAX            to take it
//!     end, empty          to tell where the last range ends, and whether none is held
//!     clear               to discard all
use crate::bench::{Bench, played, unknown};
use crate::words::{number, pair};
use cfdp_extents::Extents;
use std::alloc::{AllocError, Global};

/// Plays a transcript.
pub fn play(alloc: Global, transcript: &str, out: &mut String) -> Result<(), AllocError> {
    let held = Extents::new(alloc);
    let bench = HeldBench { alloc, held };
    played(bench, transcript, out)
}

/// What is held.
#[derive(Drop)]
struct HeldBench {
    alloc: Global,
    held: Extents,
}

impl Bench for HeldBench {
    fn does(&mut self, verb: &str, words: &str, out: &mut String) -> Result<(), AllocError> {
        let (first, second) = pair(words);
        let (first, second) = (number::<u64>(first), number::<u64>(second));
        match verb {
            "insert" if first <= second => self.held.insert(first, second),
            "take" => write!(out, " {:?}\n", self.held.take_front(first)),
            "clear" => Ok(self.held.clear()),
            "covers" => {
                write!(
                    out,
                    " {}\n",
                    first <= second && self.held.covers(first, second)
                )
            }
            "missing" | "gaps" => self.tells_gaps(verb, first, second, out),
            "count" => write!(out, " {}\n", self.held.gap_count()),
            "admits" => self.tells_limits(first, second, out),
            "front" => write!(out, " {:?}\n", self.held.front(first)),
            "end" => write!(out, " {}\n", self.held.end()),
            "empty" => write!(out, " {}\n", self.held.is_empty()),
            _ => unknown(out),
        }
    }
}

impl HeldBench {
    /// Tells which of the limits 0 to 3 admit the offsets from the first one up to the second.
    fn tells_limits(&self, first: u64, second: u64, out: &mut String) -> Result<(), AllocError> {
        for most in [0u64, 1, 2, 3] {
            if first <= second && self.held.admits(first, second, most) {
                write!(out, " {most}")?;
            }
        }
        write!(out, "\n")
    }

    /// Tells the gaps below the first offset, or from it on up to the second.
    fn tells_gaps(
        &self,
        verb: &str,
        first: u64,
        second: u64,
        out: &mut String,
    ) -> Result<(), AllocError> {
        let gaps: Vec<(u64, u64)> = if verb == "missing" {
            self.held.missing(first).collect(self.alloc)?
        } else {
            self.held.missing_in(first, second).collect(self.alloc)?
        };
        for (start, end) in &gaps {
            write!(out, " {start}-{end}\n")?;
        }
        Ok(())
    }
}
