//! Octets that no station sent: fronts of those that one did, octets in the place of others, and
//! octets by chance. What is refused has to leave all but its count as it was, and of what a frame
//! gives, only PDUs that are heard may change anything else.
//!
//!     prefixes OCTETS            each proper prefix is tried
//!     replaced OCTETS            each octet is replaced by each of 256 values
//!     storm SEED COUNT OCTETS    so many are tried, by turns: octets by chance, as many as these,
//!                                and these with one of them replaced by chance
//!
//! The answer says how many were tried, how many of them were refused, and for how many something
//! changed that had to stay.
use crate::words::{number, octets, pair};
use std::alloc::{AllocError, Global};

/// What became of octets.
#[derive(Clone, Copy)]
pub enum Fate {
    /// They were read, whatever that led to.
    Taken,
    /// They were refused and counted, and all else is as it was.
    Refused,
    /// Something changed that had to stay.
    Broken,
}

/// What octets are tried on.
pub trait Target {
    /// Takes these octets.
    fn tries(&mut self, octets: &[u8]) -> Fate;
}

/// What is seen of an entity or a station: how many frames its link refused, how often the link
/// dropped something else of a frame, how many PDUs were dropped, and what only PDUs change that
/// are heard.
#[derive(Clone, Copy)]
pub struct Seen {
    pub frames: u64,
    pub zones: u64,
    pub pdus: u64,
    pub told: usize,
    pub deadline: Option<u64>,
    pub published: usize,
    pub failures: u64,
}

impl Seen {
    /// Returns `true` if no PDU was heard in between.
    pub fn is_still(self, before: Seen) -> bool {
        self.told == before.told
            && self.deadline == before.deadline
            && self.published == before.published
            && self.failures == before.failures
    }
}

/// How many octets were tried, and what became of them.
#[derive(Drop)]
struct Tally {
    tried: u64,
    refused: u64,
    broken: u64,
}

impl Tally {
    fn tries<T: Target>(&mut self, target: &mut T, octets: &[u8]) {
        self.tried = self.tried.saturating_add(1);
        match target.tries(octets) {
            Fate::Taken => {}
            Fate::Refused => self.refused = self.refused.saturating_add(1),
            Fate::Broken => self.broken = self.broken.saturating_add(1),
        }
    }
}

/// Does what such a line asks: `prefixes`, `replaced`, or else `storm`.
pub fn asks<T: Target>(
    alloc: Global,
    target: &mut T,
    verb: &str,
    words: &str,
    out: &mut String,
) -> Result<(), AllocError> {
    let mut tally = Tally {
        tried: 0,
        refused: 0,
        broken: 0,
    };
    match verb {
        "prefixes" => prefixes(target, &octets(alloc, words)?, &mut tally),
        "replaced" => replaced(target, &mut octets(alloc, words)?, &mut tally),
        _ => storm(alloc, target, words, &mut tally)?,
    }
    write!(out, " {} {} {}\n", tally.tried, tally.refused, tally.broken)
}

fn prefixes<T: Target>(target: &mut T, whole: &[u8], tally: &mut Tally) {
    for len in 0..whole.len() {
        tally.tries(target, &whole[..len]);
    }
}

fn replaced<T: Target>(target: &mut T, octets: &mut Vec<u8>, tally: &mut Tally) {
    for turn in 0..octets.len().saturating_mul(256) {
        let own = put(octets, turn / 256, (turn % 256) as u8);
        tally.tries(target, octets);
        put(octets, turn / 256, own);
    }
}

fn storm<T: Target>(
    alloc: Global,
    target: &mut T,
    words: &str,
    tally: &mut Tally,
) -> Result<(), AllocError> {
    let (seed, words) = pair(words);
    let (count, digits) = pair(words);
    let mut chance = number::<u64>(seed) | 1;
    let mut whole = octets(alloc, digits)?;
    let mut other = Vec::from_slice(alloc, &whole)?;
    for _pair in 0..number::<u64>(count) / 2 {
        fill(&mut other, &mut chance);
        tally.tries(target, &other);
        let place = (next(&mut chance) % (whole.len() as u64).max(1)) as usize;
        let own = put(&mut whole, place, (next(&mut chance) % 256) as u8);
        tally.tries(target, &whole);
        put(&mut whole, place, own);
    }
    Ok(())
}

/// Replaces an octet, and returns what it was.
fn put(octets: &mut Vec<u8>, place: usize, octet: u8) -> u8 {
    match octets.get_mut(place) {
        Some(it) => std::mem::replace(it, octet),
        None => octet,
    }
}

/// Makes all octets others, by chance.
fn fill(octets: &mut Vec<u8>, chance: &mut u64) {
    for it in octets.iter_mut() {
        *it = (next(chance) % 256) as u8;
    }
}

/// Returns the next of numbers that look as if they came by chance.
fn next(state: &mut u64) -> u64 {
    *state ^= *state << 13;
    *state ^= *state >> 7;
    *state ^= *state << 17;
    *state
}
