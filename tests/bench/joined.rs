//! Two of a kind that exchange PDUs.
//!
//!     1 WORDS, 2 WORDS, both WORDS   to ask the first one, the second one, or both in turn
//!     1 pass, 2 pass, both pass      one gives the other all that it has to send
//!     turns FROM TO LOST             at the times FROM, FROM + 10, .. below TO both are told the
//!                                    time, and each gives the other what it has to send. Of all
//!                                    that is given, each one is lost whose number LOST divides
use crate::bench::{Bench, unknown};
use crate::words::{number, pair, word};
use std::alloc::AllocError;

/// One of two that exchange PDUs.
pub trait Side: Bench {
    /// Takes note of the time.
    fn tick(&mut self, now: u64) -> Result<(), AllocError>;

    /// Gives the other what it has to send. What is given is counted, and each one is lost whose
    /// number `every` divides; 0 divides none.
    fn gives(&mut self, other: &mut Self, every: u64, given: &mut u64) -> Result<(), AllocError>;
}

/// Both.
#[derive(Drop)]
pub struct Joined<S: Side> {
    one: S,
    two: S,
}

impl<S: Side> Bench for Joined<S> {
    fn does(&mut self, verb: &str, words: &str, out: &mut String) -> Result<(), AllocError> {
        let (inner, rest) = pair(words);
        match verb {
            "1" => asks(&mut self.one, &mut self.two, inner, rest, out),
            "2" => asks(&mut self.two, &mut self.one, inner, rest, out),
            "both" => {
                asks(&mut self.one, &mut self.two, inner, rest, out)?;
                asks(&mut self.two, &mut self.one, inner, rest, out)
            }
            "turns" => self.turns(words),
            _ => unknown(out),
        }
    }
}

impl<S: Side> Joined<S> {
    /// Joins both, if both are there.
    pub fn of(
        one: Result<S, AllocError>,
        two: Result<S, AllocError>,
    ) -> Result<Joined<S>, AllocError> {
        Ok(Joined {
            one: one?,
            two: two?,
        })
    }

    fn turns(&mut self, words: &str) -> Result<(), AllocError> {
        let (from, to) = (number::<u64>(word(words, 0)), number::<u64>(word(words, 1)));
        let every = number::<u64>(word(words, 2));
        let mut given = 0u64;
        for turn in 0..to.saturating_sub(from).div_ceil(10) {
            let now = from.saturating_add(turn.saturating_mul(10));
            self.one.tick(now)?;
            self.two.tick(now)?;
            self.one.gives(&mut self.two, every, &mut given)?;
            self.two.gives(&mut self.one, every, &mut given)?;
        }
        Ok(())
    }
}

fn asks<S: Side>(
    one: &mut S,
    two: &mut S,
    verb: &str,
    words: &str,
    out: &mut String,
) -> Result<(), AllocError> {
    if verb == "pass" {
        return one.gives(two, 0, &mut 0);
    }
    one.does(verb, words, out)
}
