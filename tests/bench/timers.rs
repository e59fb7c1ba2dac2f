//! Timers of transactions.
//!
//!     room S:N             to make room
//!     roomy S:N            to say whether it has room
//!     arm S:N KIND TIME    to arm a timer
//!     after S:N KIND TIME  to arm a timer, so long after now
//!     clear S:N KIND       to clear a timer
//!     set S:N              to set all four: EofAck is waited for, 4 units, Nak isn't, FinishedAck
//!                          is, 20 units, and Inactivity anew, 5 units
//!     two                  to arm timers of 1:1 and 1:2 by `arm_two` of `callers`
//!     of S:N KIND          to tell the deadline of a timer
//!     next, others         to tell the earliest deadline, of all timers and of all but those of
//!                          Inactivity
//!     count TIME           to say how many would fire
//!     fire TIME            to tell which fire
//!     now                  to tell the time
use crate::bench::{Bench, played, unknown};
use crate::words::{id, number, word};
use callers::arm_two;
use cfdp_header::TransactionId;
use cfdp_timers::{Kind, Timers, Wait, Waits};
use std::alloc::{AllocError, Global};

/// Plays a transcript.
pub fn play(alloc: Global, transcript: &str, out: &mut String) -> Result<(), AllocError> {
    let timers = Timers::new(alloc);
    let bench = TimersBench { timers };
    played(bench, transcript, out)
}

/// Timers.
#[derive(Drop)]
struct TimersBench {
    timers: Timers,
}

impl Bench for TimersBench {
    fn does(&mut self, verb: &str, words: &str, out: &mut String) -> Result<(), AllocError> {
        let first = word(words, 0);
        let kind = match word(words, 1) {
            "eof" => Kind::EofAck,
            "nak" => Kind::Nak,
            "finished" => Kind::FinishedAck,
            _ => Kind::Inactivity,
        };
        match verb {
            "room" => self.timers.room(id(first)),
            "arm" | "after" | "set" => Ok(self.arms(verb, id(first), kind, word(words, 2))),
            "clear" => Ok(self.timers.clear(id(first), kind)),
            "two" => arm_two(&mut self.timers, id("1:1"), id("1:2")),
            "fire" => self.fires(number(first), out),
            "of" => write!(out, " {:?}\n", self.timers.deadline_of(id(first), kind)),
            _ => self.tells(verb, first, out),
        }
    }
}

impl TimersBench {
    fn tells(&self, verb: &str, first: &str, out: &mut String) -> Result<(), AllocError> {
        match verb {
            "roomy" => write!(out, " {}\n", self.timers.has_room(id(first))),
            "count" => write!(out, " {}\n", self.timers.due_count(number(first))),
            "now" => write!(out, " {}\n", self.timers.now()),
            "next" => write!(out, " {:?}\n", self.timers.next()),
            "others" => write!(out, " {:?}\n", self.timers.next_but_inactivity()),
            _ => unknown(out),
        }
    }

    /// Arms a timer, at a time or so long after now, or sets all four, if there is room.
    fn arms(&mut self, verb: &str, id: TransactionId, kind: Kind, time: &str) {
        if !self.timers.has_room(id) {
            return;
        }
        match verb {
            "arm" => self.timers.arm(id, kind, number(time)),
            "after" => {
                let deadline = self.timers.deadline_after(number(time));
                self.timers.arm(id, kind, deadline);
            }
            _ => self.timers.set(
                id,
                &Waits {
                    eof_ack: Wait::Keep(4),
                    nak: Wait::Clear,
                    finished_ack: Wait::of(true, false, 20),
                    inactivity: Wait::of(true, true, 5),
                },
            ),
        }
    }

    fn fires(&mut self, time: u64, out: &mut String) -> Result<(), AllocError> {
        for (id, kind) in &self.timers.fire(time)? {
            write!(out, " {}:{} {kind:?}\n", id.source, id.number)?;
        }
        Ok(())
    }
}
