//! `test_bench`: plays transcripts of questions and answers on crates of the product, of which it
//! is no part.
//!
//! It reads a transcript on standard input, and writes it anew on standard output. A line that
//! begins with a space is an answer, and is passed over; each other line is a question, which is
//! written again with the answers that come. Its first word says what is asked, and the others of
//! what. The first argument names the bench, as in `test_bench ranges`; the arguments after it say
//! how the bench is set up.
//!
//! `tests/run` plays the transcripts in `tests/transcripts`, which have to come out as they stand.
//!
//! It is written in Rattle, and not proved: `tests/bench.py` builds it as `tools/try` builds the
//! program. Its files end in `.rs`, since `rt ci` takes each `.rt` for one that is proved.
mod bench;
mod entity;
mod joined;
mod kept;
mod large;
mod parts;
mod ranges;
mod records;
mod resuming;
mod rules;
mod setup;
mod station;
mod stores;
mod strangers;
mod telling;
mod timers;
mod words;
mod zones;

use setup::{ONE, TWO, with};
use std::alloc::{AllocError, Global};
use std::process::ExitCode;
use std::{env, io};
use words::pair;

fn main(rt: HostRuntime) -> ExitCode {
    match run(&rt) {
        Ok(()) => ExitCode::from(0),
        Err(_) => ExitCode::from(3),
    }
}

/// Plays the transcript that is read.
///
/// # Errors
///
/// The error of reading or of writing, or `OutOfMemory`.
fn run(rt: &HostRuntime) -> io::Result<()> {
    let words: Vec<String> = env::args(rt)?.collect(rt.alloc())?;
    let mut arguments = String::new(rt.alloc());
    for word in words.iter().skip(1) {
        write!(&mut arguments, "{word} ")?;
    }
    let transcript = io::read_to_string(rt.alloc(), rt.reader())?;
    let mut out = String::new(rt.alloc());
    play(
        rt.alloc(),
        arguments.trim_end(),
        transcript.as_str(),
        &mut out,
    )?;
    rt.print(out.as_str())
}

/// Plays a transcript on the bench that the first word names, and that the others set up.
fn play(
    alloc: Global,
    arguments: &str,
    transcript: &str,
    out: &mut String,
) -> Result<(), AllocError> {
    let (name, setup) = pair(arguments);
    match name {
        "rules" => rules::play(alloc, transcript, out),
        "ranges" => ranges::play(alloc, transcript, out),
        "records" => records::play(alloc, transcript, out),
        "stores" => stores::play(alloc, transcript, out),
        "timers" => timers::play(alloc, transcript, out),
        "zones" => zones::play(alloc, setup, transcript, out),
        "large" => large::play(alloc, setup, transcript, out),
        "sender" => entity::play(alloc, &with(ONE, setup), transcript, out),
        "receiver" => entity::play(alloc, &with(TWO, setup), transcript, out),
        "entities" => entity::play_both(alloc, setup, transcript, out),
        "resuming" => resuming::play(alloc, setup, transcript, out),
        "station" => station::play(alloc, &with(TWO, setup), transcript, out),
        _ => write!(out, " there is no such bench\n"),
    }
}
