//! How a bench goes through a transcript.
use crate::words::pair;
use std::alloc::AllocError;

/// What a transcript asks something of.
pub trait Bench: Drop {
    /// Does what a line asks, of which the first word stands apart, and writes the answers.
    fn does(&mut self, verb: &str, words: &str, out: &mut String) -> Result<(), AllocError>;
}

/// Writes the transcript as a bench goes through it: what it asks, with the answers that come.
pub fn played<B: Bench>(
    mut bench: B,
    transcript: &str,
    out: &mut String,
) -> Result<(), AllocError> {
    for line in transcript.lines() {
        if !line.starts_with(' ') {
            write!(out, "{line}\n")?;
            let (verb, words) = pair(line);
            bench.does(verb, words, out)?;
        }
    }
    Ok(())
}

/// Says that a bench knows no such verb.
pub fn unknown(out: &mut String) -> Result<(), AllocError> {
    write!(out, " what is that?\n")
}
