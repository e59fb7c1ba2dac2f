//! An entity over an outbox whose one file, `a.txt`, has any size, and octets that are all equal.
//! Two words set it up: how many octets the file has, and the value of each. The questions are
//! those of an entity.
use crate::bench::played;
use crate::entity::EntityBench;
use crate::setup::{ONE, entity, with};
use crate::words::{number, pair};
use callers::LongFile;
use std::alloc::{AllocError, Global};

/// Plays a transcript on the first entity, with the longest segments and this file.
pub fn play(
    alloc: Global,
    setup: &str,
    transcript: &str,
    out: &mut String,
) -> Result<(), AllocError> {
    let (count, value) = pair(setup);
    let file = LongFile {
        octets: number(count),
        value: number(value),
    };
    let config = entity(&with(ONE, "segment 4096"));
    let bench = EntityBench::over(alloc, config, file, u64::MAX)?;
    played(bench, transcript, out)
}
