//! What can be written, lengths, checksums and ids. The other questions are those of `parts`.
//!
//!     fits NUMBER WIDTH         whether a number can be written in so many octets
//!     ack WIDTH WIDTH NUMBER    whether the header of an ACK of 1:NUMBER can be, whose ids and
//!                               numbers have so many octets
//!     progress LENGTH NUMBER    whether a Keep Alive can be, behind a header with this length
//!     size NUMBER, name WORD    whether a file may have this size, or this name; `-` is empty
//!     pairs START-END ..        whether these ranges can be written, and how many they are
//!     len KIND N ..             how many octets a data field has, or a `header` or the fault
//!                               `location` among options, of which these are lengths
//!     large VERB ..             to ask `progress`, `size`, `pairs` or `len` of a large file
//!     new, sum OFFSET OCTETS    to begin checksums, and to add octets; both tell those of types 0
//!                               to 3
//!     copy WORD                 to copy octets twice
//!     less ID ID                whether one transaction stands before another

use crate::bench::{Bench, played};
use crate::parts;
use crate::words::{id, number, octets, pair, plain, text, word};
use cfdp_directives::{
    ChecksumKind, Checksums, Octets, Pdu, SegmentRequests, ack_len, can_write, eof_len,
    fault_location_len, file_data_len, finished_len, is_file_name, is_file_size, keep_alive_len,
    metadata_len, nak_len, prompt_len,
};
use cfdp_header::{Direction, Header, PduType, TransactionId, fits_width};
use std::alloc::{AllocError, Global};

/// Plays a transcript.
pub fn play(alloc: Global, transcript: &str, out: &mut String) -> Result<(), AllocError> {
    let sums = Checksums::new();
    let bench = RuleBench { alloc, sums };
    played(bench, transcript, out)
}

/// The checksums of a file that is begun.
#[derive(Drop)]
struct RuleBench {
    alloc: Global,
    sums: Checksums,
}

impl Bench for RuleBench {
    fn does(&mut self, verb: &str, words: &str, out: &mut String) -> Result<(), AllocError> {
        let (first, second) = (word(words, 0), word(words, 1));
        match verb {
            "new" | "sum" => self.adds(verb, words, out),
            "copy" => tell_copy(self.alloc, words, out),
            "progress" | "size" | "pairs" | "len" => {
                tell_sized(self.alloc, false, verb, words, out)
            }
            "large" => {
                let (verb, words) = pair(words);
                tell_sized(self.alloc, true, verb, words, out)
            }
            "fits" => write!(out, " {}\n", fits_width(number(first), number(second))),
            "ack" => write!(out, " {}\n", of_ack(words).fits()),
            "name" => write!(out, " {}\n", is_file_name(plain(words))),
            "less" => write!(out, " {}\n", id(first) < id(second)),
            _ => parts::asks(self.alloc, verb, words, out),
        }
    }
}

impl RuleBench {
    fn adds(&mut self, verb: &str, words: &str, out: &mut String) -> Result<(), AllocError> {
        let (offset, digits) = pair(words);
        let octets = octets(self.alloc, digits)?;
        let start = number::<u64>(offset);
        if verb == "new" {
            self.sums = Checksums::new();
        } else if start.checked_add(octets.len() as u64).is_some() {
            self.sums.add(None, start, &octets);
        }
        write!(
            out,
            " {:08X} {:08X} {:08X} {:08X}\n",
            self.sums.value(ChecksumKind::MODULAR),
            self.sums.value(ChecksumKind::PROXIMITY),
            self.sums.value(ChecksumKind::CASTAGNOLI),
            self.sums.value(ChecksumKind::IEEE)
        )
    }
}

/// Tells what goes by the large file flag.
fn tell_sized(
    alloc: Global,
    large: bool,
    verb: &str,
    words: &str,
    out: &mut String,
) -> Result<(), AllocError> {
    match verb {
        "size" => write!(out, " {}\n", is_file_size(large, number(words))),
        "pairs" => tell_pairs(alloc, large, words, out),
        "len" => write!(out, " {}\n", len_of(large, words)),
        _ => {
            let header = Header {
                large,
                length: number(word(words, 0)),
                ..of_ack("2 4 1")
            };
            let progress = number(word(words, 1));
            write!(
                out,
                " {}\n",
                can_write(&header, &Pdu::KeepAlive { progress })
            )
        }
    }
}

/// Returns the header of an ACK, toward the file's sender.
fn of_ack(words: &str) -> Header {
    Header {
        pdu_type: PduType::FileDirective,
        direction: Direction::TowardSender,
        crc: false,
        large: false,
        length: 3,
        segment_metadata: false,
        id_width: number(word(words, 0)),
        number_width: number(word(words, 1)),
        id: TransactionId {
            source: 1,
            number: number(word(words, 2)),
        },
        destination: 2,
    }
}

/// Returns the length that the words ask for, of which the numbers after the first are below 2^16.
fn len_of(large: bool, words: &str) -> usize {
    let (first, second) = (word(words, 1), word(words, 2));
    let one = usize::from(number::<u16>(first));
    let two = usize::from(number::<u16>(second));
    match word(words, 0) {
        "header" => Header::len_in_widths(number(first), number(second)),
        "data" => file_data_len(large, one),
        "metadata" => metadata_len(large, one, two, usize::from(number::<u16>(word(words, 3)))),
        "eof" => eof_len(large, one),
        "finished" => finished_len(one),
        "nak" => nak_len(large, one),
        "location" => fault_location_len(number(first)),
        "ack" => ack_len(),
        "prompt" => prompt_len(),
        "keep" => keep_alive_len(large),
        _ => 0,
    }
}

fn tell_pairs(alloc: Global, large: bool, words: &str, out: &mut String) -> Result<(), AllocError> {
    let mut given = Vec::new(alloc);
    for range in words.split_whitespace() {
        let (start, end) = range.split_once('-').unwrap_or((range, ""));
        given.push((number::<u64>(start), number::<u64>(end)))?;
    }
    let pairs = SegmentRequests::of(&given);
    let fit = pairs.fit(large);
    write!(out, " {fit} {} {}\n", pairs.len(), pairs.iter().count())
}

fn tell_copy(alloc: Global, word: &str, out: &mut String) -> Result<(), AllocError> {
    let name = Octets::copied(alloc, plain(word))?;
    let copy = name.copy(alloc)?;
    let alike = copy == name;
    let again = Octets::from_vec(copy.into_vec());
    write!(out, " {alike} {}\n", text(again.as_slice()))
}
