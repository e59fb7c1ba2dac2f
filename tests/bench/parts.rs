//! What of octets, packets, frames, PDUs, setups and causes no row and no program in C shows.
//! Numbers in octets are written in hexadecimal digits. PACKET is a packet by its parts: its
//! process, whether it is a telecommand, whether it has a secondary header, its flags as a number,
//! its count, and its data field. HEADER is that of a frame by its parts: its spacecraft, its
//! virtual channel, its count, and `true` with the usage flag of the count cycle, where a count has
//! 28 bits, else `false`.
//!
//!     three OCTETS          to put in three fields, and to tell the first
//!     write VALUE OCTETS    to put a value in front, and to read it again
//!     packet PACKET OCTETS  to write a packet into these octets, if it fits: its length
//!     idle LEN OCTETS       to write an idle packet of this length, if it fits
//!     is_len N              whether a packet may have so many octets
//!     see COUNT ..          how many packets are missing before one with each of these counts
//!     next N                how many of the first N counts follow each other
//!     frame HEADER OCTETS   to write a header in front of these octets, if it fits
//!     counts COUNT          to count frames from this number on: the first two counts
//!     again OCTETS          to tell the octets of a PDU, as its header and its content are written
//!     other N OCTETS        the same with the other large file flag, where its data field then has
//!                           so many octets
//!     amiss WORDS           what is invalid if the first station is set up so
//!     entity ID ID          of an entity with these ids, its own and its peer's, and all else by
//!                           default: the width of ids, and whether it can be set up so
//!     policy                to tell a policy by default
//!     causes                why a link drops frames, packets and zones, and an entity PDUs: each
//!                           cause by its number, its name, and in words

use crate::bench::unknown;
use crate::setup::{ONE, station, with};
use crate::words::{number, octets, pair, tell_octets, word};
use aos_frame::{FrameHeader, VcCounter};
use callers::{three_fields, written_and_read};
use cfd_bits::read_uint;
use cfdp_directives::{Policy, can_write, decode};
use cfdp_entity::EntityDrop;
use cfdp_header::Header;
use cfdp_station::{Config, EntityConfig};
use link_stack::LinkDrop;
use space_packet::{
    Counter, Packet, PacketType, SEQUENCE_COUNTS, SequenceFlags, Watch, encode_idle, is_packet_len,
};
use std::alloc::{AllocError, Global};

/// Room for the longest PDU of the transcripts.
const ROOM: usize = 300;

/// Does what a line asks, of which the first word stands apart, and writes the answers.
pub fn asks(alloc: Global, verb: &str, words: &str, out: &mut String) -> Result<(), AllocError> {
    match verb {
        "three" => tell_three(alloc, words, out),
        "write" => tell_number(alloc, words, out),
        "packet" => tell_packet(alloc, words, out),
        "idle" => tell_idle(alloc, words, out),
        "is_len" => write!(out, " {}\n", is_packet_len(number(words))),
        "see" => tell_missing(words, out),
        "next" => tell_counts(number(words), out),
        "frame" => tell_frame(alloc, words, out),
        "counts" => {
            let mut counter = VcCounter::from_count(number(words));
            let (one, two) = (counter.next(), counter.next());
            write!(out, " {one} {two}\n")
        }
        "again" => tell_again(alloc, None, words, out),
        "other" => {
            let (length, digits) = pair(words);
            tell_again(alloc, Some(number(length)), digits, out)
        }
        _ => asks_whole(verb, words, out),
    }
}

fn asks_whole(verb: &str, words: &str, out: &mut String) -> Result<(), AllocError> {
    match verb {
        "amiss" => {
            match station(&with(ONE, words)).amiss() {
                Some(field) => write!(out, " {field:?}: {field}\n"),
                None => write!(out, " nothing\n"),
            }
        }
        "entity" => {
            let config = EntityConfig::new(number(word(words, 0)), number(word(words, 1)));
            let is_valid = config.amiss().is_none();
            write!(out, " {} octets an id, {is_valid}\n", config.id_width)
        }
        "policy" => write!(out, " {:?}\n", Policy::default()),
        "causes" => tell_causes(out),
        _ => unknown(out),
    }
}

fn tell_three(alloc: Global, digits: &str, out: &mut String) -> Result<(), AllocError> {
    let mut octets = octets(alloc, digits)?;
    if octets.len() < 2 {
        return write!(out, " outside\n");
    }
    write!(out, " {:X}\n", three_fields(&mut octets))?;
    tell_octets(alloc, &octets, out)
}

fn tell_number(alloc: Global, words: &str, out: &mut String) -> Result<(), AllocError> {
    let value = octets(alloc, word(words, 0))?;
    let mut octets = octets(alloc, word(words, 1))?;
    let count = value.len();
    if count > 8 || count > octets.len() {
        write!(out, " outside\n")?;
    } else {
        let value = read_uint(&value, count);
        write!(out, " {:X}\n", written_and_read(&mut octets, count, value))?;
    }
    tell_octets(alloc, &octets, out)
}

fn tell_packet(alloc: Global, words: &str, out: &mut String) -> Result<(), AllocError> {
    let body = octets(alloc, word(words, 5))?;
    let mut octets = octets(alloc, word(words, 6))?;
    let flags = match word(words, 3) {
        "0" => SequenceFlags::Continuation,
        "1" => SequenceFlags::First,
        "2" => SequenceFlags::Last,
        _ => SequenceFlags::Unsegmented,
    };
    let packet = Packet {
        apid: number(word(words, 0)),
        packet_type: if word(words, 1) == "true" {
            PacketType::Telecommand
        } else {
            PacketType::Telemetry
        },
        has_secondary_header: word(words, 2) == "true",
        sequence_flags: flags,
        count: number(word(words, 4)),
        body: &body,
    };
    if !packet.is_writable() || packet.body.len() + 6 > octets.len() {
        return write!(out, " can't be written\n");
    }
    write!(out, " {}\n", space_packet::encode(&packet, &mut octets))?;
    tell_octets(alloc, &octets, out)
}

fn tell_idle(alloc: Global, words: &str, out: &mut String) -> Result<(), AllocError> {
    let (len, digits) = pair(words);
    let len = number::<usize>(len);
    let mut octets = octets(alloc, digits)?;
    if len < 7 || 65_542 < len || octets.len() < len {
        return write!(out, " can't be written\n");
    }
    encode_idle(len, &mut octets);
    tell_octets(alloc, &octets, out)
}

fn tell_missing(words: &str, out: &mut String) -> Result<(), AllocError> {
    let mut watch = Watch::new();
    for count in words.split_whitespace() {
        write!(
            out,
            " {}",
            watch.see(number::<u16>(count) % SEQUENCE_COUNTS)
        )?;
    }
    write!(out, "\n")
}

fn tell_counts(count: u16, out: &mut String) -> Result<(), AllocError> {
    let mut counter = Counter::new();
    let mut right = 0u16;
    for place in 0..count {
        if counter.next() == place % SEQUENCE_COUNTS {
            right = right.saturating_add(1);
        }
    }
    write!(out, " {right}\n")
}

fn tell_frame(alloc: Global, words: &str, out: &mut String) -> Result<(), AllocError> {
    let header = FrameHeader {
        spacecraft: number(word(words, 0)),
        virtual_channel: number(word(words, 1)),
        count: number(word(words, 2)),
        cycle: word(words, 3) == "true",
    };
    let mut octets = octets(alloc, word(words, 4))?;
    if !header.is_writable() || octets.len() < 6 {
        return write!(out, " can't be written\n");
    }
    aos_frame::encode(&header, &mut octets);
    tell_octets(alloc, &octets, out)
}

/// Tells a PDU as it is written again: with its own header, or with the other large file flag and
/// a data field of so many octets.
fn tell_again(
    alloc: Global,
    other: Option<u16>,
    digits: &str,
    out: &mut String,
) -> Result<(), AllocError> {
    let octets = octets(alloc, digits)?;
    let (header, pdu) = match decode(&octets) {
        Ok(read) => read,
        Err(e) => return write!(out, " error {} {}\n", e.number(), e.name()),
    };
    let header = match other {
        Some(length) => {
            Header {
                large: !header.large,
                length,
                ..header
            }
        }
        None => header,
    };
    let mut written = [0xFFu8; ROOM];
    if !can_write(&header, &pdu) || ROOM < header.len() + usize::from(header.length) {
        return write!(out, " can't be written\n");
    }
    let len = cfdp_directives::encode(&header, &pdu, &mut written);
    tell_octets(alloc, &written[..len], out)
}

fn tell_causes(out: &mut String) -> Result<(), AllocError> {
    for by in &LinkDrop::ALL {
        write!(out, " link {} {}: {by}\n", by.number(), by.name())?;
    }
    for by in &EntityDrop::ALL {
        write!(out, " pdu {} {}: {by}\n", by.number(), by.name())?;
    }
    Ok(())
}
