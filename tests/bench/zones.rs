//! Packets over zones, and back (`mpdu`). A packet with the identifier 100 whose data octets are
//! all the same is written LEN:OCTET, also in an answer; any other by its octets. The setup is the
//! length of the zones, and the packer's capacity.
//!
//!     push PACKET       a packer takes this packet
//!     flush             the packer's begun zone is filled
//!     zone              a zone is taken, with its first header pointer
//!     zones N           so many zones are taken: in how many of them no packet starts
//!     waiting, room     the packer's lengths
//!     read POINTER follows|gap OCTETS   a reassembler reads this zone, or else the one taken last
//!     pointer N OCTETS  the first header pointer in these octets, and them with N in its place
//!     carry AT LEN PACKET PACKET        what comes of these packets over zones of 16 octets,
//!                                       where of LEN marks of frames the one at AT says that it
//!                                       is struck

use crate::bench::{Bench, played, unknown};
use crate::words::{number, octets, pair, tell_octets};
use mpdu::{
    NO_START, Packer, Reassembler, are_few_in_a_row, are_packets, carry, is_packet, put_pointer,
    read_pointer,
};
use octet_strings::OctetStrings;
use space_packet::{Packet, PacketType, SequenceFlags, encode};
use std::alloc::{AllocError, Global};

/// Plays a transcript, over zones of so many octets, and a packer with so much room.
pub fn play(
    alloc: Global,
    setup: &str,
    transcript: &str,
    out: &mut String,
) -> Result<(), AllocError> {
    let (zone, capacity) = pair(setup);
    let (zone, capacity) = (number::<usize>(zone), number::<usize>(capacity));
    if zone < 16 || 2040 < zone || 131_072 < capacity {
        return Err(AllocError);
    }
    let bench = Zones {
        alloc,
        packer: Packer::new(alloc, zone, capacity)?,
        zone: vec![in alloc; 0u8; zone]?,
        reassembler: Reassembler::new(alloc)?,
        came: OctetStrings::new(alloc),
    };
    played(bench, transcript, out)
}

/// Returns the packet that is written so. LEN is 7 to 65,542.
fn packet(alloc: Global, word: &str) -> Result<Vec<u8>, AllocError> {
    match word.split_once(':') {
        Some((len, octet)) => uniform(alloc, number(len), number(octet)),
        None => octets(alloc, word),
    }
}

/// Returns a packet of 7 to 65,542 octets with the identifier 100, whose data octets are all
/// `octet`.
fn uniform(alloc: Global, len: usize, octet: u8) -> Result<Vec<u8>, AllocError> {
    let len = len.clamp(7, 65_542);
    let body = vec![in alloc; octet; len - 6]?;
    let packet = Packet {
        apid: 100,
        packet_type: PacketType::Telemetry,
        has_secondary_header: false,
        sequence_flags: SequenceFlags::Unsegmented,
        count: 0,
        body: &body,
    };
    let mut octets = vec![in alloc; 0u8; len]?;
    encode(&packet, &mut octets);
    Ok(octets)
}

/// A packer, the zone taken last, and a reassembler with what it gave last.
#[derive(Drop)]
struct Zones {
    alloc: Global,
    packer: Packer,
    zone: Vec<u8>,
    reassembler: Reassembler,
    came: OctetStrings,
}

impl Bench for Zones {
    fn does(&mut self, verb: &str, words: &str, out: &mut String) -> Result<(), AllocError> {
        match verb {
            "flush" => Ok(self.packer.flush()),
            "push" => self.pushes(words, out),
            "zone" => self.takes(out),
            "read" => self.reads(words, out),
            "waiting" => write!(out, " {}\n", self.packer.waiting_len()),
            "room" => write!(out, " {}\n", self.packer.room()),
            "zones" => self.counts(number(words), out),
            "carry" => carries(self.alloc, words, out),
            "pointer" => tell_pointer(self.alloc, words, out),
            _ => unknown(out),
        }
    }
}

impl Zones {
    fn pushes(&mut self, word: &str, out: &mut String) -> Result<(), AllocError> {
        let packet = packet(self.alloc, word)?;
        if !is_packet(&packet) {
            return write!(out, " no packet\n");
        }
        match self.packer.push(&packet) {
            Ok(()) => write!(out, " ok\n"),
            Err(_) => write!(out, " full\n"),
        }
    }

    fn takes(&mut self, out: &mut String) -> Result<(), AllocError> {
        match self.packer.zone(&mut self.zone) {
            Some(pointer) => {
                write!(out, " {pointer}")?;
                tell_octets(self.alloc, &self.zone, out)
            }
            None => write!(out, " none\n"),
        }
    }

    fn counts(&mut self, most: usize, out: &mut String) -> Result<(), AllocError> {
        let mut found = 0usize;
        for _i in 0..most {
            if self.packer.zone(&mut self.zone) == Some(NO_START) {
                found = found.saturating_add(1);
            }
        }
        write!(out, " {found}\n")
    }

    fn reads(&mut self, words: &str, out: &mut String) -> Result<(), AllocError> {
        let (pointer, words) = pair(words);
        let (word, digits) = pair(words);
        let mut zone = octets(self.alloc, digits)?;
        if zone.is_empty() {
            zone.extend_from_slice(&self.zone)?;
        }
        if zone.len() < 16 || 2040 < zone.len() {
            return Err(AllocError);
        }
        self.came.clear();
        let (pointer, follows) = (number::<u16>(pointer), word == "follows");
        let notes = self
            .reassembler
            .feed(pointer, &zone, follows, &mut self.came)?;
        write!(out, " {} {}\n", notes.resync, notes.bad)?;
        tell_packets(self.alloc, &self.came, out)
    }
}

fn tell_pointer(alloc: Global, words: &str, out: &mut String) -> Result<(), AllocError> {
    let (pointer, digits) = pair(words);
    let pointer = number::<u16>(pointer);
    let mut mpdu = octets(alloc, digits)?;
    if mpdu.len() < 2 || 2048 <= pointer {
        return write!(out, " none\n");
    }
    write!(out, " {}\n", read_pointer(&mpdu))?;
    put_pointer(&mut mpdu, pointer);
    tell_octets(alloc, &mpdu, out)
}

fn tell_packets(alloc: Global, packets: &OctetStrings, out: &mut String) -> Result<(), AllocError> {
    for place in 0..packets.len() {
        tell_packet(alloc, packets.get(place), out)?;
    }
    Ok(())
}

/// Tells a packet by its length and its data octet, if all of it is as these say.
fn tell_packet(alloc: Global, octets: &[u8], out: &mut String) -> Result<(), AllocError> {
    let data_octet = octets.last().copied().unwrap_or(0);
    if uniform(alloc, octets.len(), data_octet)?.as_slice() == octets {
        return write!(out, " {}:{data_octet}\n", octets.len());
    }
    tell_octets(alloc, octets, out)
}

fn carries(alloc: Global, words: &str, out: &mut String) -> Result<(), AllocError> {
    let (at, words) = pair(words);
    let (len, words) = pair(words);
    let packets = packets_of(alloc, words)?;
    let mut struck = vec![in alloc; false; number::<usize>(len)]?;
    if let Some(mark) = struck.get_mut(number::<usize>(at)) {
        *mark = true;
    }
    tell_packets(alloc, &carried(alloc, &packets, &struck)?, out)
}

fn carried(
    alloc: Global,
    packets: &[Vec<u8>],
    struck: &[bool],
) -> Result<OctetStrings, AllocError> {
    if !are_packets(packets) || !are_few_in_a_row(struck) {
        return Err(AllocError);
    }
    carry(alloc, packets, 16, struck)
}

fn packets_of(alloc: Global, words: &str) -> Result<Vec<Vec<u8>>, AllocError> {
    let mut packets = Vec::new(alloc);
    for word in words.split(' ') {
        packets.push(packet(alloc, word)?)?;
    }
    Ok(packets)
}
