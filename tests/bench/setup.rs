//! How entities and stations are set up: a number for each key, of which words name those that
//! differ.
use cfdp_directives::{ChecksumKind, Handler, Handlers, Limits, Policy, Times};
use cfdp_station::{EntityConfig, FrameFields, LinkConfig, StationConfig};

/// The keys, in the order of their numbers. `octets` says how much of `hello` is in `a.txt`. From
/// the calls `outbox_call` and `inbox_call` on, the outbox and the inbox of an entity fail. PDUs
/// have a CRC if `pdu_crc` is 1. `most_gaps` limits the gaps of a file, unless it is 0.
const KEYS: &str = "entity peer id_width number_width first_number segment checksum eof_time \
    nak_time finished_time inactivity_time sends_channel sends_zone sends_apid receives_channel \
    receives_zone receives_apid capacity eof_limit nak_limit finished_limit ack_handler octets \
    outbox_call inbox_call sends_data_channel receives_data_channel pdu_crc most_gaps";

/// A number for each key.
pub type Setup = [u64; 29];

/// The first entity or station, with zones of 32 octets.
pub const ONE: Setup = [
    1, 2, 2, 4, 1, 1024, 0, 10, 10, 10, 100, 5, 32, 100, 6, 32, 101, 16_384, 3, 3, 3, 0, 5,
    1_000_000, 1_000_000, 7, 8, 0, 0,
];

/// The second one.
pub const TWO: Setup = [
    2, 1, 2, 4, 1, 1024, 0, 10, 10, 10, 100, 6, 32, 101, 5, 32, 100, 16_384, 3, 3, 3, 0, 5,
    1_000_000, 1_000_000, 8, 7, 0, 0,
];

/// Returns a setup with other numbers: pairs of a key and its number, all of them words.
pub fn with(setup: Setup, words: &str) -> Setup {
    let mut setup = setup;
    let mut place = setup.len();
    for word in words.split_whitespace() {
        match word.parse::<u64>() {
            Ok(number) => {
                if let Some(old) = setup.get_mut(place) {
                    *old = number;
                }
            }
            Err(_) => place = place_of(word),
        }
    }
    setup
}

fn place_of(word: &str) -> usize {
    let mut place = 0usize;
    for key in KEYS.split_whitespace() {
        if key == word {
            return place;
        }
        place = place.saturating_add(1);
    }
    usize::MAX
}

fn octet(number: u64) -> u8 {
    u8::try_from(number).unwrap_or(u8::MAX)
}

fn half_word(number: u64) -> u16 {
    u16::try_from(number).unwrap_or(u16::MAX)
}

fn word(number: u64) -> u32 {
    u32::try_from(number).unwrap_or(u32::MAX)
}

fn policy(setup: &Setup) -> Policy {
    Policy {
        limits: Limits {
            eof: octet(setup[18]),
            nak: octet(setup[19]),
            finished: octet(setup[20]),
        },
        times: Times {
            eof: word(setup[7]),
            nak: word(setup[8]),
            finished: word(setup[9]),
            inactivity: word(setup[10]),
        },
        handlers: Handlers {
            ack: Handler::from_number(octet(setup[21])).unwrap_or(Handler::Cancel),
            ..Handlers::default()
        },
        most_gaps: if setup[28] == 0 {
            None
        } else {
            Some(setup[28])
        },
    }
}

/// Returns the configuration of an entity.
pub fn entity(setup: &Setup) -> EntityConfig {
    EntityConfig {
        entity: setup[0],
        peer: setup[1],
        id_width: octet(setup[2]),
        number_width: octet(setup[3]),
        first_number: setup[4],
        segment: half_word(setup[5]),
        checksum_kind: ChecksumKind::from_code(octet(setup[6])).unwrap_or(ChecksumKind::NULL),
        pdu_crc: setup[27] == 1,
        policy: policy(setup),
    }
}

fn link(virtual_channel: u64, data_virtual_channel: u64, zone: u64, apid: u64) -> LinkConfig {
    LinkConfig {
        spacecraft: 42,
        virtual_channel: octet(virtual_channel),
        data_virtual_channel: octet(data_virtual_channel),
        zone: half_word(zone),
        apid: half_word(apid),
        fields: FrameFields::NONE,
    }
}

/// Returns the configuration of a station.
pub fn station(setup: &Setup) -> StationConfig {
    StationConfig {
        entity: entity(setup),
        sends: link(setup[11], setup[25], setup[12], setup[13]),
        receives: link(setup[14], setup[26], setup[15], setup[16]),
        capacity: usize::try_from(setup[17]).unwrap_or(0),
    }
}
