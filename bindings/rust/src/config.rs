//! How a station is set up.

use crate::codes::{ChecksumType, Handler};
use crate::ffi;

/// One direction of a link. It has two lanes, a virtual channel each: directives go on the one, and
/// file data on the other.
#[derive(Clone, Copy, Debug, PartialEq, Eq)]
#[non_exhaustive]
pub struct Link {
    /// Octets of the packet zone of a frame: 16 to 2,040.
    pub zone: u16,
    /// The application process of the packets: 0 to 2,046.
    pub apid: u16,
    /// The spacecraft of the frames.
    pub spacecraft: u8,
    /// The virtual channel of directives: 0 to 62.
    pub virtual_channel: u8,
    /// The virtual channel of file data: 0 to 62; it must not be `virtual_channel`.
    pub data_virtual_channel: u8,
    /// Octets of the insert zone of a frame: 0 to 64.
    pub insert_zone: u8,
    /// Whether frames have an operational control field, of 4 octets.
    pub control_field: bool,
    /// Whether frames have a frame error control field, of 2 octets.
    pub error_control: bool,
}

/// How a station is set up. It begins with the library's defaults, so if a field isn't set, it has
/// a valid value.
///
/// # Examples
///
/// ```
/// use cfdp::{Config, Error, Station};
///
/// let mut config = Config::new(1, 2);
/// config.sends.zone = 1024;
/// let peer = config.of_peer();
/// assert_eq!((peer.entity, peer.receives), (2, config.sends));
/// assert!(Station::open(&peer).is_ok());
///
/// config.sends.zone = 5;
/// let refused = Station::open(&config).unwrap_err();
/// assert_eq!(refused.to_string(), "sends.zone must be 16 to 2040");
/// ```
#[derive(Clone, Copy, Debug, PartialEq, Eq)]
#[non_exhaustive]
pub struct Config {
    /// This entity.
    pub entity: u64,
    /// The other one, which must differ from this entity.
    pub peer: u64,
    /// The sequence number of the first put. A station that is restarted must begin with one that
    /// it never used.
    pub first_number: u64,
    /// Octets of packets that may wait in a lane: 8,192 to 65,536.
    pub capacity: usize,
    /// How long the ACK of an EOF is waited for, in your unit of time: 1 or more.
    pub eof_time: u32,
    /// How long what a NAK asked for is waited for.
    pub nak_time: u32,
    /// How long the ACK of a Finished is waited for.
    pub finished_time: u32,
    /// How long any PDU of a transaction is waited for.
    pub inactivity_time: u32,
    /// The frames that it sends.
    pub sends: Link,
    /// The frames that it receives: what the peer sends.
    pub receives: Link,
    /// Whether the PDUs of the files that it sends, and those that answer them, end in a CRC.
    pub pdu_crc: bool,
    /// Most octets of a file in a PDU: 1 to 4,096.
    pub segment: u16,
    /// Octets of an entity id: 1 to 8.
    pub id_width: u8,
    /// Octets of a sequence number: 1 to 8.
    pub number_width: u8,
    /// The checksum of the files that it sends.
    pub checksum: ChecksumType,
    /// How often an EOF is sent again.
    pub eof_limit: u8,
    /// How often a NAK is sent again.
    pub nak_limit: u8,
    /// How often a Finished is sent again.
    pub finished_limit: u8,
    /// What is done if no ACK is received.
    pub on_ack_limit: Handler,
    /// What is done if nothing is received after NAKs.
    pub on_nak_limit: Handler,
    /// What is done if nothing at all is received.
    pub on_inactivity: Handler,
    /// Most gaps in what is held of a file that it receives; 0: no limit. File data that would make
    /// one more are dropped, and requested again.
    pub most_gaps: u64,
}

impl Config {
    /// Returns the defaults, with these ids. Of the two directions it sends the first one: the
    /// station at the other end is set up by [`of_peer`](Self::of_peer).
    #[must_use]
    pub fn new(entity: u64, peer: u64) -> Config {
        Config { entity, peer, ..Config::default() }
    }

    /// Returns the configuration of the station at the other end: ids and links the other way
    /// round, and everything else the same.
    #[must_use]
    pub fn of_peer(&self) -> Config {
        Config {
            entity: self.peer,
            peer: self.entity,
            sends: self.receives,
            receives: self.sends,
            ..*self
        }
    }

    pub(crate) fn to_ffi(self) -> ffi::Config {
        ffi::Config {
            size: std::mem::size_of::<ffi::Config>(),
            entity: self.entity,
            peer: self.peer,
            first_number: self.first_number,
            capacity: self.capacity,
            eof_time: self.eof_time,
            nak_time: self.nak_time,
            finished_time: self.finished_time,
            inactivity_time: self.inactivity_time,
            sends: self.sends.to_ffi(),
            receives: self.receives.to_ffi(),
            pdu_crc: self.pdu_crc.into(),
            segment: self.segment,
            id_width: self.id_width,
            number_width: self.number_width,
            checksum: self.checksum.number(),
            eof_limit: self.eof_limit,
            nak_limit: self.nak_limit,
            finished_limit: self.finished_limit,
            on_ack_limit: self.on_ack_limit.number(),
            on_nak_limit: self.on_nak_limit.number(),
            on_inactivity: self.on_inactivity.number(),
            most_gaps: self.most_gaps,
        }
    }
}

/// The defaults of `cfdp_defaults`: those of station 1 of a script, with the ids 1 and 2.
impl Default for Config {
    fn default() -> Config {
        let it = ffi::defaults();
        Config {
            entity: it.entity,
            peer: it.peer,
            first_number: it.first_number,
            capacity: it.capacity,
            eof_time: it.eof_time,
            nak_time: it.nak_time,
            finished_time: it.finished_time,
            inactivity_time: it.inactivity_time,
            sends: Link::of(it.sends),
            receives: Link::of(it.receives),
            pdu_crc: it.pdu_crc == 1,
            segment: it.segment,
            id_width: it.id_width,
            number_width: it.number_width,
            checksum: ChecksumType::try_from(it.checksum).unwrap_or(ChecksumType::Modular),
            eof_limit: it.eof_limit,
            nak_limit: it.nak_limit,
            finished_limit: it.finished_limit,
            on_ack_limit: Handler::of(it.on_ack_limit).unwrap_or(Handler::Cancel),
            on_nak_limit: Handler::of(it.on_nak_limit).unwrap_or(Handler::Cancel),
            on_inactivity: Handler::of(it.on_inactivity).unwrap_or(Handler::Cancel),
            most_gaps: it.most_gaps,
        }
    }
}

impl Link {
    fn of(it: ffi::Link) -> Link {
        Link {
            zone: it.zone,
            apid: it.apid,
            spacecraft: it.spacecraft,
            virtual_channel: it.virtual_channel,
            data_virtual_channel: it.data_virtual_channel,
            insert_zone: it.insert_zone,
            control_field: it.control_field == 1,
            error_control: it.error_control == 1,
        }
    }

    fn to_ffi(self) -> ffi::Link {
        ffi::Link {
            zone: self.zone,
            apid: self.apid,
            spacecraft: self.spacecraft,
            virtual_channel: self.virtual_channel,
            data_virtual_channel: self.data_virtual_channel,
            insert_zone: self.insert_zone,
            control_field: self.control_field.into(),
            error_control: self.error_control.into(),
        }
    }
}
