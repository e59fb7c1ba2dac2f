//! The calls of `cfdp.h`, and the memory that they ask for. All that is `unsafe` stands here: each
//! method of [`Handle`] passes whole slices and references, so that a caller must keep no rule.

use std::ffi::c_void;
use std::mem::size_of;

/// What a call answers, as `cfdp.h` names it.
pub const OK: u32 = 0;
pub const NOTHING: u32 = 6;
pub const SOURCE_FAULT: u32 = 26;
pub const FULL: u32 = 41;

/// One direction of a link.
#[repr(C)]
#[derive(Clone, Copy, Default)]
pub struct Link {
    pub zone: u16,
    pub apid: u16,
    pub spacecraft: u8,
    pub virtual_channel: u8,
    pub data_virtual_channel: u8,
    pub insert_zone: u8,
    pub control_field: u8,
    pub error_control: u8,
}

/// How a station is set up.
#[repr(C)]
#[derive(Clone, Copy, Default)]
pub struct Config {
    pub size: usize,
    pub entity: u64,
    pub peer: u64,
    pub first_number: u64,
    pub capacity: usize,
    pub eof_time: u32,
    pub nak_time: u32,
    pub finished_time: u32,
    pub inactivity_time: u32,
    pub sends: Link,
    pub receives: Link,
    pub pdu_crc: u8,
    pub segment: u16,
    pub id_width: u8,
    pub number_width: u8,
    pub checksum: u8,
    pub eof_limit: u8,
    pub nak_limit: u8,
    pub finished_limit: u8,
    pub on_ack_limit: u8,
    pub on_nak_limit: u8,
    pub on_inactivity: u8,
    pub most_gaps: u64,
}

/// How the frames of one direction are secured, with one key.
#[repr(C)]
#[derive(Clone, Copy)]
pub struct Security {
    pub number: u64,
    pub spi: u16,
    pub mac_len: u8,
    pub insert_zone: u8,
    pub control_field: u8,
    pub error_control: u8,
    pub key: [u8; 32],
}

/// Names a transaction: the entity that sends the file, and its number there.
#[repr(C)]
#[derive(Clone, Copy, Debug, Default, PartialEq, Eq, PartialOrd, Ord, Hash)]
pub struct Id {
    /// The entity that sends the file.
    pub source: u64,
    /// The sequence number that it gave the transaction.
    pub number: u64,
}

/// An indication; a field that its kind hasn't is 0.
#[repr(C)]
#[derive(Clone, Copy, Default)]
pub struct Told {
    pub id: Id,
    pub size: u64,
    pub source_len: usize,
    pub destination_len: usize,
    pub kind: u8,
    pub condition: u8,
    pub delivery: u8,
    pub status: u8,
}

/// A transaction, and how far it has come.
#[repr(C)]
#[derive(Clone, Copy, Default)]
pub struct Listed {
    pub id: Id,
    pub phase: u8,
}

/// How the journal of a station fares.
#[repr(C)]
#[derive(Clone, Copy, Default)]
pub struct JournalInfo {
    pub resumed: u32,
    pub lost: u32,
    pub state: u8,
    pub was_damaged: u8,
}

/// How long the name of a file is, and the file.
#[repr(C)]
#[derive(Clone, Copy, Default)]
pub struct FileInfo {
    pub name_len: usize,
    pub size: usize,
}

/// How often something of a frame of either lane was dropped, by the cause.
#[repr(C)]
#[derive(Clone, Copy, Debug, Default, PartialEq, Eq)]
#[non_exhaustive]
pub struct FrameDrops {
    /// It hasn't the octets of a frame.
    pub bad_length: u64,
    /// Its transfer frame version number isn't 01.
    pub bad_version: u64,
    /// It is replayed, or a reserved bit of its header is set.
    pub other_profile: u64,
    /// It is of another spacecraft.
    pub other_spacecraft: u64,
    /// It is of another virtual channel.
    pub other_channel: u64,
    /// It holds only idle data.
    pub only_idle: u64,
    /// An incomplete packet was discarded.
    pub resync: u64,
    /// A packet's version number isn't 0.
    pub bad_packet: u64,
    /// A packet is of another application process.
    pub other_apid: u64,
    /// A packet is a segment, or has a secondary header.
    pub segmented: u64,
    /// Out of memory for the packets of a frame.
    pub no_memory: u64,
    /// Its check says that it was damaged on the way.
    pub damaged: u64,
}

/// How often a PDU was dropped, by the cause.
#[repr(C)]
#[derive(Clone, Copy, Debug, Default, PartialEq, Eq)]
#[non_exhaustive]
pub struct PduDrops {
    /// It is shorter than a header.
    pub too_short: u64,
    /// The version of its header is another.
    pub bad_version: u64,
    /// Its CRC is wrong.
    pub bad_crc: u64,
    /// Its length isn't that of its header.
    pub bad_length: u64,
    /// It is of class 1.
    pub unacknowledged: u64,
    /// Its directive code is none.
    pub bad_directive: u64,
    /// Its data field is too short.
    pub truncated: u64,
    /// Its data field is too long.
    pub trailing: u64,
    /// A TLV of it isn't whole.
    pub bad_tlv: u64,
    /// Its condition code is none.
    pub bad_condition: u64,
    /// Its direction bit doesn't fit it.
    pub wrong_direction: u64,
    /// It is of other entities.
    pub not_for_us: u64,
    /// Its transaction has no record here.
    pub unknown: u64,
    /// There was no room for one more record.
    pub table_full: u64,
    /// There was no memory for what it brings.
    pub no_memory: u64,
    /// A file name of it is empty.
    pub no_file: u64,
}

impl FrameDrops {
    /// Returns each cause, by its name, with how often it was one.
    #[must_use]
    pub fn causes(&self) -> [(&'static str, u64); 12] {
        [
            ("bad_length", self.bad_length),
            ("bad_version", self.bad_version),
            ("other_profile", self.other_profile),
            ("other_spacecraft", self.other_spacecraft),
            ("other_channel", self.other_channel),
            ("only_idle", self.only_idle),
            ("resync", self.resync),
            ("bad_packet", self.bad_packet),
            ("other_apid", self.other_apid),
            ("segmented", self.segmented),
            ("no_memory", self.no_memory),
            ("damaged", self.damaged),
        ]
    }
}

impl PduDrops {
    /// Returns each cause, by its name, with how often it was one.
    #[must_use]
    pub fn causes(&self) -> [(&'static str, u64); 16] {
        [
            ("too_short", self.too_short),
            ("bad_version", self.bad_version),
            ("bad_crc", self.bad_crc),
            ("bad_length", self.bad_length),
            ("unacknowledged", self.unacknowledged),
            ("bad_directive", self.bad_directive),
            ("truncated", self.truncated),
            ("trailing", self.trailing),
            ("bad_tlv", self.bad_tlv),
            ("bad_condition", self.bad_condition),
            ("wrong_direction", self.wrong_direction),
            ("not_for_us", self.not_for_us),
            ("unknown", self.unknown),
            ("table_full", self.table_full),
            ("no_memory", self.no_memory),
            ("no_file", self.no_file),
        ]
    }
}

/// How many PDUs were sent, each counted once.
#[repr(C)]
#[derive(Clone, Copy, Debug, Default, PartialEq, Eq)]
#[non_exhaustive]
pub struct SentPdus {
    /// File data that were not sent before.
    pub file_data: u64,
    /// Those that were, and again since a NAK asked for them.
    pub file_data_again: u64,
    /// NAKs.
    pub naks: u64,
    /// All other directives, those that are sent again too.
    pub other_directives: u64,
}

/// What a station counts, from 0 when it is opened. No count goes beyond the greatest of 64 bits.
#[repr(C)]
#[derive(Clone, Copy, Debug, Default, PartialEq, Eq)]
#[non_exhaustive]
pub struct Counters {
    /// The PDUs that were sent.
    pub sent: SentPdus,
    /// What was dropped of frames, on either lane.
    pub frames: FrameDrops,
    /// The PDUs that were dropped.
    pub pdus: PduDrops,
}

/// A PDU; a field that its kind hasn't is 0.
#[repr(C)]
#[derive(Clone, Copy, Default)]
pub struct Pdu {
    pub id: Id,
    pub destination: u64,
    pub offset: u64,
    pub size: u64,
    pub data_len: usize,
    pub pairs: usize,
    pub checksum: u32,
    pub kind: u8,
    pub toward_sender: u8,
    pub condition: u8,
    pub delivery: u8,
    pub status: u8,
    pub acknowledged: u8,
    pub checksum_kind: u8,
    pub keep_alive: u8,
    pub large: u8,
    pub crc: u8,
}

/// A handle.
#[repr(C)]
pub struct Handle {
    at: *mut c_void,
    is_open: bool,
}

// SAFETY: what `at` points to is the handle's alone. The library has no data of its own that can
// change, and none of a thread (`tests/bindings.py` looks at that). Its memory is from `malloc`,
// and any thread may free it. Each call takes the handle by `&mut`.
unsafe impl Send for Handle {}

#[link(name = "cfdp_c", kind = "static")]
extern "C" {
    fn cfdp_version() -> u32;
    fn cfdp_fill_defaults(config: &mut Config);
    fn cfdp_open(station: &mut Handle, config: &Config) -> u32;
    fn cfdp_open_folders(
        station: &mut Handle,
        config: &Config,
        outbox: *const u8,
        n: usize,
        inbox: *const u8,
        m: usize,
    ) -> u32;
    fn cfdp_open_folders_journal(
        station: &mut Handle,
        config: &Config,
        outbox: *const u8,
        n: usize,
        inbox: *const u8,
        m: usize,
        journal: *const u8,
        l: usize,
        every: u64,
    ) -> u32;
    fn cfdp_journal_state(station: &mut Handle, out: &mut JournalInfo) -> u32;
    fn cfdp_next_unheard(station: &mut Handle, out: &mut Told) -> u32;
    fn cfdp_close(station: &mut Handle);
    fn cfdp_add(s: &mut Handle, name: *const u8, n: usize, octets: *const u8, m: usize) -> u32;
    fn cfdp_remove_source(station: &mut Handle, name: *const u8, n: usize) -> u32;
    fn cfdp_put(
        s: &mut Handle,
        source: *const u8,
        n: usize,
        destination: *const u8,
        m: usize,
        id: &mut Id,
    ) -> u32;
    fn cfdp_cancel(station: &mut Handle, id: &Id) -> u32;
    fn cfdp_suspend(station: &mut Handle, id: &Id) -> u32;
    fn cfdp_resume(station: &mut Handle, id: &Id) -> u32;
    fn cfdp_prompt(station: &mut Handle, id: &Id, keep_alive: bool) -> u32;
    fn cfdp_forget(station: &mut Handle, id: &Id) -> u32;
    fn cfdp_forget_closed(station: &mut Handle) -> u32;
    fn cfdp_was_forgotten(station: &mut Handle, id: &Id, was: &mut u8) -> u32;
    fn cfdp_transactions(s: &mut Handle, cursor: &mut usize, out: &mut Listed) -> u32;
    fn cfdp_records_left(station: &mut Handle) -> usize;
    fn cfdp_transmit(station: &mut Handle, frame: *mut u8, room: usize) -> u32;
    fn cfdp_poll(station: &mut Handle) -> u32;
    fn cfdp_flush(station: &mut Handle) -> u32;
    fn cfdp_frame_len(station: &mut Handle) -> usize;
    fn cfdp_frames_ahead(station: &mut Handle) -> usize;
    fn cfdp_next_frame(station: &mut Handle, frame: *mut u8, room: usize) -> u32;
    fn cfdp_set_control_field(station: &mut Handle, control: u32) -> u32;
    fn cfdp_receive(station: &mut Handle, frame: *const u8, len: usize) -> u32;
    fn cfdp_control_field(station: &mut Handle, file_data: bool, control: &mut u32) -> u32;
    fn cfdp_counters(station: &mut Handle, counts: &mut Counters) -> u32;
    fn cfdp_tick(station: &mut Handle, now: u64) -> u32;
    fn cfdp_next_timeout(station: &mut Handle, deadline: &mut u64) -> u32;
    fn cfdp_next_indication(s: &mut Handle, out: &mut Told, names: *mut u8, room: usize) -> u32;
    fn cfdp_file_count(station: &mut Handle) -> usize;
    fn cfdp_file(
        s: &mut Handle,
        place: usize,
        out: &mut FileInfo,
        name: *mut u8,
        room: usize,
    ) -> u32;
    fn cfdp_read_file(s: &mut Handle, place: usize, at: usize, out: *mut u8, room: usize) -> u32;
    fn cfdp_remove_file(station: &mut Handle, name: *const u8, n: usize) -> u32;
    fn cfdp_decode(pdu: *const u8, len: usize, out: &mut Pdu) -> u32;
    fn cfdp_seal_frame(
        security: &mut Security,
        frame: *const u8,
        len: usize,
        control: u32,
        out: *mut u8,
        room: usize,
    ) -> u32;
    fn cfdp_open_frame(
        security: &mut Security,
        frame: *const u8,
        len: usize,
        out: *mut u8,
        room: usize,
    ) -> u32;
}

/// Returns the number of the library's interface.
pub fn version() -> u32 {
    // SAFETY: it takes nothing.
    unsafe { cfdp_version() }
}

/// Returns the defaults.
pub fn defaults() -> Config {
    let mut config = Config { size: size_of::<Config>(), ..Config::default() };
    // SAFETY: the reference is to a whole struct.
    unsafe { cfdp_fill_defaults(&mut config) };
    config
}

/// Reads a PDU.
pub fn decode(pdu: &[u8], out: &mut Pdu) -> u32 {
    // SAFETY: the slice is readable for its length.
    unsafe { cfdp_decode(pdu.as_ptr(), pdu.len(), out) }
}

/// Seals a frame into all of `out`.
pub fn seal_frame(security: &mut Security, frame: &[u8], control: u32, out: &mut [u8]) -> u32 {
    let (n, room) = (frame.len(), out.len());
    // SAFETY: the slices are readable and writable for their lengths, and don't overlap.
    unsafe { cfdp_seal_frame(security, frame.as_ptr(), n, control, out.as_mut_ptr(), room) }
}

/// Verifies a frame, and writes the station's frame over the front of `out`.
pub fn open_frame(security: &mut Security, frame: &[u8], out: &mut [u8]) -> u32 {
    let (n, room) = (frame.len(), out.len());
    // SAFETY: the slices are readable and writable for their lengths, and don't overlap.
    unsafe { cfdp_open_frame(security, frame.as_ptr(), n, out.as_mut_ptr(), room) }
}

impl Handle {
    /// Returns a closed handle.
    pub const CLOSED: Handle = Handle { at: std::ptr::null_mut(), is_open: false };

    pub fn open(&mut self, config: &Config) -> u32 {
        // SAFETY: each argument is a reference or a number.
        unsafe { cfdp_open(self, config) }
    }

    pub fn open_folders(&mut self, config: &Config, outbox: &[u8], inbox: &[u8]) -> u32 {
        let (n, m) = (outbox.len(), inbox.len());
        // SAFETY: both slices are readable for their lengths, and only read.
        unsafe { cfdp_open_folders(self, config, outbox.as_ptr(), n, inbox.as_ptr(), m) }
    }

    pub fn open_journal(&mut self, config: &Config, paths: [&[u8]; 3], every: u64) -> u32 {
        let [outbox, inbox, journal] = paths;
        let (n, m, l) = (outbox.len(), inbox.len(), journal.len());
        let (outbox, inbox, journal) = (outbox.as_ptr(), inbox.as_ptr(), journal.as_ptr());
        // SAFETY: the slices are readable for their lengths, and only read.
        unsafe { cfdp_open_folders_journal(self, config, outbox, n, inbox, m, journal, l, every) }
    }

    pub fn journal_state(&mut self, out: &mut JournalInfo) -> u32 {
        // SAFETY: each argument is a reference.
        unsafe { cfdp_journal_state(self, out) }
    }

    pub fn next_unheard(&mut self, out: &mut Told) -> u32 {
        // SAFETY: each argument is a reference.
        unsafe { cfdp_next_unheard(self, out) }
    }

    pub fn add(&mut self, name: &[u8], octets: &[u8]) -> u32 {
        // SAFETY: both slices are readable for their lengths, and only read.
        unsafe { cfdp_add(self, name.as_ptr(), name.len(), octets.as_ptr(), octets.len()) }
    }

    pub fn remove_source(&mut self, name: &[u8]) -> u32 {
        // SAFETY: the slice is readable for its length.
        unsafe { cfdp_remove_source(self, name.as_ptr(), name.len()) }
    }

    pub fn put(&mut self, source: &[u8], destination: &[u8], id: &mut Id) -> u32 {
        let (n, m) = (source.len(), destination.len());
        // SAFETY: both slices are readable for their lengths, and only read.
        unsafe { cfdp_put(self, source.as_ptr(), n, destination.as_ptr(), m, id) }
    }

    pub fn cancel(&mut self, id: Id) -> u32 {
        // SAFETY: each argument is a reference or a number.
        unsafe { cfdp_cancel(self, &id) }
    }

    pub fn suspend(&mut self, id: Id) -> u32 {
        // SAFETY: each argument is a reference or a number.
        unsafe { cfdp_suspend(self, &id) }
    }

    pub fn resume(&mut self, id: Id) -> u32 {
        // SAFETY: each argument is a reference or a number.
        unsafe { cfdp_resume(self, &id) }
    }

    pub fn prompt(&mut self, id: Id, keep_alive: bool) -> u32 {
        // SAFETY: each argument is a reference or a number.
        unsafe { cfdp_prompt(self, &id, keep_alive) }
    }

    pub fn forget(&mut self, id: Id) -> u32 {
        // SAFETY: each argument is a reference or a number.
        unsafe { cfdp_forget(self, &id) }
    }

    pub fn forget_closed(&mut self) -> u32 {
        // SAFETY: each argument is a reference or a number.
        unsafe { cfdp_forget_closed(self) }
    }

    pub fn was_forgotten(&mut self, id: Id, was: &mut u8) -> u32 {
        // SAFETY: each argument is a reference or a number.
        unsafe { cfdp_was_forgotten(self, &id, was) }
    }

    pub fn transactions(&mut self, cursor: &mut usize, out: &mut Listed) -> u32 {
        // SAFETY: each argument is a reference or a number.
        unsafe { cfdp_transactions(self, cursor, out) }
    }

    pub fn records_left(&mut self) -> usize {
        // SAFETY: each argument is a reference or a number.
        unsafe { cfdp_records_left(self) }
    }

    pub fn transmit(&mut self, frame: &mut [u8]) -> u32 {
        // SAFETY: the slice is writable for its length.
        unsafe { cfdp_transmit(self, frame.as_mut_ptr(), frame.len()) }
    }

    pub fn poll(&mut self) -> u32 {
        // SAFETY: each argument is a reference or a number.
        unsafe { cfdp_poll(self) }
    }

    pub fn flush(&mut self) -> u32 {
        // SAFETY: each argument is a reference or a number.
        unsafe { cfdp_flush(self) }
    }

    pub fn frame_len(&mut self) -> usize {
        // SAFETY: each argument is a reference or a number.
        unsafe { cfdp_frame_len(self) }
    }

    pub fn frames_ahead(&mut self) -> usize {
        // SAFETY: each argument is a reference or a number.
        unsafe { cfdp_frames_ahead(self) }
    }

    pub fn next_frame(&mut self, frame: &mut [u8]) -> u32 {
        // SAFETY: the slice is writable for its length.
        unsafe { cfdp_next_frame(self, frame.as_mut_ptr(), frame.len()) }
    }

    pub fn receive(&mut self, frame: &[u8]) -> u32 {
        // SAFETY: the slice is readable for its length.
        unsafe { cfdp_receive(self, frame.as_ptr(), frame.len()) }
    }

    pub fn set_control_field(&mut self, control: u32) -> u32 {
        // SAFETY: each argument is a reference or a number.
        unsafe { cfdp_set_control_field(self, control) }
    }

    pub fn control_field(&mut self, file_data: bool, control: &mut u32) -> u32 {
        // SAFETY: each argument is a reference or a number.
        unsafe { cfdp_control_field(self, file_data, control) }
    }

    pub fn counters(&mut self, counts: &mut Counters) -> u32 {
        // SAFETY: each argument is a reference or a number.
        unsafe { cfdp_counters(self, counts) }
    }

    pub fn tick(&mut self, now: u64) -> u32 {
        // SAFETY: each argument is a reference or a number.
        unsafe { cfdp_tick(self, now) }
    }

    pub fn next_timeout(&mut self, deadline: &mut u64) -> u32 {
        // SAFETY: each argument is a reference or a number.
        unsafe { cfdp_next_timeout(self, deadline) }
    }

    pub fn next_indication(&mut self, out: &mut Told, names: &mut [u8]) -> u32 {
        // SAFETY: the slice is writable for its length.
        unsafe { cfdp_next_indication(self, out, names.as_mut_ptr(), names.len()) }
    }

    pub fn file_count(&mut self) -> usize {
        // SAFETY: each argument is a reference or a number.
        unsafe { cfdp_file_count(self) }
    }

    pub fn file(&mut self, place: usize, out: &mut FileInfo, name: &mut [u8]) -> u32 {
        // SAFETY: the slice is writable for its length.
        unsafe { cfdp_file(self, place, out, name.as_mut_ptr(), name.len()) }
    }

    pub fn read_file(&mut self, place: usize, offset: usize, out: &mut [u8]) -> u32 {
        // SAFETY: the slice is writable for its length.
        unsafe { cfdp_read_file(self, place, offset, out.as_mut_ptr(), out.len()) }
    }

    pub fn remove_file(&mut self, name: &[u8]) -> u32 {
        // SAFETY: the slice is readable for its length.
        unsafe { cfdp_remove_file(self, name.as_ptr(), name.len()) }
    }
}

impl Drop for Handle {
    fn drop(&mut self) {
        // SAFETY: the handle is open or closed, and isn't used again.
        unsafe { cfdp_close(self) }
    }
}

/// What the library's memory comes from: malloc, which aligns to 16.
mod heap {
    use std::ffi::c_void;
    use std::ptr::NonNull;

    #[repr(C)]
    pub struct Block {
        is_there: bool,
        at: NonNull<c_void>,
    }

    extern "C" {
        fn malloc(size: usize) -> *mut c_void;
        fn realloc(at: *mut c_void, size: usize) -> *mut c_void;
        fn free(at: *mut c_void);
    }

    fn block(at: *mut c_void) -> Block {
        Block { is_there: !at.is_null(), at: NonNull::new(at).unwrap_or(NonNull::dangling()) }
    }

    #[no_mangle]
    extern "C" fn rattle_alloc(size: usize, align: usize) -> Block {
        if align > 16 {
            return block(std::ptr::null_mut());
        }
        // SAFETY: any size may be asked for.
        block(unsafe { malloc(size.max(1)) })
    }

    #[no_mangle]
    extern "C" fn rattle_realloc(at: *mut c_void, _old: usize, size: usize, align: usize) -> Block {
        if align > 16 {
            return block(std::ptr::null_mut());
        }
        // SAFETY: the library gives a block that `malloc` or `realloc` gave.
        block(unsafe { realloc(at, size.max(1)) })
    }

    #[no_mangle]
    extern "C" fn rattle_dealloc(at: *mut c_void) {
        // SAFETY: the library gives a block that `malloc` or `realloc` gave, once.
        unsafe { free(at) }
    }
}

/// The error of the calling thread's last call of the C library, which stations with folders ask
/// for.
mod errno {
    extern "C" {
        fn __errno_location() -> *mut i32;
    }

    #[no_mangle]
    extern "C" fn rattle_errno() -> i32 {
        // SAFETY: it is the calling thread's own, and stays.
        unsafe { *__errno_location() }
    }

    #[no_mangle]
    extern "C" fn rattle_set_errno(error: i32) {
        // SAFETY: it is the calling thread's own, and stays.
        unsafe { *__errno_location() = error }
    }
}
