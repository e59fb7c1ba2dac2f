use std::cell::RefCell;
use std::fmt;
use std::path::Path;

use crate::config::Config;
use crate::error::Error;
use crate::ffi::{self, Counters, Handle, Id};
use crate::indication::Indications;
use crate::lists::{Files, Frames, Transactions};

/// What a poll did.
#[derive(Clone, Copy, Debug, PartialEq, Eq)]
#[non_exhaustive]
pub enum Polled {
    /// A PDU was moved into the frames.
    Moved,
    /// None is due.
    Nothing,
    /// The lane of the one that is due has no room for it until frames were taken off.
    Full,
    /// The outbox failed, and the transaction was cancelled for it.
    SourceFailed,
}

/// One of the two lanes of a direction: virtual channels of their own.
#[derive(Clone, Copy, Debug, PartialEq, Eq, Hash)]
pub enum Lane {
    /// The lane of directives: all PDUs except file data.
    Directives,
    /// The lane of file data.
    FileData,
}

/// A published file.
#[derive(Clone, Debug, PartialEq, Eq)]
#[non_exhaustive]
pub struct File {
    /// Its name, of 1 to 255 octets.
    pub name: Vec<u8>,
    /// All that it has.
    pub octets: Vec<u8>,
}

/// A station. It may go to another thread, and be dropped there.
///
/// # Examples
///
/// A turn takes what came, gives the time, and sends what is due:
///
/// ```
/// use cfdp::{Error, Station};
///
/// fn turn(
///     station: &mut Station,
///     now: u64,
///     came: &[Vec<u8>],
///     mut send: impl FnMut(&[u8]),
/// ) -> Result<(), Error> {
///     let mut frame = vec![0; station.frame_len()];
///     came.iter().for_each(|it| station.receive(it));
///     station.tick(now)?;
///     while station.transmit_into(&mut frame)? {
///         send(&frame);
///     }
///     for told in station.indications() {
///         println!("{:?}", told?);
///     }
///     station.forget_closed()
/// }
///
/// let mut station = Station::open(&cfdp::Config::new(1, 2))?;
/// station.add(b"a", b"hello")?;
/// station.put(b"a", b"b")?;
/// let mut count = 0;
/// turn(&mut station, 1, &[], |_| count += 1)?;
/// assert_eq!(count, 2);
/// # Ok::<(), Error>(())
/// ```
pub struct Station {
    // A query takes the handle apart and puts it together, as every call does; so it is in a cell.
    handle: RefCell<Handle>,
    frame_len: usize,
}

// It is not compiled otherwise.
const _: () = {
    const fn may_go_to_a_thread<T: Send>() {}
    may_go_to_a_thread::<Station>();
};

/// Returns whether a call gave something: all went well, or there was nothing of the kind.
pub(crate) fn gave(answer: u32) -> Result<bool, Error> {
    match answer {
        ffi::OK => Ok(true),
        ffi::NOTHING => Ok(false),
        other => Err(Error::of(other)),
    }
}

impl Station {
    /// Opens a station without transactions and files.
    ///
    /// # Errors
    ///
    /// `BadField` if a field of the configuration isn't in its range; `NoMemory`.
    pub fn open(config: &Config) -> Result<Station, Error> {
        let mut handle = Handle::CLOSED;
        Error::check(handle.open(&config.to_ffi()))?;
        Ok(Station::of(handle))
    }

    /// Opens a station that sends the files of one folder, each read as it is sent, and receives
    /// into another one: of any size, in bounded memory. No other station can receive into the
    /// second one as long as this value lives. `cfdp.h` says which names files may have.
    ///
    /// Paths are UTF-8. The calls of files in memory answer [`Error::InFolders`].
    ///
    /// # Errors
    ///
    /// `BadField` if a field of the configuration isn't in its range; `NoOutbox` if the first
    /// folder can't be read; `NoInbox` if the second one can't be used; `InboxInUse` if another
    /// station receives into it; `NoMemory`.
    pub fn open_folders(
        config: &Config,
        outbox: impl AsRef<Path>,
        inbox: impl AsRef<Path>,
    ) -> Result<Station, Error> {
        let outbox = outbox.as_ref().to_str().ok_or(Error::NoOutbox)?.as_bytes();
        let inbox = inbox.as_ref().to_str().ok_or(Error::NoInbox)?.as_bytes();
        let mut handle = Handle::CLOSED;
        Error::check(handle.open_folders(&config.to_ffi(), outbox, inbox))?;
        Ok(Station::of(handle))
    }

    pub(crate) fn of(mut handle: Handle) -> Station {
        let frame_len = handle.frame_len();
        Station { handle: RefCell::new(handle), frame_len }
    }

    pub(crate) fn handle(&self) -> &RefCell<Handle> {
        &self.handle
    }

    /// Copies a file into the outbox, under a name that it has no file of.
    ///
    /// # Errors
    ///
    /// `InFolders` if the station has folders; `NameTaken` if there is a file of that name;
    /// `NoMemory`.
    pub fn add(&mut self, name: &[u8], octets: &[u8]) -> Result<(), Error> {
        Error::check(self.handle.get_mut().add(name, octets))
    }

    /// Removes a file that no transaction is sending from the outbox, and gives its memory back.
    ///
    /// # Errors
    ///
    /// `InFolders` if the station has folders; `NoSuchFile` if there is no file of that name;
    /// `SourceInUse` if a transaction is sending it. Nothing changed.
    pub fn remove_source(&mut self, name: &[u8]) -> Result<(), Error> {
        Error::check(self.handle.get_mut().remove_source(name))
    }

    /// Sends a file of the outbox, which the peer publishes under the name `destination`.
    ///
    /// # Errors
    ///
    /// The first that holds of `BadName`, `TableFull`, `NumbersSpent`, `SourceFault`, `NoSuchFile`
    /// and `TooLarge`; then `NoMemory`. No number is used.
    pub fn put(&mut self, source: &[u8], destination: &[u8]) -> Result<Id, Error> {
        let mut id = Id::default();
        Error::check(self.handle.get_mut().put(source, destination, &mut id))?;
        Ok(id)
    }

    /// Cancels a transaction, and notifies the peer.
    ///
    /// # Errors
    ///
    /// `Unknown` if it has no record here; `AlreadyClosed` if it is over; `AlreadySo` if it is
    /// cancelled already; `NoMemory`. Nothing changed.
    pub fn cancel(&mut self, id: Id) -> Result<(), Error> {
        Error::check(self.handle.get_mut().cancel(id))
    }

    /// Suspends a transaction: sends nothing of it, and lets no time run for it.
    ///
    /// # Errors
    ///
    /// `Unknown` if it has no record here; `AlreadyClosed` if it is over; `AlreadySo` if it is
    /// suspended; `NoMemory`. Nothing changed.
    pub fn suspend(&mut self, id: Id) -> Result<(), Error> {
        Error::check(self.handle.get_mut().suspend(id))
    }

    /// Resumes a suspended transaction.
    ///
    /// # Errors
    ///
    /// `Unknown` if it has no record here; `AlreadyClosed` if it is over; `AlreadySo` if it isn't
    /// suspended; `NoMemory`. Nothing changed.
    pub fn resume(&mut self, id: Id) -> Result<(), Error> {
        Error::check(self.handle.get_mut().resume(id))
    }

    /// Asks the receiver of a file that this station sends for a Keep Alive, or for a NAK.
    ///
    /// # Errors
    ///
    /// `Unknown` if it has no record here; `AlreadyClosed` if it is over; `WrongSide` if this
    /// station receives the file; `AlreadySo` if a Prompt is due; `NoMemory`. Nothing changed.
    pub fn prompt(&mut self, id: Id, keep_alive: bool) -> Result<(), Error> {
        Error::check(self.handle.get_mut().prompt(id, keep_alive))
    }

    /// Forgets the record of a transaction that is over, so that there is room for another: a
    /// station has 4,096 at once. It is never opened again: an EOF or a Finished that still comes
    /// of it is acknowledged, and anything else is passed over.
    ///
    /// # Errors
    ///
    /// `Unknown` if it has no record here; `StillOpen` if it isn't over; `AnswerDue` if an
    /// acknowledgement of it must be sent first; `NoMemory`. Nothing changed.
    pub fn forget(&mut self, id: Id) -> Result<(), Error> {
        Error::check(self.handle.get_mut().forget(id))
    }

    /// Forgets the records of all transactions that are over, except those with an acknowledgement
    /// due.
    ///
    /// # Errors
    ///
    /// `NoMemory`: some of them may be gone.
    pub fn forget_closed(&mut self) -> Result<(), Error> {
        Error::check(self.handle.get_mut().forget_closed())
    }

    /// Returns `true` if the record of a transaction was forgotten.
    #[must_use]
    pub fn was_forgotten(&self, id: Id) -> bool {
        let mut was = 0;
        never_fails(self.handle.borrow_mut().was_forgotten(id, &mut was));
        was == 1
    }

    /// Returns the transactions that have a record here, in order of opening, each with how far it
    /// has come.
    #[must_use]
    pub fn transactions(&self) -> Transactions<'_> {
        Transactions::of(self)
    }

    /// Returns how many more transactions there is room for, of 4,096 records.
    #[must_use]
    pub fn records_left(&self) -> usize {
        self.handle.borrow_mut().records_left()
    }

    /// Returns the next frame that must leave, those of directives first: it polls until a whole
    /// frame waits, or nothing is due, and fills up what is begun. Returns `None` if there is
    /// nothing to send.
    ///
    /// # Errors
    ///
    /// `NoMemory`: what was polled before waits for the next call.
    pub fn transmit(&mut self) -> Result<Option<Vec<u8>>, Error> {
        let mut frame = vec![0; self.frame_len];
        Ok(self.transmit_into(&mut frame)?.then_some(frame))
    }

    /// Writes the next frame that must leave into all of `frame`, which must have
    /// [`frame_len`](Self::frame_len) octets, as [`transmit`](Self::transmit) returns it. Returns
    /// `false` if there is nothing to send.
    ///
    /// # Errors
    ///
    /// `NoRoom` if `frame` has another length: nothing changed; `NoMemory`: what was polled before
    /// waits for the next call.
    pub fn transmit_into(&mut self, frame: &mut [u8]) -> Result<bool, Error> {
        gave(self.handle.get_mut().transmit(frame))
    }

    /// Returns the frames that must leave, as [`transmit`](Self::transmit) does, until there is
    /// nothing to send or no memory.
    pub fn frames(&mut self) -> Frames<'_> {
        Frames::of(self)
    }

    /// Moves the PDU whose turn it is into the frames of its lane: file data into those of
    /// [`data_virtual_channel`](crate::Link::data_virtual_channel), all other PDUs, the directives,
    /// into those of [`virtual_channel`](crate::Link::virtual_channel).
    ///
    /// # Errors
    ///
    /// `NoMemory`: nothing changed.
    pub fn poll(&mut self) -> Result<Polled, Error> {
        match self.handle.get_mut().poll() {
            ffi::OK => Ok(Polled::Moved),
            ffi::NOTHING => Ok(Polled::Nothing),
            ffi::FULL => Ok(Polled::Full),
            ffi::SOURCE_FAULT => Ok(Polled::SourceFailed),
            other => Err(Error::of(other)),
        }
    }

    /// Fills the begun frame of each lane.
    pub fn flush(&mut self) {
        never_fails(self.handle.get_mut().flush());
    }

    /// Polls as long as that moves a PDU, and flushes.
    ///
    /// # Errors
    ///
    /// `NoMemory`: what was polled before waits.
    pub fn fill_frames(&mut self) -> Result<(), Error> {
        while self.poll()? == Polled::Moved {}
        self.flush();
        Ok(())
    }

    /// Returns how many octets each frame has that it sends.
    #[must_use]
    pub fn frame_len(&self) -> usize {
        self.frame_len
    }

    /// Returns the most frames that can wait after a poll or a flush, both lanes together.
    #[must_use]
    pub fn frames_ahead(&self) -> usize {
        self.handle.borrow_mut().frames_ahead()
    }

    /// Takes off the next whole frame: the oldest one of directives, or if none of them waits, of
    /// file data. Returns `None` if no whole frame waits.
    ///
    /// # Errors
    ///
    /// None that `cfdp.h` names.
    pub fn next_frame(&mut self) -> Result<Option<Vec<u8>>, Error> {
        let mut frame = vec![0; self.frame_len];
        Ok(self.next_frame_into(&mut frame)?.then_some(frame))
    }

    /// Takes off the next whole frame, as [`next_frame`](Self::next_frame) does, and writes it into
    /// all of `frame`, which must have [`frame_len`](Self::frame_len) octets. Returns `false` if
    /// none waits.
    ///
    /// # Errors
    ///
    /// `NoRoom` if `frame` has another length: nothing changed.
    pub fn next_frame_into(&mut self, frame: &mut [u8]) -> Result<bool, Error> {
        gave(self.handle.get_mut().next_frame(frame))
    }

    /// Receives a frame of either lane, whatever its octets are. What can't be used of it is
    /// dropped and counted.
    pub fn receive(&mut self, frame: &[u8]) {
        never_fails(self.handle.get_mut().receive(frame));
    }

    /// Sets the operational control field of the frames that leave from now on, of both lanes, if
    /// [`sends`](Config::sends) has such a field; at first it is 0.
    pub fn set_control_field(&mut self, control: u32) {
        never_fails(self.handle.get_mut().set_control_field(control));
    }

    /// Returns the operational control field of the last received frame of a lane; `None` if none
    /// was received, or [`receives`](Config::receives) has no such field. A damaged frame is one of
    /// neither lane.
    #[must_use]
    pub fn control_field(&self, lane: Lane) -> Option<u32> {
        let mut control = 0;
        let mut handle = self.handle.borrow_mut();
        let answer = handle.control_field(lane == Lane::FileData, &mut control);
        is_there(answer).then_some(control)
    }

    /// Returns what it counts: the PDUs that it sent, and how often something was dropped, by the
    /// cause.
    #[must_use]
    pub fn counters(&self) -> Counters {
        let mut counts = Counters::default();
        never_fails(self.handle.borrow_mut().counters(&mut counts));
        counts
    }

    /// Gives the time: each timer that is due fires once.
    ///
    /// # Errors
    ///
    /// `NoMemory`: nothing changed, the time neither.
    pub fn tick(&mut self, now: u64) -> Result<(), Error> {
        Error::check(self.handle.get_mut().tick(now))
    }

    /// Returns when [`tick`](Self::tick) must be called at the latest: the earliest time at which a
    /// timer is due; `None` if none is armed.
    #[must_use]
    pub fn next_timeout(&self) -> Option<u64> {
        let mut deadline = 0;
        is_there(self.handle.borrow_mut().next_timeout(&mut deadline)).then_some(deadline)
    }

    /// Returns what it reports to its user, from the first indication on that wasn't read yet. It
    /// releases each one that is read.
    pub fn indications(&mut self) -> Indications<'_> {
        Indications::of(self)
    }

    /// Returns how many files are published in memory.
    #[must_use]
    pub fn file_count(&self) -> usize {
        self.handle.borrow_mut().file_count()
    }

    /// Returns the published file at an index, in ascending order of the names; `None` if there are
    /// not so many.
    ///
    /// # Errors
    ///
    /// `InFolders` if the station has folders.
    pub fn file(&self, index: usize) -> Result<Option<File>, Error> {
        let (mut info, mut name) = (ffi::FileInfo::default(), vec![0; 255]);
        let mut handle = self.handle.borrow_mut();
        if !gave(handle.file(index, &mut info, &mut name))? {
            return Ok(None);
        }
        name.truncate(info.name_len);
        let mut octets = vec![0; info.size];
        Error::check(handle.read_file(index, 0, &mut octets))?;
        Ok(Some(File { name, octets }))
    }

    /// Returns the published files, in ascending order of their names.
    #[must_use]
    pub fn files(&self) -> Files<'_> {
        Files::of(self)
    }

    /// Removes the published file of a name; `false` if there is none. The indexes of those after
    /// it are one less then.
    ///
    /// # Errors
    ///
    /// `InFolders` if the station has folders.
    pub fn remove_file(&mut self, name: &[u8]) -> Result<bool, Error> {
        gave(self.handle.get_mut().remove_file(name))
    }
}

/// An open station answers nothing else to these calls (`cfdp.h`).
fn never_fails(answer: u32) {
    debug_assert_eq!(answer, ffi::OK);
}

/// An open station answers that all went well, or that there is nothing (`cfdp.h`).
fn is_there(answer: u32) -> bool {
    debug_assert!(answer == ffi::OK || answer == ffi::NOTHING);
    answer == ffi::OK
}

impl fmt::Debug for Station {
    fn fmt(&self, f: &mut fmt::Formatter<'_>) -> fmt::Result {
        f.debug_struct("Station").field("frame_len", &self.frame_len).finish_non_exhaustive()
    }
}
