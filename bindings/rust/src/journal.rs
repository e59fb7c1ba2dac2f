use std::path::Path;

use crate::config::Config;
use crate::error::Error;
use crate::ffi::{Handle, JournalInfo, Told};
use crate::indication::Indication;
use crate::station::{gave, Station};

/// Whether a station keeps a journal.
#[derive(Clone, Copy, Debug, PartialEq, Eq)]
#[non_exhaustive]
pub enum JournalState {
    /// It was opened without.
    None,
    /// What must be noted is on the device.
    Kept,
    /// It couldn't be written, and was removed: after a kill nothing goes on. It is tried again
    /// after 60 times `every`.
    NotKept,
    /// It could neither be written nor removed: it says what isn't so any more. Send no more
    /// frames, drop the station and remove the file.
    Stuck,
}

/// How the journal of a station fares, and what went on when the station was opened.
#[derive(Clone, Copy, Debug, PartialEq, Eq)]
#[non_exhaustive]
pub struct Journal {
    /// Whether it is kept.
    pub state: JournalState,
    /// How many open transactions went on.
    pub resumed: u32,
    /// How many transactions of the journal could not be restored.
    pub lost: u32,
    /// Whether a damaged journal was renamed, with `.damaged` after its name.
    pub was_damaged: bool,
}

impl Station {
    /// Opens a station over two folders, as [`open_folders`](Station::open_folders) does, that
    /// keeps a journal in a file. If it is the journal of an earlier run, however that ended, the
    /// transactions that were open go on under their numbers, and those that were over are refused.
    /// Numbers of puts go on after those of the journal, unless `first_number` is greater. After
    /// each `every` units of time the station notes how much of each file was sent and is held.
    ///
    /// # Errors
    ///
    /// As [`open_folders`](Station::open_folders); `NoJournal` if the journal can't be read, or
    /// none can be written there; `JournalInUse` if another station has it; `JournalOfOthers` if it
    /// is of another entity or peer; `JournalMisplaced` if it would lie in a folder that a station
    /// receives into. What was noted stays then.
    pub fn open_journal(
        config: &Config,
        outbox: impl AsRef<Path>,
        inbox: impl AsRef<Path>,
        journal: impl AsRef<Path>,
        every: u64,
    ) -> Result<Station, Error> {
        let outbox = outbox.as_ref().to_str().ok_or(Error::NoOutbox)?.as_bytes();
        let inbox = inbox.as_ref().to_str().ok_or(Error::NoInbox)?.as_bytes();
        let journal = journal.as_ref().to_str().ok_or(Error::NoJournal)?.as_bytes();
        let mut handle = Handle::CLOSED;
        let paths = [outbox, inbox, journal];
        Error::check(handle.open_journal(&config.to_ffi(), paths, every))?;
        Ok(Station::of(handle))
    }

    /// Returns how the journal fares, and what went on when the station was opened.
    ///
    /// # Errors
    ///
    /// `Unexpected` if the library is of another release.
    pub fn journal(&self) -> Result<Journal, Error> {
        let mut info = JournalInfo::default();
        Error::check(self.handle().borrow_mut().journal_state(&mut info))?;
        let state = match info.state {
            0 => JournalState::None,
            1 => JournalState::Kept,
            2 => JournalState::NotKept,
            3 => JournalState::Stuck,
            other => return Err(Error::Unexpected(other.into())),
        };
        let was_damaged = info.was_damaged != 0;
        Ok(Journal { state, resumed: info.resumed, lost: info.lost, was_damaged })
    }

    /// Returns the next end of a transaction, `Finished` or `Abandoned`, that the program may not
    /// have heard before an earlier run ended; `None` if there are no more. Once its transaction is
    /// forgotten and two ticks have passed, no later opening gives it again.
    ///
    /// # Errors
    ///
    /// `Unexpected` if the library is of another release.
    pub fn next_unheard(&mut self) -> Result<Option<Indication>, Error> {
        let mut told = Told::default();
        if !gave(self.handle().borrow_mut().next_unheard(&mut told))? {
            return Ok(None);
        }
        Indication::of(&told, &[]).map(Some)
    }
}
