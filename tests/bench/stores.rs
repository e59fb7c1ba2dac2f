//! Stores in memory, and stores that fail from a chosen call on. `-` stands for no octets.
//!
//!     outbox CALL NAME OCTETS   for an outbox with this file, whose call of that number fails
//!     empty CALL                for an inbox without a file, whose call of that number fails
//!     read NAME                 to ask for a file's length, and to read it whole
//!     len NAME                  to ask for its length
//!     put S:N NAME ONE TWO      to stage two pieces for a transaction, and to publish them
//!     begin S:N, discard S:N    to begin a transaction, and to discard what is staged for it
//!     files                     to tell the published files
//!     failed                    how many calls failed: of the outbox, of the one behind its fuse,
//!                               and of both inboxes
//!     insert NAME OCTETS        to put a file among others
//!     get NAME                  to tell one of them, by both calls that give its octets
//!     map                       to make a map of them, and them of the map
//!     error WORD                to tell an error: `device`, `name` or `memory`, or the one that an
//!                               error of the system becomes, `system-memory` or `system-missing`
use crate::bench::{Bench, played, unknown};
use crate::telling::tell_files;
use crate::words::{id, number, pair, plain, text};
use cfdp_store::{
    Files, FuseInbox, FuseOutbox, Inbox, MemoryInbox, MemoryOutbox, Outbox, StoreError,
    written_octets_cover,
};
use std::alloc::{AllocError, Global};
use std::{io, mem};

/// Plays a transcript.
pub fn play(alloc: Global, transcript: &str, out: &mut String) -> Result<(), AllocError> {
    let bench = StoresBench {
        alloc,
        outbox: FuseOutbox::new(MemoryOutbox::new(alloc), 0),
        inbox: FuseInbox::new(MemoryInbox::new(alloc), 0),
        files: Files::new(alloc),
    };
    played(bench, transcript, out)
}

/// Two stores and some files.
#[derive(Drop)]
struct StoresBench {
    alloc: Global,
    outbox: FuseOutbox<MemoryOutbox>,
    inbox: FuseInbox<MemoryInbox>,
    files: Files,
}

impl Bench for StoresBench {
    fn does(&mut self, verb: &str, words: &str, out: &mut String) -> Result<(), AllocError> {
        match verb {
            "outbox" => self.outbox = with_file(self.alloc, words)?,
            "empty" => self.inbox = FuseInbox::new(MemoryInbox::new(self.alloc), number(words)),
            "insert" => insert(self.alloc, &mut self.files, words)?,
            "map" => {
                let files = mem::replace(&mut self.files, Files::new(self.alloc));
                self.files = Files::from_map(files.into_map());
            }
            _ => self.tells(verb, words, out)?,
        }
        Ok(())
    }
}

impl StoresBench {
    fn tells(&mut self, verb: &str, words: &str, out: &mut String) -> Result<(), AllocError> {
        match verb {
            "read" => {
                match read_whole(self.alloc, &mut self.outbox, plain(words)) {
                    Ok(Some(whole)) => write!(out, " {}\n", text(&whole)),
                    Ok(None) => write!(out, " none\n"),
                    Err(e) => write!(out, " {}\n", e.name()),
                }
            }
            "files" => tell_files(self.inbox.inner(), out),
            "failed" => {
                let (outbox, inbox) = (&self.outbox, &self.inbox);
                let (one, two) = (outbox.failures(), outbox.inner().failures());
                let (three, four) = (inbox.failures(), inbox.inner().failures());
                write!(out, " {one} {two} {three} {four}\n")
            }
            "get" => {
                let octets = text(self.files.octets(plain(words)));
                let whole = match self.files.get(plain(words)) {
                    Some(whole) => text(whole),
                    None => "none",
                };
                write!(out, " {whole} {octets}\n")
            }
            "error" => tell_error(words, out),
            _ => self.calls(verb, words, out),
        }
    }

    fn calls(&mut self, verb: &str, words: &str, out: &mut String) -> Result<(), AllocError> {
        let answer = match verb {
            "len" => {
                match self.outbox.len(plain(words)) {
                    Ok(_) => Ok(()),
                    Err(e) => Err(e),
                }
            }
            "put" => publish_both(&mut self.inbox, words),
            "begin" => self.inbox.begin(id(words)),
            "discard" => self.inbox.discard(id(words)),
            _ => return unknown(out),
        };
        match answer {
            Ok(()) => write!(out, " ok\n"),
            Err(e) => write!(out, " {}\n", e.name()),
        }
    }
}

/// Reads a whole file in one call, if it is there.
fn read_whole<O: Outbox>(
    alloc: Global,
    outbox: &mut O,
    name: &[u8],
) -> Result<Option<Vec<u8>>, StoreError> {
    let Some(len) = outbox.len(name)? else {
        return Ok(None);
    };
    let mut octets = vec![in alloc; 0u8; len as usize]?;
    outbox.read(name, 0, &mut octets)?;
    Ok(Some(octets))
}

/// Stages an octet far behind and two pieces, the second right behind the first, and publishes
/// these, as the words name the transaction, the file and both.
fn publish_both<I: Inbox>(inbox: &mut I, words: &str) -> Result<(), StoreError> {
    let (first, words) = pair(words);
    let (name, words) = pair(words);
    let (one, two) = pair(words);
    let (id, one, two) = (id(first), plain(one), plain(two));
    let middle = one.len() as u64;
    written_octets_cover();
    inbox.begin(id)?;
    inbox.write(id, 4_000_000_000, b"!")?;
    inbox.write(id, 0, one)?;
    inbox.write(id, middle, two)?;
    inbox.publish(id, plain(name), middle.saturating_add(two.len() as u64))
}

/// Puts a file that a name and octets are among others.
fn insert(alloc: Global, files: &mut Files, file: &str) -> Result<(), AllocError> {
    let (name, whole) = pair(file);
    let name = Vec::from_slice(alloc, plain(name))?;
    let octets = Vec::from_slice(alloc, plain(whole))?;
    files.insert(name, octets)?;
    Ok(())
}

fn with_file(alloc: Global, words: &str) -> Result<FuseOutbox<MemoryOutbox>, AllocError> {
    let (call, file) = pair(words);
    let mut files = Files::new(alloc);
    insert(alloc, &mut files, file)?;
    let outbox = MemoryOutbox::with_files(files);
    Ok(FuseOutbox::new(outbox, number(call)))
}

fn tell_error(word: &str, out: &mut String) -> Result<(), AllocError> {
    let e = match word {
        "device" => StoreError::Device,
        "name" => StoreError::Name,
        "memory" => StoreError::NoMemory,
        "system-memory" => StoreError::from(io::Error::from(io::ErrorKind::OutOfMemory)),
        _ => StoreError::from(io::Error::from(io::ErrorKind::NotFound)),
    };
    write!(out, " {} {}\n", e.number(), e.name())
}
