//! Stations with folders: files of several sizes from one into the other, and what is refused.
use cfdp::{Config, Error, Station};
use room::Room;
use std::fs;
use std::path::Path;

mod room;

/// All that is due goes over.
fn pass(from: &mut Station, to: &mut Station) -> Result<(), Error> {
    while let Some(frame) = from.transmit()? {
        to.receive(&frame);
    }
    Ok(())
}

#[test]
fn files_of_each_size() -> Result<(), Box<dyn std::error::Error>> {
    let room = Room::new("sizes")?;
    let one = Config::default();
    let (outbox, inbox, back) = (room.path("out"), room.path("in"), room.path("back"));
    let mut sender = Station::open_folders(&one, &outbox, &back)?;
    let mut receiver = Station::open_folders(&one.of_peer(), &outbox, &inbox)?;
    let files = [("none", vec![]), ("one", vec![7]), ("long", vec![9; 5_000_000])];
    for (name, octets) in &files {
        fs::write(outbox.join(name), octets)?;
        sender.put(name.as_bytes(), name.as_bytes())?;
    }
    for _ in 0..4 {
        pass(&mut sender, &mut receiver)?;
        pass(&mut receiver, &mut sender)?;
    }
    for (name, octets) in &files {
        assert_eq!(&fs::read(inbox.join(name))?, octets);
    }
    assert_eq!(receiver.file_count(), 0);
    assert_eq!(receiver.file(0), Err(Error::InFolders));
    assert!(receiver.files().eq([Err(Error::InFolders)]));
    assert_eq!(receiver.remove_file(b"one"), Err(Error::InFolders));
    assert_eq!(receiver.remove_source(b"one"), Err(Error::InFolders));
    assert_eq!(sender.add(b"a", b"b"), Err(Error::InFolders));
    Ok(())
}

#[test]
fn refusals() -> Result<(), Box<dyn std::error::Error>> {
    let room = Room::new("refusals")?;
    let config = Config::default();
    let open = |outbox: &Path, inbox: &Path| Station::open_folders(&config, outbox, inbox).err();
    let (outbox, inbox, nowhere) = (room.path("out"), room.path("in"), room.path("nowhere"));
    assert_eq!(open(&nowhere, &inbox), Some(Error::NoOutbox));
    assert_eq!(open(&outbox, &nowhere), Some(Error::NoInbox));
    let mut held = Station::open_folders(&config, &outbox, &inbox)?;
    assert_eq!(open(&outbox, &inbox), Some(Error::InboxInUse));
    assert_eq!(held.put(b"missing", b"a"), Err(Error::NoSuchFile));
    assert_eq!(held.put(b"../in", b"a"), Err(Error::BadName));
    drop(held);
    assert_eq!(open(&outbox, &inbox), None);
    Ok(())
}
