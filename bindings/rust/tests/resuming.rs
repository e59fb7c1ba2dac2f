//! Stations with journals: they are dropped in the midst of a file, and go on when they are opened
//! again.
use cfdp::{Config, Error, Indication, JournalState, Station};
use room::Room;
use std::fs;
use std::path::Path;

mod room;

impl Room {
    /// Opens the station that sends, and the station that receives.
    fn pair(&self, config: &Config) -> Result<(Station, Station), Error> {
        let open = |config: &Config, inbox, journal| {
            let (inbox, journal) = (self.path(inbox), self.path(journal));
            Station::open_journal(config, self.path("out"), inbox, journal, 1)
        };
        Ok((open(config, "back", "one")?, open(&config.of_peer(), "in", "two")?))
    }
}

/// At most so many frames go over.
fn pass(from: &mut Station, to: &mut Station, most: usize) -> Result<(), Error> {
    for _ in 0..most {
        match from.transmit()? {
            Some(frame) => to.receive(&frame),
            None => break,
        }
    }
    Ok(())
}

#[test]
fn half_a_file() -> Result<(), Box<dyn std::error::Error>> {
    let room = Room::new("half")?;
    let config = Config::new(1, 2);
    let octets = vec![7; 100_000];
    fs::write(room.path("out").join("a"), &octets)?;
    let (mut one, mut two) = room.pair(&config)?;
    assert_eq!(one.journal()?.state, JournalState::Kept);
    let id = one.put(b"a", b"b")?;
    pass(&mut one, &mut two, 200)?;
    assert!(one.transmit()?.is_some());
    drop((one, two));

    let (mut one, mut two) = room.pair(&config)?;
    for it in [&one, &two] {
        let journal = it.journal()?;
        assert_eq!((journal.resumed, journal.lost, journal.was_damaged), (1, 0, false));
        assert_eq!(it.transactions().next().ok_or("none")??.id, id);
    }
    for now in 1..200 {
        pass(&mut one, &mut two, usize::MAX)?;
        pass(&mut two, &mut one, usize::MAX)?;
        one.tick(now)?;
        two.tick(now)?;
    }
    assert_eq!(fs::read(room.path("in").join("b"))?, octets);
    drop((one, two));

    // Nobody heard that it was over.
    let (mut one, two) = room.pair(&config)?;
    assert_eq!((one.journal()?.resumed, two.journal()?.resumed), (0, 0));
    let unheard = one.next_unheard()?.ok_or("nothing is unheard")?;
    assert!(unheard.is_complete() && unheard.id() == id);
    assert_eq!(one.next_unheard()?, None);
    assert_eq!(one.put(b"a", b"c")?.number, id.number + 1);
    assert!(!one.indications().any(|it| matches!(it, Ok(Indication::Finished { .. }))));
    Ok(())
}

#[test]
fn refusals() -> Result<(), Box<dyn std::error::Error>> {
    let room = Room::new("unresumed")?;
    let config = Config::new(1, 2);
    let open = |config: &Config, inbox: &str, journal: &Path| {
        Station::open_journal(config, room.path("out"), room.path(inbox), journal, 1).err()
    };
    let held = Station::open_journal(&config, room.path("out"), room.path("in"), room.path("j"), 1);
    let held = held?;
    assert_eq!(open(&config, "in", &room.path("j")), Some(Error::InboxInUse));
    assert_eq!(open(&config, "back", &room.path("j")), Some(Error::JournalInUse));
    assert_eq!(open(&config, "back", &room.path("back/j")), Some(Error::JournalMisplaced));
    assert_eq!(open(&config, "back", &room.path("no/j")), Some(Error::NoJournal));
    drop(held);
    assert_eq!(open(&Config::new(1, 3), "in", &room.path("j")), Some(Error::JournalOfOthers));
    assert_eq!(open(&config, "in", &room.path("j")), None);
    let none = Station::open_folders(&config, room.path("out"), room.path("in"))?;
    assert_eq!(none.journal()?.state, JournalState::None);
    Ok(())
}
