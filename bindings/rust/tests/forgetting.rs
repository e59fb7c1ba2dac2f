//! Stations that stay up: they let go of what is over.
use cfdp::{Config, Error, Handler, Id, Polled, Station};

const MOST_RECORDS: u64 = 4096;
const NAME: &[u8] = b"a";

/// Station 1 or 2. It sends a Finished again after 1 unit of time, once, and then abandons the
/// transaction.
fn config(number: u8) -> Config {
    let mut config = Config::new(1, 2);
    config.finished_time = 1;
    config.finished_limit = 1;
    config.on_ack_limit = Handler::Abandon;
    if number == 1 {
        config
    } else {
        config.of_peer()
    }
}

/// Both stations. The first one has a file.
fn both() -> Result<(Station, Station), Error> {
    let (mut one, two) = (Station::open(&config(1))?, Station::open(&config(2))?);
    one.add(NAME, b"hello")?;
    Ok((one, two))
}

/// The frames of all that is due.
fn frames_of(station: &mut Station) -> Result<Vec<Vec<u8>>, Error> {
    let mut frames = Vec::new();
    loop {
        let polled = station.poll()?;
        if polled != Polled::Moved {
            station.flush();
            while let Some(frame) = station.next_frame()? {
                frames.push(frame);
            }
        }
        if polled == Polled::Nothing {
            return Ok(frames);
        }
    }
}

/// All that is due goes over. How many frames that was.
fn pass(from: &mut Station, to: &mut Station) -> Result<usize, Error> {
    let frames = frames_of(from)?;
    for frame in &frames {
        to.receive(frame);
    }
    Ok(frames.len())
}

/// All that both have to say of what is open goes over.
fn exchange(one: &mut Station, two: &mut Station) -> Result<(), Error> {
    pass(one, two)?;
    pass(two, one)?;
    pass(one, two)?;
    Ok(())
}

/// How many transactions a station tells that went well.
fn ended_well(station: &mut Station) -> usize {
    station.indications().filter(|told| matches!(told, Ok(it) if it.is_complete())).count()
}

#[test]
fn forgets_what_is_over() -> Result<(), Error> {
    let (mut one, mut two) = both()?;
    let id = one.put(NAME, NAME)?;
    assert_eq!(one.forget(Id { number: 9, ..id }), Err(Error::Unknown));
    assert_eq!(one.forget(id), Err(Error::StillOpen));
    pass(&mut one, &mut two)?;
    pass(&mut two, &mut one)?;
    assert_eq!(one.forget(id), Err(Error::AnswerDue));
    assert!(!one.was_forgotten(id));
    pass(&mut one, &mut two)?;
    one.forget(id)?;
    two.forget_closed()?;
    assert!(one.was_forgotten(id) && two.was_forgotten(id));
    assert_eq!(one.cancel(id), Err(Error::Unknown));
    assert_eq!((ended_well(&mut one), ended_well(&mut two)), (1, 1));
    Ok(())
}

#[test]
fn makes_room() -> Result<(), Error> {
    let (mut one, mut two) = both()?;
    let ids = (0..MOST_RECORDS).map(|_| one.put(NAME, NAME)).collect::<Result<Vec<_>, _>>()?;
    exchange(&mut one, &mut two)?;
    let all = ids.len();
    assert_eq!((ended_well(&mut one), ended_well(&mut two)), (all, all));
    assert_eq!(one.put(NAME, NAME), Err(Error::TableFull));
    for id in ids {
        one.forget(id)?;
    }
    two.forget_closed()?;
    assert_eq!(one.put(NAME, NAME)?.number, MOST_RECORDS + 1);
    exchange(&mut one, &mut two)?;
    assert_eq!((ended_well(&mut one), ended_well(&mut two)), (1, 1));
    assert_eq!(two.file_count(), 1);
    assert_eq!((two.remove_file(NAME), two.remove_file(NAME)), (Ok(true), Ok(false)));
    assert_eq!(two.file_count(), 0);
    Ok(())
}

#[test]
fn gives_a_file_up() -> Result<(), Error> {
    let (mut one, mut two) = both()?;
    let id = one.put(NAME, NAME)?;
    assert_eq!(one.remove_source(b"none"), Err(Error::NoSuchFile));
    assert_eq!(one.remove_source(NAME), Err(Error::SourceInUse));
    one.suspend(id)?;
    assert_eq!(one.remove_source(NAME), Err(Error::SourceInUse));
    one.resume(id)?;
    exchange(&mut one, &mut two)?;
    assert_eq!((ended_well(&mut one), ended_well(&mut two)), (1, 1));
    one.remove_source(NAME)?;
    assert_eq!(one.remove_source(NAME), Err(Error::NoSuchFile));
    assert_eq!(one.put(NAME, NAME), Err(Error::NoSuchFile));
    one.add(NAME, b"another")?;
    one.put(NAME, NAME)?;
    exchange(&mut one, &mut two)?;
    assert_eq!((ended_well(&mut one), ended_well(&mut two)), (1, 1));
    assert_eq!(two.file(0)?.map(|it| it.octets), Some(b"another".to_vec()));
    Ok(())
}

#[test]
fn acknowledges_a_late_eof() -> Result<(), Error> {
    let (mut one, mut two) = both()?;
    let id = one.put(NAME, NAME)?;
    pass(&mut one, &mut two)?;
    for now in 1..=2 {
        let _lost = frames_of(&mut two)?;
        two.tick(now)?;
    }
    two.forget(id)?;
    assert_eq!(ended_well(&mut two), 1);
    let deadline = one.next_timeout().expect("an EOF waits for its ACK");
    one.tick(deadline)?;
    assert_ne!(pass(&mut one, &mut two)?, 0);
    assert_eq!(two.cancel(id), Err(Error::Unknown));
    assert_ne!(pass(&mut two, &mut one)?, 0);
    // nothing is waited for any more, but that nothing comes
    assert_eq!(one.next_timeout(), Some(110));
    assert_eq!(two.indications().count(), 0);
    Ok(())
}
