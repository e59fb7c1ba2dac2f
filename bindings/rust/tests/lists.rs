//! What a station lists: frames, files, transactions, the causes of drops.
use cfdp::{Config, Error, Phase, Station};

const OCTETS: &[u8] = b"hello, hello";

fn pair() -> Result<(Station, Station), Error> {
    let one = Config::new(1, 2);
    Ok((Station::open(&one)?, Station::open(&one.of_peer())?))
}

/// All that is due goes over. How many frames that was.
fn pass(from: &mut Station, to: &mut Station) -> Result<usize, Error> {
    let frames = from.frames().collect::<Result<Vec<_>, _>>()?;
    for it in &frames {
        to.receive(it);
    }
    Ok(frames.len())
}

#[test]
fn one_by_one() -> Result<(), Error> {
    let (mut one, mut two) = pair()?;
    one.add(b"a", OCTETS)?;
    let ids = [one.put(b"a", b"b")?, one.put(b"a", b"c")?, one.put(b"a", b"d")?];
    one.cancel(ids[2])?;
    let phases = [Phase::Sending, Phase::Sending, Phase::Cancelling];
    let listed = one.transactions().collect::<Result<Vec<_>, _>>()?;
    assert!(listed.iter().map(|it| (it.id, it.phase)).eq(ids.into_iter().zip(phases)));
    assert_eq!(one.records_left(), 4096 - ids.len());
    assert!(pass(&mut one, &mut two)? > 0);
    let files = two.files().collect::<Result<Vec<_>, _>>()?;
    assert!(files.iter().map(|it| it.name.as_slice()).eq([b"b", b"c"]));
    assert!(files.iter().all(|it| it.octets == OCTETS));
    pass(&mut two, &mut one)?;
    pass(&mut one, &mut two)?;
    assert!(one.transactions().all(|it| matches!(it, Ok(it) if it.phase == Phase::Closed)));
    one.forget_closed()?;
    assert_eq!(one.transactions().count(), 0);
    assert_eq!(pass(&mut one, &mut two)?, 0);
    Ok(())
}

#[test]
fn causes() -> Result<(), Error> {
    let (_, mut two) = pair()?;
    two.receive(b"no frame");
    let counts = two.counters();
    let told: Vec<_> = counts.frames.causes().into_iter().filter(|it| it.1 != 0).collect();
    assert_eq!(told, [("bad_length", 1)]);
    assert!(counts.pdus.causes().iter().all(|it| it.1 == 0));
    Ok(())
}

/// What only looks at a station needs no `&mut`.
#[test]
fn looks_at_a_station() -> Result<(), Error> {
    let (mut one, two) = pair()?;
    one.add(b"a", OCTETS)?;
    let id = one.put(b"a", b"b")?;
    let (seen, also): (&Station, &Station) = (&one, &one);
    for it in seen.transactions() {
        assert_eq!((it?.id, also.was_forgotten(id), also.records_left()), (id, false, 4095));
    }
    assert_eq!((seen.next_timeout(), seen.counters()), (None, two.counters()));
    assert_eq!((two.file_count(), two.file(0)), (0, Ok(None)));
    Ok(())
}
