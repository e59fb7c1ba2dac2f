//! Stations that go from one thread to another.
use cfdp::{Config, Error, File, Phase, Station};
use std::sync::mpsc::{channel, Receiver, Sender};
use std::thread;

const LEN: usize = 50_000;

fn pair() -> Result<(Station, Station), Error> {
    let one = Config::new(1, 2);
    Ok((Station::open(&one)?, Station::open(&one.of_peer())?))
}

/// What a thread answers that has this to do.
fn on_a_thread<T: Send + 'static>(work: impl FnOnce() -> T + Send + 'static) -> T {
    thread::spawn(work).join().expect("the thread ends")
}

fn has_the_file(station: &mut Station) -> bool {
    let is_it = |it: &File| it.name == b"b" && it.octets == vec![7; LEN];
    station.file_count() == 1 && matches!(station.file(0), Ok(Some(it)) if is_it(&it))
}

#[test]
fn goes_to_threads_and_back() -> Result<(), Error> {
    let (mut one, mut two) = on_a_thread(pair)?;
    one.add(b"a", &vec![7; LEN])?;
    let put = on_a_thread(move || (one.put(b"a", b"b"), one));
    put.0?;
    let mut one = put.1;
    for round in 0..3 {
        let sent = on_a_thread(move || (one.frames().collect::<Result<Vec<_>, _>>(), one));
        let (frames, answers) = (sent.0?, two.frames().collect::<Result<Vec<_>, _>>()?);
        assert!(round == 0 || frames.len() + answers.len() > 0);
        one = sent.1;
        two = on_a_thread(move || {
            for frame in &frames {
                two.receive(frame);
            }
            two
        });
        for frame in &answers {
            one.receive(frame);
        }
    }
    assert!(one.transactions().all(|it| matches!(it, Ok(it) if it.phase == Phase::Closed)));
    assert!(has_the_file(&mut two));
    on_a_thread(move || drop((one, two)));
    Ok(())
}

/// Sends all that is due, and takes what comes, until all is over.
#[allow(clippy::needless_pass_by_value)] // it drops its ends of the channels
fn sends(
    mut station: Station,
    to: Sender<Vec<u8>>,
    from: Receiver<Vec<u8>>,
) -> Result<Station, Error> {
    loop {
        for frame in station.frames() {
            to.send(frame?).expect("the peer takes it");
        }
        if station.transactions().all(|it| matches!(it, Ok(it) if it.phase == Phase::Closed)) {
            return Ok(station);
        }
        station.receive(&from.recv().expect("the peer answers"));
    }
}

/// Takes each frame, and answers, until no more comes.
#[allow(clippy::needless_pass_by_value)] // it drops its ends of the channels
fn answers(
    mut station: Station,
    to: Sender<Vec<u8>>,
    from: Receiver<Vec<u8>>,
) -> Result<Station, Error> {
    for frame in from {
        station.receive(&frame);
        for answer in station.frames() {
            // The peer needs no more once all is over.
            let _ = to.send(answer?);
        }
    }
    Ok(station)
}

#[test]
fn on_a_thread_each() -> Result<(), Error> {
    let (mut one, two) = pair()?;
    one.add(b"a", &vec![7; LEN])?;
    one.put(b"a", b"b")?;
    let ((to_two, from_one), (to_one, from_two)) = (channel(), channel());
    let peer = thread::spawn(move || answers(two, to_one, from_one));
    let one = thread::spawn(move || sends(one, to_two, from_two));
    one.join().expect("the thread ends")?;
    let mut two = peer.join().expect("the thread ends")?;
    assert!(has_the_file(&mut two));
    Ok(())
}
