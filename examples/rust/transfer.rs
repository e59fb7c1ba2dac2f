//! A file by two stations in one process, over a link that loses one frame of seven:
//!
//!     transfer [OCTETS]
//!
//! or by one station over UDP, with `cfdp_node station` as the other:
//!
//!     transfer udp OWN_PORT PEER_PORT [OCTETS]
use cfdp::{Config, Error, Indication, Station};
use std::net::UdpSocket;
use std::time::{Duration, Instant};

const LOST: u32 = 7;
const SOURCE: &[u8] = b"image.raw";
const DESTINATION: &[u8] = b"received.raw";

type Failure = Box<dyn std::error::Error>;

/// Station 1 or 2. What isn't answered is sent again as often as it takes.
fn config(number: u8, patience: u32) -> Config {
    let mut config = Config::new(1, 2);
    config.eof_time = patience;
    config.nak_time = patience;
    config.finished_time = patience;
    config.inactivity_time = 100 * patience;
    config.eof_limit = 255;
    config.nak_limit = 255;
    config.finished_limit = 255;
    if number == 1 {
        config
    } else {
        config.of_peer()
    }
}

/// Octets that no two files have alike.
fn octets_of_file(len: usize) -> Vec<u8> {
    let mut state = 1u32;
    let next = || {
        state = state.wrapping_mul(1_664_525).wrapping_add(1_013_904_223);
        (state >> 24) as u8
    };
    std::iter::repeat_with(next).take(len).collect()
}

fn send_file(station: &mut Station, octets: &[u8]) -> Result<(), Error> {
    station.add(SOURCE, octets)?;
    let id = station.put(SOURCE, DESTINATION)?;
    println!("transaction {}:{} of {} octets", id.source, id.number, octets.len());
    Ok(())
}

/// Whether a station told by now that its transaction is over, and if so, that it went well.
fn ending(station: &mut Station, number: u8) -> Result<Option<bool>, Error> {
    let mut ending = None;
    for told in station.indications() {
        let told = told?;
        if let Indication::Finished { condition, .. } = told {
            println!("station {number}: finished, {condition}");
            ending = Some(told.is_complete());
        }
    }
    Ok(ending)
}

/// What became of frames.
struct Link {
    state: u32,
    frames: u64,
    lost: u64,
}

impl Link {
    /// Whether it loses a frame: one of seven, by chance, and in each run the same. Were it each
    /// seventh, the same PDU might be lost for ever.
    fn loses(&mut self) -> bool {
        self.state = self.state.wrapping_mul(1_664_525).wrapping_add(1_013_904_223);
        (self.state >> 16) % LOST == 0
    }

    /// Passes on all that is due but what is lost.
    fn pass(&mut self, from: &mut Station, to: &mut Station) -> Result<(), Error> {
        let mut frame = vec![0; from.frame_len()];
        while from.transmit_into(&mut frame)? {
            let is_lost = self.loses();
            self.frames += 1;
            self.lost += u64::from(is_lost);
            if !is_lost {
                to.receive(&frame);
            }
        }
        Ok(())
    }
}

fn transfer_here(octets: &[u8]) -> Result<bool, Failure> {
    let (mut one, mut two) = (Station::open(&config(1, 10))?, Station::open(&config(2, 10))?);
    let (mut link, mut endings) = (Link { state: 1, frames: 0, lost: 0 }, [None, None]);
    send_file(&mut one, octets)?;
    for now in 1..100_000 {
        one.tick(now)?;
        two.tick(now)?;
        link.pass(&mut one, &mut two)?;
        link.pass(&mut two, &mut one)?;
        endings[0] = endings[0].or(ending(&mut one, 1)?);
        endings[1] = endings[1].or(ending(&mut two, 2)?);
        if endings.iter().all(Option::is_some) {
            break;
        }
    }
    println!("{} frames, {} lost", link.frames, link.lost);
    let file = two.file(0)?;
    let is_published = matches!(&file, Some(it) if it.name == DESTINATION && it.octets == octets);
    if is_published {
        println!("published as it was sent");
    }
    Ok(is_published && endings == [Some(true); 2])
}

fn transfer_over_udp(own: &str, peer: &str, octets: &[u8]) -> Result<bool, Failure> {
    let wire = UdpSocket::bind(format!("127.0.0.1:{own}"))?;
    wire.set_read_timeout(Some(Duration::from_millis(1)))?;
    let peer = format!("127.0.0.1:{peer}");
    let mut station = Station::open(&config(1, 200))?;
    let (start, mut over, mut buffer) = (Instant::now(), None::<(bool, Instant)>, [0; 2048]);
    let mut frame = vec![0; station.frame_len()];
    send_file(&mut station, octets)?;
    while start.elapsed() < Duration::from_secs(60) {
        station.tick(u64::try_from(start.elapsed().as_millis())?)?;
        while station.transmit_into(&mut frame)? {
            let _a_lost_frame = wire.send_to(&frame, &peer);
        }
        while let Ok((len, _)) = wire.recv_from(&mut buffer) {
            station.receive(&buffer[..len]);
        }
        if let Some(is_good) = ending(&mut station, 1)? {
            over = Some((is_good, Instant::now()));
        }
        // once it is over, some time for the peer's last words
        match over {
            Some((is_good, at)) if at.elapsed() > Duration::from_millis(500) => return Ok(is_good),
            _ => {}
        }
    }
    Ok(false)
}

fn main() -> Result<(), Failure> {
    let words: Vec<String> = std::env::args().skip(1).collect();
    let words: Vec<&str> = words.iter().map(String::as_str).collect();
    let len = |word: Option<&&str>| word.map_or(Ok(100_000), |it| it.parse());
    let is_good = match words.as_slice() {
        ["udp", own, peer, rest @ ..] => {
            transfer_over_udp(own, peer, &octets_of_file(len(rest.first())?))?
        }
        rest => transfer_here(&octets_of_file(len(rest.first())?))?,
    };
    if is_good {
        Ok(())
    } else {
        Err("the file didn't come".into())
    }
}
