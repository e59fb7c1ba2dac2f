//! Frames with all fields, and PDUs with a CRC: what a damaged frame had is asked for again.
use cfdp::{decode, ChecksumType, Config, Content, Error, Lane, PduError, Station};

const OCTETS: [u8; 5000] = [7; 5000];

/// Both stations, whose files have this type of checksum.
fn pair(checksum: ChecksumType) -> Result<(Station, Station), Error> {
    let mut one = Config::new(1, 2);
    for link in [&mut one.sends, &mut one.receives] {
        link.insert_zone = 64;
        link.control_field = true;
        link.error_control = true;
    }
    one.pdu_crc = true;
    one.checksum = checksum;
    Ok((Station::open(&one)?, Station::open(&one.of_peer())?))
}

/// All that is due goes over.
fn pass(from: &mut Station, to: &mut Station) -> Result<(), Error> {
    for frame in from.frames() {
        to.receive(&frame?);
    }
    Ok(())
}

/// The same, but the first frame of file data is damaged.
fn pass_damaged(from: &mut Station, to: &mut Station) -> Result<(), Error> {
    let mut frames = from.frames().collect::<Result<Vec<_>, _>>()?;
    let struck = frames.iter_mut().find(|it| it[1] & 63 == 7).expect("file data are due");
    struck[90] ^= 0x80;
    for frame in &frames {
        to.receive(frame);
    }
    Ok(())
}

#[test]
fn damage_is_mended() -> Result<(), Error> {
    for checksum in [ChecksumType::Castagnoli, ChecksumType::Ieee] {
        let (mut one, mut two) = pair(checksum)?;
        assert_eq!(one.frame_len(), 264 + 64 + 4 + 2);
        assert_eq!(two.control_field(Lane::Directives), None);
        one.add(b"a", &OCTETS)?;
        one.put(b"a", b"b")?;
        one.set_control_field(5);
        pass_damaged(&mut one, &mut two)?;
        assert_eq!((two.counters().frames.damaged, two.file_count()), (1, 0));
        assert_eq!(two.control_field(Lane::Directives), Some(5));
        assert_eq!(two.control_field(Lane::FileData), Some(5));
        pass(&mut two, &mut one)?;
        pass(&mut one, &mut two)?;
        assert_ne!(one.counters().sent.file_data_again, 0);
        assert_eq!(two.file(0)?.map(|it| it.octets), Some(OCTETS.to_vec()));
        assert_eq!(one.control_field(Lane::Directives), Some(0));
        assert_eq!(one.control_field(Lane::FileData), None);
    }
    Ok(())
}

#[test]
fn gaps_have_a_limit() -> Result<(), Error> {
    for most_gaps in [0, 1] {
        let mut config = Config::new(1, 2);
        config.segment = 100;
        config.most_gaps = most_gaps;
        let (mut one, mut two) = (Station::open(&config)?, Station::open(&config.of_peer())?);
        one.add(b"a", &OCTETS)?;
        one.put(b"a", b"b")?;
        // Each second frame of file data is lost.
        let mut is_lost = false;
        for frame in one.frames() {
            let frame = frame?;
            is_lost ^= frame[1] & 63 == 7;
            if frame[1] & 63 != 7 || !is_lost {
                two.receive(&frame);
            }
        }
        assert_eq!(two.counters().pdus.no_memory != 0, most_gaps == 1);
        pass(&mut two, &mut one)?;
        pass(&mut one, &mut two)?;
        assert_eq!(two.file(0)?.map(|it| it.octets), Some(OCTETS.to_vec()));
    }
    Ok(())
}

#[test]
fn wrong_fields() {
    fn refused(change: impl FnOnce(&mut Config)) -> String {
        let mut config = Config::default();
        change(&mut config);
        match Station::open(&config) {
            Err(Error::BadField(field)) => format!("{} {}", field.name(), field.range()),
            other => format!("{other:?}"),
        }
    }
    assert_eq!(refused(|it| it.sends.insert_zone = 65), "sends.insert_zone 0 to 64");
    assert_eq!(refused(|it| it.receives.apid = 2047), "receives.apid 0 to 2046");
    assert_eq!(refused(|it| it.peer = it.entity), "peer in id_width octets, and not entity");
    assert_eq!(refused(|it| it.segment = 0), "segment 1 to 4096");
    assert_eq!(refused(|it| it.capacity = 8191), "capacity 8192 to 65536");
}

#[test]
fn crc_of_a_pdu() -> Result<(), Error> {
    let mut pdu = *b"\x32\x00\x07\x13\x00\x01\x00\x00\x00\x01\x00\x02\x00\x00\x00\x00h\xD5\xA0";
    let told = decode(&pdu)?;
    assert_eq!((told.content, told.crc), (Content::FileData { offset: 0, data_len: 1 }, true));
    pdu[16] = b'i';
    assert_eq!(decode(&pdu), Err(Error::BadPdu(PduError::Crc)));
    Ok(())
}

#[test]
fn room_of_another_length() -> Result<(), Error> {
    let mut station = Station::open(&Config::new(1, 2))?;
    let mut frame = vec![0; station.frame_len() - 1];
    assert_eq!(station.transmit_into(&mut frame), Err(Error::NoRoom));
    assert_eq!(station.next_frame_into(&mut frame), Err(Error::NoRoom));
    assert_eq!(station.transmit(), Ok(None));
    assert_eq!(station.next_frame(), Ok(None));
    Ok(())
}
