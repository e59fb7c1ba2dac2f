//! Frames that only the holder of a key can have sent.
use cfdp::{Error, Security};

fn link(spi: u16) -> Security {
    let mut link = Security::new(spi, [7; 32]);
    link.error_control = true;
    link
}

#[test]
fn frames_cross_a_link() -> Result<(), Error> {
    let (mut sealer, mut opener) = (link(17).sealer(1), link(17).opener(0));
    for octet in 0..5 {
        let frame = [octet; 40];
        let on_link = sealer.seal(&frame, 0)?;
        assert_eq!(on_link.len(), frame.len() + link(17).overhead());
        assert_eq!(opener.open(&on_link)?, frame);
        assert_eq!(opener.open(&on_link), Err(Error::Replayed));
    }
    assert_eq!((sealer.next(), opener.last()), (6, 5));
    Ok(())
}

#[test]
fn what_is_refused_changes_nothing() -> Result<(), Error> {
    let mut sealed = link(17).sealer(3).seal(&[9; 40], 0)?;
    assert_eq!(link(18).opener(0).open(&sealed), Err(Error::UnknownSpi));
    assert_eq!(link(17).opener(3).open(&sealed), Err(Error::Replayed));
    assert_eq!(link(17).opener(0).open(&sealed[..7]), Err(Error::ShortFrame));
    let mut other = link(17);
    other.key = [8; 32];
    let mut refusing = other.opener(2);
    assert_eq!(refusing.open(&sealed), Err(Error::NotAuthentic));
    sealed[7] ^= 1;
    assert_eq!(refusing.open(&sealed), Err(Error::DamagedFrame));
    assert_eq!(refusing.last(), 2);
    let mut short = link(17);
    short.mac_len = 8;
    assert_eq!(short.sealer(1).seal(&[9; 40], 0), Err(Error::BadArgument));
    Ok(())
}

/// A key is never printed.
#[test]
fn keys_are_kept() {
    let told = format!("{:?} {:?}", link(17), link(17).sealer(1));
    assert!(told.contains("spi: 17") && !told.contains("7, 7"), "{told}");
}
