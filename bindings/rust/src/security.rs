//! Frames that only the holder of a key can have sent: a layer between the frames of a station,
//! whose links must then have no fields, and those of the link.

use std::fmt;

use crate::error::Error;
use crate::ffi;

/// How the frames of one direction are secured, with one key, which is never printed.
///
/// # Examples
///
/// ```
/// use cfdp::{Error, Security};
///
/// let mut security = Security::new(17, [7; 32]); // draw a key at random
/// security.error_control = true;
/// let (mut sealer, mut opener) = (security.sealer(1), security.opener(0));
/// let sealed = sealer.seal(&[9; 40], 0)?;
/// assert_eq!(sealed.len(), 40 + security.overhead());
/// assert_eq!(opener.open(&sealed)?, [9; 40]);
/// assert_eq!(opener.open(&sealed), Err(Error::Replayed));
/// assert_eq!((sealer.next(), opener.last()), (2, 1));
/// # Ok::<(), Error>(())
/// ```
#[derive(Clone, Copy)]
#[non_exhaustive]
pub struct Security {
    /// The security parameter index, by which frames name the key: 1 to 65,534.
    pub spi: u16,
    /// Octets of the MAC that are sent: 16 to 32.
    pub mac_len: u8,
    /// Octets of the insert zone: 0 to 64.
    pub insert_zone: u8,
    /// Whether frames have an operational control field, of 4 octets.
    pub control_field: bool,
    /// Whether frames have a frame error control field, of 2 octets.
    pub error_control: bool,
    /// Octets drawn at random, for one direction of one link.
    pub key: [u8; 32],
}

/// Seals the frames of one direction, each under a number of its own.
#[derive(Clone, Copy, Debug)]
pub struct Sealer {
    security: Security,
    next: u64,
}

/// Verifies the frames of one direction, and accepts each number once.
#[derive(Clone, Copy, Debug)]
pub struct Opener {
    security: Security,
    last: u64,
}

impl Security {
    /// Returns frames with a MAC of 16 octets, and no fields.
    #[must_use]
    pub fn new(spi: u16, key: [u8; 32]) -> Security {
        Security {
            spi,
            mac_len: 16,
            insert_zone: 0,
            control_field: false,
            error_control: false,
            key,
        }
    }

    /// Returns how many octets more a frame of the link has than one of the station.
    #[must_use]
    pub fn overhead(&self) -> usize {
        let control = if self.control_field { 4 } else { 0 };
        let check = if self.error_control { 2 } else { 0 };
        10 + usize::from(self.mac_len) + usize::from(self.insert_zone) + control + check
    }

    /// Returns a sealer whose next frame has the number `next`, 1 or more: never one that was used
    /// under this key.
    #[must_use]
    pub fn sealer(self, next: u64) -> Sealer {
        Sealer { security: self, next }
    }

    /// Returns an opener that accepts greater numbers than `last`: that of the frame which was
    /// accepted last, or 0. If the peer changes its key, keep an opener for either key, and give
    /// the new one the number of the old one.
    #[must_use]
    pub fn opener(self, last: u64) -> Opener {
        Opener { security: self, last }
    }

    fn to_ffi(self, number: u64) -> ffi::Security {
        ffi::Security {
            number,
            spi: self.spi,
            mac_len: self.mac_len,
            insert_zone: self.insert_zone,
            control_field: self.control_field.into(),
            error_control: self.error_control.into(),
            key: self.key,
        }
    }
}

impl fmt::Debug for Security {
    fn fmt(&self, f: &mut fmt::Formatter<'_>) -> fmt::Result {
        f.debug_struct("Security")
            .field("spi", &self.spi)
            .field("mac_len", &self.mac_len)
            .finish_non_exhaustive()
    }
}

impl Sealer {
    /// Returns the number of the next frame. A program must keep a greater one, in a place that
    /// outlasts a restart, before a frame leaves.
    #[must_use]
    pub fn next(&self) -> u64 {
        self.next
    }

    /// Seals a frame of the station under the key and the next sequence number. Its operational
    /// control field says `control`, if it has one.
    ///
    /// # Errors
    ///
    /// `BadArgument` if a field is out of its range; `NoRoom` if the frame has fewer than 6 octets;
    /// `NumbersSpent` if no number is left. Nothing changed.
    pub fn seal(&mut self, frame: &[u8], control: u32) -> Result<Vec<u8>, Error> {
        let mut out = vec![0; frame.len() + self.security.overhead()];
        self.seal_into(frame, control, &mut out)?;
        Ok(out)
    }

    /// Seals a frame, as [`seal`](Self::seal) does, into all of `out`, which must have
    /// [`overhead`](Security::overhead) octets more than the frame.
    ///
    /// # Errors
    ///
    /// Those of [`seal`](Self::seal); `NoRoom` also if `out` has another length. Nothing changed.
    pub fn seal_into(&mut self, frame: &[u8], control: u32, out: &mut [u8]) -> Result<(), Error> {
        let mut security = self.security.to_ffi(self.next);
        Error::check(ffi::seal_frame(&mut security, frame, control, out))?;
        self.next = security.number;
        Ok(())
    }
}

impl Opener {
    /// Returns the number of the frame that was accepted last. A program must keep one that is at
    /// least as great, in a place that outlasts a restart, before the station receives the frame.
    #[must_use]
    pub fn last(&self) -> u64 {
        self.last
    }

    /// Verifies a received frame, whatever its octets are, and returns the frame of the station.
    ///
    /// # Errors
    ///
    /// `BadArgument` if a field is out of its range; `ShortFrame`, `DamagedFrame`, `UnknownSpi`,
    /// `NotAuthentic` or `Replayed` if the frame is refused, the first that holds. Nothing changed.
    pub fn open(&mut self, frame: &[u8]) -> Result<Vec<u8>, Error> {
        let mut out = vec![0; frame.len().saturating_sub(self.security.overhead())];
        self.open_into(frame, &mut out)?;
        Ok(out)
    }

    /// Verifies a frame, as [`open`](Self::open) does, and writes the frame of the station over the
    /// front of `out`: [`overhead`](Security::overhead) octets less than the frame.
    ///
    /// # Errors
    ///
    /// Those of [`open`](Self::open); `NoRoom` if `out` has fewer octets. Nothing changed.
    pub fn open_into(&mut self, frame: &[u8], out: &mut [u8]) -> Result<(), Error> {
        let mut security = self.security.to_ffi(self.last);
        Error::check(ffi::open_frame(&mut security, frame, out))?;
        self.last = security.number;
        Ok(())
    }
}
