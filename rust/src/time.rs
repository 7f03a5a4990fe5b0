//! Times, and the types of the standard library for them.

use core::fmt;
use core::time::Duration;

const SECOND: u32 = 1_000_000_000;

/// A time.
#[repr(C)]
#[derive(Clone, Copy, Debug, Default, PartialEq, Eq, PartialOrd, Ord, Hash)]
pub struct Time {
    /// Seconds since 1970, below 0 before it.
    pub seconds: i64,
    /// Nanoseconds after these seconds, below 1000000000. Those of a classic packet may be a second or more.
    pub nanoseconds: u32,
}

/// The error of a conversion: the other type has no such time.
#[derive(Clone, Copy, Debug, PartialEq, Eq)]
pub struct OutOfRange;

impl fmt::Display for OutOfRange {
    fn fmt(&self, f: &mut fmt::Formatter<'_>) -> fmt::Result {
        f.write_str("the time is outside the range of the type")
    }
}

impl core::error::Error for OutOfRange {}

impl Time {
    /// The beginning of 1970 in UTC.
    pub const EPOCH: Time = Time { seconds: 0, nanoseconds: 0 };

    /// Returns the same time with less than a second of nanoseconds. None if its seconds pass 64 bits.
    pub fn carried(self) -> Option<Time> {
        let seconds = self.seconds.checked_add((self.nanoseconds / SECOND).into())?;
        Some(Time { seconds, nanoseconds: self.nanoseconds % SECOND })
    }

    /// Returns the time since the beginning of 1970. None before it.
    ///
    /// ```
    /// use pcapfile::Time;
    /// use std::time::Duration;
    ///
    /// let time = Time { seconds: 7, nanoseconds: 500_000_000 };
    /// assert_eq!(time.since_epoch(), Some(Duration::from_millis(7500)));
    /// ```
    pub fn since_epoch(self) -> Option<Duration> {
        let seconds = u64::try_from(self.carried()?.seconds).ok()?;
        Some(Duration::new(seconds, self.nanoseconds % SECOND))
    }

    /// Returns the nanoseconds since the beginning of 1970, below 0 before it.
    pub fn as_nanos(self) -> i128 {
        i128::from(self.seconds) * i128::from(SECOND) + i128::from(self.nanoseconds)
    }

    /// Returns the time of so many nanoseconds since the beginning of 1970. None if its seconds pass 64 bits.
    pub fn from_nanos(nanoseconds: i128) -> Option<Time> {
        let seconds = i64::try_from(nanoseconds.div_euclid(SECOND.into())).ok()?;
        Some(Time { seconds, nanoseconds: nanoseconds.rem_euclid(SECOND.into()) as u32 })
    }

    /// Returns the time as the system's type, exact where that counts nanoseconds. None if it has no such time.
    ///
    /// ```
    /// use pcapfile::Time;
    /// use std::time::{Duration, SystemTime};
    ///
    /// let time = Time { seconds: -1, nanoseconds: 999_999_999 };
    /// assert_eq!(time.system_time(), SystemTime::UNIX_EPOCH.checked_sub(Duration::from_nanos(1)));
    /// ```
    #[cfg(feature = "std")]
    pub fn system_time(self) -> Option<std::time::SystemTime> {
        let epoch = std::time::SystemTime::UNIX_EPOCH;
        let whole = Duration::from_secs(self.seconds.unsigned_abs());
        let second = if self.seconds < 0 { epoch.checked_sub(whole) } else { epoch.checked_add(whole) };
        second?.checked_add(Duration::from_nanos(self.nanoseconds.into()))
    }
}

impl TryFrom<Duration> for Time {
    type Error = OutOfRange;

    /// Returns the time that is so long after the beginning of 1970.
    fn try_from(since: Duration) -> Result<Time, OutOfRange> {
        let seconds = i64::try_from(since.as_secs()).map_err(|_| OutOfRange)?;
        Ok(Time { seconds, nanoseconds: since.subsec_nanos() })
    }
}

impl TryFrom<Time> for Duration {
    type Error = OutOfRange;

    /// Returns the time since the beginning of 1970. It fails before it.
    fn try_from(time: Time) -> Result<Duration, OutOfRange> {
        time.since_epoch().ok_or(OutOfRange)
    }
}

#[cfg(feature = "std")]
impl TryFrom<std::time::SystemTime> for Time {
    type Error = OutOfRange;

    fn try_from(time: std::time::SystemTime) -> Result<Time, OutOfRange> {
        match time.duration_since(std::time::SystemTime::UNIX_EPOCH) {
            Ok(since) => Time::try_from(since),
            // A duration has below 2^94 nanoseconds.
            Err(before) => Time::from_nanos(-(before.duration().as_nanos() as i128)).ok_or(OutOfRange),
        }
    }
}

#[cfg(feature = "std")]
impl TryFrom<Time> for std::time::SystemTime {
    type Error = OutOfRange;

    fn try_from(time: Time) -> Result<std::time::SystemTime, OutOfRange> {
        time.system_time().ok_or(OutOfRange)
    }
}
