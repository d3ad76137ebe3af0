// SPDX-License-Identifier: Apache-2.0
//! Moments as the pipeline takes them.

use crate::Error;
use std::time::{SystemTime, UNIX_EPOCH};

/// Nanoseconds since 1970, or of what becomes due since the pipeline was opened.
#[derive(Clone, Copy, Debug, PartialEq, Eq)]
pub(crate) struct Moment(u64);

impl Moment {
    /// The moment of the system's clock; 1970 where the clock stands before it.
    pub fn now() -> Self {
        Self::of(SystemTime::now()).unwrap_or(Self(0))
    }

    pub fn of(time: SystemTime) -> Result<Self, Error> {
        let since = time.duration_since(UNIX_EPOCH).map_err(|_| Error::BadMoment)?;
        u64::try_from(since.as_nanos()).map(Self).map_err(|_| Error::BadMoment)
    }

    pub fn of_nanoseconds(nanoseconds: u64) -> Self {
        Self(nanoseconds)
    }

    pub fn nanoseconds(self) -> u64 {
        self.0
    }
}

#[cfg(test)]
mod tests {
    use super::*;
    use std::time::Duration;

    #[test]
    fn moments_are_nanoseconds_since_1970() {
        assert_eq!(Moment::of(UNIX_EPOCH + Duration::new(1, 2)), Ok(Moment(1_000_000_002)));
        assert_eq!(Moment::of(UNIX_EPOCH - Duration::from_nanos(1)), Err(Error::BadMoment));
        assert_eq!(Moment::of(UNIX_EPOCH + Duration::from_secs(20_000_000_000)), Err(Error::BadMoment));
    }
}
