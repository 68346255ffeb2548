//! Times, as in allowed signers and `expiry-time` of authorized_keys.

use std::ops::RangeInclusive;

use crate::raw;
use crate::status::Status;

/// The seconds since 1970 that a time may mean, which is `YYYYMMDD`, `YYYYMMDDHHMM` or
/// `YYYYMMDDHHMMSS`, alone or before `Z` or `UTC`: one if it names its zone; alone, it may be of
/// any.
///
/// Fails with [`Status::FORMAT`] where the text is no such time, or one that may be no later than
/// the start of 1970, and with [`Status::TEXT`] where it is not UTF-8.
pub fn read_time(text: impl AsRef<[u8]>) -> Result<RangeInclusive<u64>, Status> {
    let mut span = raw::TimeSpan::default();
    Status::of(raw::raf_read_time(text.as_ref(), &mut span))?;
    Ok(span.first..=span.last)
}
