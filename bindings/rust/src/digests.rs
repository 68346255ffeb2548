//! Digests, which are the fingerprints of keys.

use std::fmt;

use crate::buffers::written;
use crate::raw;
use crate::status::Status;

/// A SHA-256 digest. Its text is that of a fingerprint, as ssh-keygen shows it.
#[repr(C)]
#[derive(Clone, Copy, Debug, Default, PartialEq, Eq, PartialOrd, Ord, Hash)]
pub struct Sha256 {
    /// The digest's bytes.
    pub bytes: [u8; 32],
}

/// A SHA-512 digest. Its text is that of a fingerprint, as ssh-keygen shows it.
#[repr(C)]
#[derive(Clone, Copy, Debug, PartialEq, Eq, PartialOrd, Ord, Hash)]
pub struct Sha512 {
    /// The digest's bytes.
    pub bytes: [u8; 64],
}

/// The SHA-256 fingerprint of a key, given as its blob. Fails with a status from 10 to 29 where
/// the bytes are no key, and with [`Status::MEMORY`].
pub fn fingerprint(key: &[u8]) -> Result<Sha256, Status> {
    let mut digest = Sha256::default();
    Status::of(raw::raf_fingerprint(key, &mut digest))?;
    Ok(digest)
}

/// The SHA-512 fingerprint of a key, given as its blob. Fails as [`fingerprint`] does.
pub fn fingerprint_sha512(key: &[u8]) -> Result<Sha512, Status> {
    let mut digest = Sha512 { bytes: [0; 64] };
    Status::of(raw::raf_fingerprint_sha512(key, &mut digest))?;
    Ok(digest)
}

impl Sha256 {
    /// A picture of a key with that fingerprint, as `ssh-keygen -lv` shows it, whose header is, say,
    /// `[ED25519 256]`: eleven lines, without a line end after the last. Fails with
    /// [`Status::MEMORY`].
    pub fn random_art(&self, header: &str) -> Result<String, Status> {
        let enough = raw::RANDOM_ART_TEXT.saturating_add(header.len());
        let call = |buffer: &mut [u8], length: &mut usize| {
            raw::raf_random_art(self, header.as_bytes(), buffer, length)
        };
        String::from_utf8(written(enough, call)?).map_err(|_| Status::TEXT)
    }
}

/// Writes the text that the call has written to the buffer, which is ASCII.
fn show(answer: u32, buffer: &[u8], formatter: &mut fmt::Formatter<'_>) -> fmt::Result {
    Status::of(answer).map_err(|_| fmt::Error)?;
    formatter.pad(std::str::from_utf8(buffer).map_err(|_| fmt::Error)?)
}

impl fmt::Display for Sha256 {
    fn fmt(&self, formatter: &mut fmt::Formatter<'_>) -> fmt::Result {
        let mut buffer = [0; raw::FINGERPRINT_TEXT];
        show(raw::raf_fingerprint_text(self, &mut buffer), &buffer, formatter)
    }
}

impl fmt::Display for Sha512 {
    fn fmt(&self, formatter: &mut fmt::Formatter<'_>) -> fmt::Result {
        let mut buffer = [0; raw::FINGERPRINT_SHA512_TEXT];
        show(raw::raf_fingerprint_sha512_text(self, &mut buffer), &buffer, formatter)
    }
}
