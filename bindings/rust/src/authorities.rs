//! Texts of keys that sign logins (sshd_config(5), `TrustedUserCAKeys`).

use std::fmt;

use crate::digests::Sha256;
use crate::files::entry_lines;
use crate::raw;
use crate::status::Status;

/// What a text of authorities has.
#[derive(Clone, Debug, Default, PartialEq, Eq)]
pub struct Authorities {
    /// The fingerprints of its keys.
    pub keys: Vec<Sha256>,
    /// The numbers of its lines, from 1 on, that are passed over: each has a key of a kind that is
    /// later than this library. Tell of them.
    pub later_lines: Vec<usize>,
}

/// A line that is no key's, which refuses the text.
#[derive(Clone, Copy, Debug, PartialEq, Eq)]
pub struct NoKey {
    /// The number of the line, from 1 on.
    pub line: usize,
    /// What is wrong with it, or [`Status::MEMORY`].
    pub status: Status,
}

/// The authorities of a text, a key a line, between empty lines and comments. Fails with the first
/// line that is neither a key's nor one of another kind of key ([`is_later_key_line`]).
pub fn authorities(text: &[u8]) -> Result<Authorities, NoKey> {
    read(text, raw::raf_authority)
}

/// The authorities that may sign for the user, by a text that says which may for whom: in its lines
/// names of users, with commas between, stand before a key. Lines without the user's name are
/// passed over, whatever follows. Fails as [`authorities`] does.
pub fn user_authorities(text: &[u8], user: &[u8]) -> Result<Authorities, NoKey> {
    read(text, |line, answer| raw::raf_user_authority(line, user, answer))
}

fn read(text: &[u8], call: impl Fn(&[u8], &mut Sha256) -> u32) -> Result<Authorities, NoKey> {
    let mut found = Authorities::default();
    for (line, number) in text.split(|it| *it == b'\n').zip(1..) {
        for entry in entry_lines(line) {
            let mut key = Sha256::default();
            match Status::of(call(entry, &mut key)) {
                Ok(()) => found.keys.push(key),
                Err(Status::LATER_KEY) => found.later_lines.push(number),
                // a line of other users
                Err(Status::END) => {}
                Err(status) => return Err(NoKey { line: number, status }),
            }
        }
    }
    Ok(found)
}

/// Whether the line is that of another kind of key than those that are read: the key signs nothing
/// that is read, and whoever reads a text of authorities may pass over it. Fails with
/// [`Status::TEXT`] where the line is not UTF-8.
pub fn is_later_key_line(line: &[u8]) -> Result<bool, Status> {
    match Status::of(raw::raf_is_later_key_line(line)) {
        Ok(()) => Ok(true),
        Err(Status::LABEL) => Ok(false),
        Err(status) => Err(status),
    }
}

/// Whether the bytes name, as a string, a kind of key that OpenSSH reads or read and that is not
/// read here, of its certificates or of its signatures. It tells why they are no key, no
/// certificate, whose authority may be such a key, or no signature.
#[must_use]
pub fn names_later_kind(bytes: &[u8]) -> bool {
    Status::of(raw::raf_names_later_kind(bytes)).is_ok()
}

impl fmt::Display for NoKey {
    fn fmt(&self, formatter: &mut fmt::Formatter<'_>) -> fmt::Result {
        write!(formatter, "line {}: {}", self.line, self.status)
    }
}

impl std::error::Error for NoKey {}
