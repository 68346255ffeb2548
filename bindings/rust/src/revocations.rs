//! Revocation files and key revocation lists.

use crate::buffers::spans;
use crate::raw;
use crate::status::Status;

/// That no revocation file is asked: one file, the key revocation list of nothing (PROTOCOL.krl).
/// No files, as an empty slice, are none that were read: by them everything is refused.
pub const NO_REVOCATIONS: &[&[u8]] = &[
    // the magic number and the version; the list's number, date, flags, reserved bytes and comment
    b"SSHKRL\n\0\0\0\0\x01\
      \0\0\0\0\0\0\0\0\0\0\0\0\0\0\0\0\0\0\0\0\0\0\0\0\0\0\0\0\0\0\0\0",
];

/// Whether none of the files of sshd's `RevokedKeys` revokes the key, given as its blob. Each file
/// is a key revocation list, as [`check_unrevoked_key_by_krl`] asks it, or has keys, one a line;
/// one of no bytes revokes nothing: do not pass it for a file that could not be opened.
///
/// Fails with [`Status::REVOKED`] where one revokes it, with [`Status::UNREADABLE_REVOCATIONS`]
/// where there is no file, or one cannot be read, else with a status from 10 to 29 where the bytes
/// are no key, and with [`Status::MEMORY`].
pub fn check_unrevoked_key(revoked: &[&[u8]], key: &[u8]) -> Result<(), Status> {
    Status::of(raw::raf_check_unrevoked_key(&spans(revoked), key))
}

/// The same of a certificate, given as its blob, as [`check_unrevoked_certificate_by_krl`] asks a
/// list; a text revokes it that has its key or the key that signed it. Fails as
/// [`check_unrevoked_key`] does.
pub fn check_unrevoked_certificate(revoked: &[&[u8]], certificate: &[u8]) -> Result<(), Status> {
    Status::of(raw::raf_check_unrevoked_certificate(&spans(revoked), certificate))
}

/// Whether a key revocation list (PROTOCOL.krl), as `ssh-keygen -k` makes it, has neither the key,
/// given as its blob, nor its digest by SHA-1 or SHA-256. Fails with [`Status::REVOKED`] where it
/// has, with a status from 10 to 29 where the bytes are no list (an empty file is none, nor is a
/// text of keys), or else no key, and with [`Status::MEMORY`].
pub fn check_unrevoked_key_by_krl(krl: &[u8], key: &[u8]) -> Result<(), Status> {
    Status::of(raw::raf_check_unrevoked_key_by_krl(krl, key))
}

/// The same of a certificate, given as its blob: a list revokes it that has its key or the key that
/// signed it, or its serial number or its key id among the certificates of that key or of every
/// key. The serial number 0 revokes nothing. Fails as [`check_unrevoked_key_by_krl`] does.
pub fn check_unrevoked_certificate_by_krl(krl: &[u8], certificate: &[u8]) -> Result<(), Status> {
    Status::of(raw::raf_check_unrevoked_certificate_by_krl(krl, certificate))
}
