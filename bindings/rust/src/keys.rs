//! Lines of keys and certificates, what keys sign, and normal forms.

use crate::buffers::{ask, written};
use crate::questions::Question;
use crate::raw;
use crate::status::Status;

/// What stands in a line of a file of public keys or of certificates.
#[derive(Clone, Debug, PartialEq, Eq)]
pub struct Line {
    /// The blob of the key or of the certificate.
    pub blob: Vec<u8>,
    /// What stands after it, which may be empty.
    pub comment: String,
    /// Whether the blob is one of a certificate.
    pub is_certificate: bool,
}

/// What stands in a line of a file of public keys (`id_ed25519.pub`) or of certificates
/// (`id_ed25519-cert.pub`). Fails with a status from 10 to 29 where it is a line of neither, and
/// with [`Status::MEMORY`].
pub fn read_line(line: impl AsRef<[u8]>) -> Result<Line, Status> {
    let line = line.as_ref();
    let (buffer, found) =
        ask(line.len(), |buffer, answer| raw::raf_read_line(line, buffer, answer))?;
    let comment = String::from_utf8(found.comment.of(&buffer).to_vec());
    let is_certificate = match found.kind {
        raw::LINE_KEY => false,
        raw::LINE_CERTIFICATE => true,
        _ => return Err(Status::OTHER_ERROR),
    };
    Ok(Line {
        blob: found.blob.of(&buffer).to_vec(),
        comment: comment.map_err(|_| Status::CHARACTER_ENCODING)?,
        is_certificate,
    })
}

/// What has to be verified of a signature of the message under a key, both given as their blobs
/// (RFC 4253, section 6.6): as an agent gives it, or a client at a login. Fails with a status from
/// 10 to 29 where they are none, with [`Status::UNSUPPORTED`] where they do not go together, and
/// with [`Status::MEMORY`].
///
/// Of a login [`log_in`](crate::log_in) asks it, and the flags of a security key, which are looked
/// at there alone.
pub fn signature_question(
    key: &[u8],
    message: &[u8],
    signature: &[u8],
) -> Result<Question, Status> {
    let enough =
        [key, message, signature].iter().fold(256, |sum: usize, it| sum.saturating_add(it.len()));
    Question::of_call(enough, |buffer, answer| {
        raw::raf_signature_question(key, message, signature, buffer, answer)
    })
}

/// A call that writes what it makes of some bytes to a buffer: bytes, buffer, and the length of
/// what is written.
pub(crate) type Write = fn(&[u8], &mut [u8], &mut usize) -> u32;

/// What a call writes of the bytes, which is never longer than they are. Fails with what the call
/// answers, and with [`Status::MEMORY`].
pub(crate) fn written_of(call: Write, bytes: &[u8]) -> Result<Vec<u8>, Status> {
    written(bytes.len(), |buffer, length| call(bytes, buffer, length))
}

/// The normal form of a key, given as its blob: two keys are the same exactly if theirs are. Fails
/// with a status from 10 to 29 where the bytes are none, and with [`Status::MEMORY`].
pub fn normal_key(key: &[u8]) -> Result<Vec<u8>, Status> {
    written_of(raw::raf_key_normal, key)
}

/// The normal form of a certificate, given as its blob. Fails with a status from 10 to 29 where
/// the bytes are none, and with [`Status::MEMORY`].
pub fn normal_certificate(certificate: &[u8]) -> Result<Vec<u8>, Status> {
    written_of(raw::raf_certificate_normal, certificate)
}

/// The normal form of an SSH signature. Fails with a status from 10 to 29 where the bytes are
/// none, and with [`Status::MEMORY`].
pub fn normal_sshsig(signature: &[u8]) -> Result<Vec<u8>, Status> {
    written_of(raw::raf_sshsig_normal, signature)
}

/// The normal form of a signature as [`signature_question`] takes it: the bytes themselves. Fails
/// with a status from 10 to 29 where they are none.
pub fn normal_signature(signature: &[u8]) -> Result<Vec<u8>, Status> {
    written_of(raw::raf_signature_normal, signature)
}

/// Whether a verifier may say yes to a signature under the key, given as its blob: OpenSSH lets
/// somebody in by it, and one of RSA has 2,048 bits or more. Fails with a status from 10 to 29
/// where the bytes are no key.
pub fn may_verify(key: &[u8]) -> Result<bool, Status> {
    match Status::of(raw::raf_may_verify(key)) {
        Ok(()) => Ok(true),
        Err(Status::KEY_NOT_ACCEPTED) => Ok(false),
        Err(status) => Err(status),
    }
}
