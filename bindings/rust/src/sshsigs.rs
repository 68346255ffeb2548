//! SSH signatures (PROTOCOL.sshsig), by their messages or the digests of these.

use crate::digests::Sha256;
use crate::keys::{normal_sshsig, written_of};
use crate::questions::{decide, Question};
use crate::raw;
use crate::status::Status;
use crate::strings::strings;

/// A call that asks for the question of an SSH signature: the signature, the namespace, the message
/// or its digest, the buffer, and what is written.
type Ask = fn(&[u8], &[u8], &[u8], &mut [u8], &mut raw::Question, &mut Sha256) -> u32;

/// What such a call writes. Fails with what it answers.
fn question_by(
    call: Ask,
    signature: &[u8],
    namespace: &[u8],
    covered: &[u8],
) -> Result<(Question, Sha256), Status> {
    let enough = signature.len().saturating_mul(2).saturating_add(256);
    let mut signer = Sha256::default();
    let question = Question::of_call(enough, |buffer, answer| {
        call(signature, namespace, covered, buffer, answer, &mut signer)
    })?;
    Ok((question, signer))
}

/// The bytes of an SSH signature in its armour, the text of a file of `ssh-keygen -Y sign`, as
/// OpenSSH 9.5 reads it. What follows its last line is passed over. Fails with [`Status::FORMAT`]
/// where the first or the last line is missing, with [`Status::BASE64`], and with
/// [`Status::MEMORY`].
pub fn read_armour(text: impl AsRef<[u8]>) -> Result<Vec<u8>, Status> {
    written_of(raw::raf_read_armour, text.as_ref())
}

/// What has to be verified of an SSH signature (what [`read_armour`] gives) of the message in that
/// namespace, and the fingerprint of the key that signed, which has to be one that
/// you trust for that namespace: [`check_sshsig`] asks both. Fails with a status from 10 to 29
/// where the bytes are none, with [`Status::OTHER_NAMESPACE`], with [`Status::UNSUPPORTED`] where
/// key and signature do not go together, and with [`Status::MEMORY`].
pub fn sshsig_question(
    signature: &[u8],
    namespace: impl AsRef<[u8]>,
    message: &[u8],
) -> Result<(Question, Sha256), Status> {
    let namespace = namespace.as_ref();
    question_by(raw::raf_sshsig_question, signature, namespace, message)
}

/// The same with the digest of the message in place of the message, so that a long one need not be
/// in memory: by the hash that [`sshsig_hash`] gives. Fails with [`Status::LENGTH`] also where the
/// digest is not as long as one by that hash.
pub fn sshsig_question_of_digest(
    signature: &[u8],
    namespace: impl AsRef<[u8]>,
    digest: &[u8],
) -> Result<(Question, Sha256), Status> {
    let (call, namespace) = (raw::raf_sshsig_question_of_digest, namespace.as_ref());
    question_by(call, signature, namespace, digest)
}

/// Whether an SSH signature is one of the message in that namespace, by one of the signers, which
/// are those that you trust for it: `verify` answers its question. Fails as
/// [`check_sshsig_with_answer`] does, and of a key that may sign as [`sshsig_question`] does.
/// `verify` is not asked about another signer's key.
pub fn check_sshsig(
    signature: &[u8],
    namespace: impl AsRef<[u8]>,
    message: &[u8],
    signers: &[Sha256],
    verify: impl FnOnce(&Question) -> bool,
) -> Result<(), Status> {
    let namespace = namespace.as_ref();
    let verdict = |yes| check_sshsig_with_answer(signature, namespace, signers, yes);
    decide(verdict, || Ok(verify(&sshsig_question(signature, namespace, message)?.0)))
}

/// The same of a message with that digest. Fails as [`sshsig_question_of_digest`] and
/// [`check_sshsig`] do.
pub fn check_sshsig_of_digest(
    signature: &[u8],
    namespace: impl AsRef<[u8]>,
    digest: &[u8],
    signers: &[Sha256],
    verify: impl FnOnce(&Question) -> bool,
) -> Result<(), Status> {
    let namespace = namespace.as_ref();
    let verdict = |yes| check_sshsig_with_answer(signature, namespace, signers, yes);
    decide(verdict, || Ok(verify(&sshsig_question_of_digest(signature, namespace, digest)?.0)))
}

/// Whether an SSH signature counts in that namespace, where the keys with these fingerprints may
/// sign. `is_verified` is your answer to the question of this signature, in the namespace and of
/// the message.
///
/// Fails with [`Status::SIGNER_NOT_ALLOWED`] or [`Status::NOT_SIGNED`], the first that holds; the
/// last also for another namespace, and for reserved bytes, which ssh-keygen takes to be empty. Ask
/// with `false` first, and verify only where it fails with the last, as [`check_sshsig`] does.
/// Fails with a status from 10 to 29 where the bytes are no signature, and with [`Status::MEMORY`].
pub fn check_sshsig_with_answer(
    signature: &[u8],
    namespace: impl AsRef<[u8]>,
    signers: &[Sha256],
    is_verified: bool,
) -> Result<(), Status> {
    let (namespace, is_verified) = (namespace.as_ref(), u32::from(is_verified));
    Status::of(raw::raf_check_sshsig(signature, namespace, signers, is_verified))
}

/// A hash by which SSH signatures digest their messages.
#[derive(Clone, Copy, Debug, PartialEq, Eq, Hash)]
pub enum HashAlgorithm {
    /// SHA-256, 32 bytes.
    Sha256,
    /// SHA-512, 64 bytes.
    Sha512,
}

/// What stands in front of the strings of an SSH signature: `SSHSIG` and its version.
const FRONT: usize = 10;

/// The hash by which an SSH signature digests its message. Fails with a status from 10 to 29 where
/// the bytes are none, and with [`Status::MEMORY`].
pub fn sshsig_hash(signature: &[u8]) -> Result<HashAlgorithm, Status> {
    match &field(signature, 3)?[..] {
        b"sha256" => Ok(HashAlgorithm::Sha256),
        b"sha512" => Ok(HashAlgorithm::Sha512),
        _ => Err(Status::LABEL),
    }
}

/// The reserved bytes of an SSH signature, which are signed too. ssh-keygen writes none, and
/// `ssh-keygen -Y verify` takes them as empty, whatever they are. Fails as [`sshsig_hash`] does.
pub fn sshsig_reserved(signature: &[u8]) -> Result<Vec<u8>, Status> {
    field(signature, 2)
}

/// Of the signer's key, the namespace, the reserved bytes, the hash's name and the signature the
/// one of that number, from 0 on.
fn field(signature: &[u8], number: usize) -> Result<Vec<u8>, Status> {
    let normal = normal_sshsig(signature)?;
    let found = strings(normal.get(FRONT..).unwrap_or_default()).nth(number);
    Ok(found.transpose()?.unwrap_or_default().to_vec())
}
