//! Whether an SSH signature counts, by a text of allowed signers.

use crate::buffers::spans;
use crate::questions::{decide, Question};
use crate::raw;
use crate::sshsigs::sshsig_question_of_digest;
use crate::status::Status;

/// By whom a signature has to be, as `ssh-keygen -Y verify` asks, or more strictly: a time without
/// `Z` in the text, which is of the machine's zone there, has to hold in every zone here.
#[derive(Clone, Copy, Debug)]
pub struct Signers<'a> {
    /// That of a file of allowed signers.
    pub text: &'a [u8],
    /// One of those whom it names.
    pub identity: &'a [u8],
    /// When the key has to be allowed, in seconds since 1970.
    pub unix_timestamp: u64,
    /// The revocation files, as `ssh-keygen -Y verify -r` asks one: any of them revokes.
    /// [`NO_REVOCATIONS`](crate::NO_REVOCATIONS) where none is asked; an empty list refuses.
    pub revoked: &'a [&'a [u8]],
}

/// Whether an SSH signature (what `read_armour` gives), of a message with that
/// digest and in that namespace, counts as the identity's by the allowed signers. `verify` is your
/// cryptography, which is not asked about a key that may not sign.
///
/// Fails as [`check_signer_with_answer`] does, and as [`sshsig_question_of_digest`] does of a key
/// that may sign.
pub fn check_signer_of_digest(
    signature: &[u8],
    namespace: impl AsRef<[u8]>,
    digest: &[u8],
    by: &Signers<'_>,
    verify: impl FnOnce(&Question) -> bool,
) -> Result<(), Status> {
    let namespace = namespace.as_ref();
    let verdict = |yes| check_signer_with_answer(signature, namespace, by, yes);
    decide(verdict, || Ok(verify(&sshsig_question_of_digest(signature, namespace, digest)?.0)))
}

/// Whether an SSH signature counts as the identity's in that namespace, by a text of allowed
/// signers, at that second, as `ssh-keygen -Y verify` says, or more strictly (docs/SIGNED-FILE.md),
/// but for times without `Z` ([`Signers`]). `is_verified` is your answer to the question of this
/// signature, in the namespace and of the message.
///
/// Fails with [`Status::NO_IDENTITY`], [`Status::SIGNER_NOT_ALLOWED`],
/// [`Status::UNREADABLE_REVOCATIONS`], [`Status::REVOKED`] or [`Status::NOT_SIGNED`], the first
/// that holds: ask with `false` first, and verify only where it fails with the last, as
/// [`check_signer_of_digest`] does. Fails with a status from 10 to 29 where the bytes are no
/// signature, with [`Status::TEXT`] where the identity or the namespace is not UTF-8, and with [`Status::MEMORY`].
pub fn check_signer_with_answer(
    signature: &[u8],
    namespace: impl AsRef<[u8]>,
    by: &Signers<'_>,
    is_verified: bool,
) -> Result<(), Status> {
    Status::of(raw::raf_check_signer(
        by.text,
        by.identity,
        namespace.as_ref(),
        signature,
        by.unix_timestamp,
        &spans(by.revoked),
        u32::from(is_verified),
    ))
}
