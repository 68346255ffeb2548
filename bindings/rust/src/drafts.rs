//! How a certificate is made: two calls, with the signature between them.

use crate::buffers::written;
use crate::certificates::CertificateType;
use crate::raw;
use crate::status::Status;
use crate::strings::string;

/// Of how many bytes the buffer is that a draft gets at first.
const ROOM: usize = 1024;

/// Whom a certificate that is made is for.
#[derive(Clone, Copy, Debug)]
pub enum Listed<'a> {
    /// For everybody: it lists no principals.
    Everybody,
    /// For those of these names; there is at least one.
    Names(&'a [&'a str]),
}

/// What a certificate is to say. [`Draft::default`] tells none: it is refused until a key, an
/// authority, a nonce, principals and an end of its window are written.
#[derive(Clone, Copy, Debug)]
pub struct Draft<'a> {
    /// The blob of the key that is certified.
    pub key: &'a [u8],
    /// The blob of the key that is to sign.
    pub authority: &'a [u8],
    /// Random bytes of yours: 16 or 32.
    pub nonce: &'a [u8],
    /// Whom it is for.
    pub principals: Listed<'a>,
    /// Whether those are users or hosts.
    pub certificate_type: CertificateType,
    /// A text, for logs.
    pub key_id: &'a str,
    /// A number of its own, and not 0: to OpenSSH that is none, and a list of revoked keys (KRL)
    /// can't name it.
    pub serial: u64,
    /// The first second (and not millisecond) of its window, since 1970.
    pub valid_after: u64,
    /// The first second (and not millisecond) after its window, since 1970, or
    /// [`FOREVER`](crate::FOREVER).
    pub valid_before: u64,
    /// Names and values of what whoever accepts it has to know and to meet.
    pub critical_options: &'a [(&'a str, &'a str)],
    /// Names and values of what it permits.
    pub extensions: &'a [(&'a str, &'a str)],
}

impl Default for Draft<'_> {
    /// For users, but for none of them, and at no time.
    fn default() -> Self {
        Draft {
            key: &[],
            authority: &[],
            nonce: &[],
            principals: Listed::Names(&[]),
            certificate_type: CertificateType::User,
            key_id: "",
            serial: 0,
            valid_after: 0,
            valid_before: 0,
            critical_options: &[],
            extensions: &[],
        }
    }
}

/// The string of a principal. Fails with [`Status::FORMAT`] where a zero byte stands in it, and
/// with [`Status::LENGTH`] where it is too long.
fn name(principal: &&str) -> Result<Vec<u8>, Status> {
    if principal.contains('\0') {
        return Err(Status::FORMAT);
    }
    string(principal)
}

/// The principals as a certificate lists them. Fails as [`name`] does.
fn joined(principals: Listed<'_>) -> Result<Vec<u8>, Status> {
    let names = match principals {
        Listed::Everybody => &[],
        Listed::Names(names) => names,
    };
    let listed: Result<Vec<_>, _> = names.iter().map(name).collect();
    Ok(listed?.concat())
}

/// Names and values of options as a certificate lists them: by rising names. Fails with
/// [`Status::LENGTH`] where one is too long.
fn listed(options: &[(&str, &str)]) -> Result<Vec<u8>, Status> {
    let mut options = options.to_vec();
    options.sort_unstable();
    let mut bytes = Vec::new();
    for (name, value) in options {
        bytes.extend(string(name)?);
        bytes.extend(string(if value.is_empty() { Vec::new() } else { string(value)? })?);
    }
    Ok(bytes)
}

/// The bytes that the authority has to sign for the certificate that the draft tells;
/// [`join_certificate`] makes it of them and the signature. Fails where the draft tells none:
/// among others with [`Status::LENGTH`] for no nonce, [`Status::PRINCIPALS`] for an empty list,
/// [`Status::EMPTY_WINDOW`], [`Status::LABEL`] for a key that has a private-use name, and
/// [`Status::FORMAT`] for a principal with a zero byte, which sshd takes to end there, and so for
/// another user's; and with [`Status::MEMORY`].
pub fn certificate_to_be_signed(draft: &Draft<'_>) -> Result<Vec<u8>, Status> {
    if draft.nonce.is_empty() {
        return Err(Status::LENGTH);
    }
    let principals = joined(draft.principals)?;
    let critical_options = listed(draft.critical_options)?;
    let extensions = listed(draft.extensions)?;
    let given = raw::Draft {
        key: draft.key.into(),
        nonce: draft.nonce.into(),
        key_id: draft.key_id.as_bytes().into(),
        principals: principals.as_slice().into(),
        critical_options: critical_options.as_slice().into(),
        extensions: extensions.as_slice().into(),
        authority: draft.authority.into(),
        serial: draft.serial,
        valid_after: draft.valid_after,
        valid_before: draft.valid_before,
        certificate_type: draft.certificate_type as u32,
        all_principals: u32::from(matches!(draft.principals, Listed::Everybody)),
    };
    written(ROOM, |buffer, length| raw::raf_certificate_to_be_signed(&given, buffer, length))
}

/// The certificate that the signature's blob (RFC 4253, section 6.6) makes of the bytes that were
/// signed. Fails with a status from 10 to 29 where that is none, and with [`Status::MEMORY`].
/// Whether the signature is one of the authority is not asked here.
pub fn join_certificate(to_be_signed: &[u8], signature: &[u8]) -> Result<Vec<u8>, Status> {
    let enough = to_be_signed.len().saturating_add(signature.len()).saturating_add(4);
    written(enough, |buffer, length| {
        raw::raf_certificate_make(to_be_signed, signature, buffer, length)
    })
}

/// The blob of the certificate that the draft tells: [`certificate_to_be_signed`] and
/// [`join_certificate`]. In between `sign` is called with the bytes that are to be signed, and
/// gives the signature's blob: the string of the algorithm's name, and the string of what it
/// makes. Fails as these do, and as `sign` does.
pub fn make_certificate<E: From<Status>>(
    draft: &Draft<'_>,
    sign: impl FnOnce(&[u8]) -> Result<Vec<u8>, E>,
) -> Result<Vec<u8>, E> {
    let to_be_signed = certificate_to_be_signed(draft)?;
    let signature = sign(&to_be_signed)?;
    Ok(join_certificate(&to_be_signed, &signature)?)
}
