//! Lines of authorized_keys and known_hosts.

use std::iter::FusedIterator;

use crate::buffers::ask;
use crate::raw;
use crate::status::Status;

/// The lines of a text that may be entries, lent of it.
#[derive(Clone, Debug)]
#[must_use = "an iterator asks nothing until it is asked"]
pub struct EntryLines<'a> {
    text: &'a [u8],
    place: usize,
}

/// The lines of a text of authorized_keys or known_hosts that may be entries: those that are
/// neither empty nor a comment, without the spaces and tabs at their front and without their ends.
pub fn entry_lines(text: &[u8]) -> EntryLines<'_> {
    EntryLines { text, place: 0 }
}

impl<'a> Iterator for EntryLines<'a> {
    type Item = &'a [u8];

    fn next(&mut self) -> Option<Self::Item> {
        let mut part = raw::Part::default();
        match Status::of(raw::raf_next_line(self.text, self.place, &mut part)) {
            Ok(()) => {
                self.place = part.end();
                Some(part.of(self.text))
            }
            Err(Status::END) => None,
            // to end here would pass over lines
            Err(status) => panic!("raf_next_line has no answer {status:?}"),
        }
    }
}

impl FusedIterator for EntryLines<'_> {}

/// An entry of authorized_keys.
#[derive(Clone, Debug, PartialEq, Eq)]
pub struct AuthorizedEntry {
    /// The options as they stand in the line; [`line_options`] takes them apart.
    pub options: Vec<u8>,
    /// The key's blob in its normal form.
    pub key: Vec<u8>,
    /// All that follows.
    pub comment: Vec<u8>,
}

/// The entry of a line of authorized_keys, as sshd reads it. Fails with a status from 10 to 29
/// where the line is none, with [`Status::TEXT`] where it is not UTF-8, and with
/// [`Status::MEMORY`].
///
/// It shows a line, and decides nothing: whom a text lets in,
/// [`log_in`](crate::log_in) says.
pub fn authorized_entry(line: &[u8]) -> Result<AuthorizedEntry, Status> {
    let (buffer, found) =
        ask(line.len(), |buffer, answer| raw::raf_authorized_entry(line, buffer, answer))?;
    Ok(AuthorizedEntry {
        options: found.front.of(&buffer).to_vec(),
        key: found.key.of(&buffer).to_vec(),
        comment: found.comment.of(&buffer).to_vec(),
    })
}

/// What stands before an entry of known_hosts.
#[derive(Clone, Copy, Debug, PartialEq, Eq, Hash)]
#[repr(u32)]
pub enum Marker {
    /// Nothing.
    None = raw::MARKER_NONE,
    /// `@cert-authority`
    CertAuthority = raw::MARKER_CERT_AUTHORITY,
    /// `@revoked`
    Revoked = raw::MARKER_REVOKED,
}

/// An entry of known_hosts.
#[derive(Clone, Debug, PartialEq, Eq)]
pub struct KnownHost {
    /// What stands before it.
    pub marker: Marker,
    /// The hosts as they stand in the line.
    pub hosts: Vec<u8>,
    /// The key's blob in its normal form.
    pub key: Vec<u8>,
    /// All that follows.
    pub comment: Vec<u8>,
}

/// The entry of a line of known_hosts, as ssh reads it. Fails as [`authorized_entry`] does, also
/// where the line may be a revocation: [`check_host_key`](crate::check_host_key) checks the key of
/// a host by whole texts.
pub fn known_host(line: &[u8]) -> Result<KnownHost, Status> {
    let (buffer, found) =
        ask(line.len(), |buffer, answer| raw::raf_known_host(line, buffer, answer))?;
    let markers = [Marker::None, Marker::CertAuthority, Marker::Revoked];
    let marker = markers.iter().copied().find(|it| *it as u32 == found.marker);
    Ok(KnownHost {
        marker: marker.ok_or(Status::OTHER_ERROR)?,
        hosts: found.front.of(&buffer).to_vec(),
        key: found.key.of(&buffer).to_vec(),
        comment: found.comment.of(&buffer).to_vec(),
    })
}

/// An option of an entry of authorized_keys.
#[derive(Clone, Debug, PartialEq, Eq)]
pub struct LineOption {
    /// Its name as it stands in the line. Compare names without case.
    pub name: Vec<u8>,
    /// Its value, if it has one, without its quotes.
    pub value: Option<Vec<u8>>,
}

/// The bytes of a buffer for an option; a longer one is asked for again.
const OF_OPTION: usize = 256;

/// The options of an entry of authorized_keys. Fails with [`Status::FORMAT`] where the text is no
/// list of options, also after its first ones, with [`Status::TEXT`] where it is not UTF-8, and
/// with [`Status::MEMORY`].
///
/// What they say of a login, [`log_in`](crate::log_in) decides.
pub fn line_options(text: &[u8]) -> Result<Vec<LineOption>, Status> {
    let (mut options, mut place) = (Vec::new(), 0);
    loop {
        let asked =
            ask(OF_OPTION, |buffer, answer| raw::raf_next_line_option(text, place, buffer, answer));
        let (buffer, found) = match asked {
            Ok(it) => it,
            Err(Status::END) => return Ok(options),
            Err(status) => return Err(status),
        };
        let value = found.value.of(&buffer);
        let name = found.name.of(&buffer).to_vec();
        options.push(LineOption { name, value: (found.has_value != 0).then(|| value.to_vec()) });
        place = found.next;
    }
}

/// Whether sshd may take a line of authorized_keys for one of the key, given as its blob, whatever
/// it makes of the line's options: for a program that has sshd check lines. Leave out none but
/// those for which it is `Ok(false)`. Fails with a status from 10 to 29 where the bytes are no key,
/// and with [`Status::MEMORY`].
pub fn line_may_name_key(line: &[u8], key: &[u8]) -> Result<bool, Status> {
    may_be(raw::raf_line_may_name_key(line, key))
}

/// The same of the authority that signed the certificate, given as its blob.
pub fn line_may_name_authority(line: &[u8], certificate: &[u8]) -> Result<bool, Status> {
    may_be(raw::raf_line_may_name_authority(line, certificate))
}

fn may_be(answer: u32) -> Result<bool, Status> {
    match Status::of(answer) {
        Ok(()) => Ok(true),
        Err(Status::END) => Ok(false),
        Err(status) => Err(status),
    }
}

/// Whether a file or a folder may be believed about a user, as by `StrictModes` of sshd: root or
/// the user owns it, and neither group nor others may write. The numbers are those of stat(2); the
/// user 0 is root.
#[must_use]
pub fn is_safe_mode(owner: u64, user: u64, mode: u32) -> bool {
    Status::of(raw::raf_check_safe_mode(owner, user, mode)).is_ok()
}
