//! Who logs in by public key (RFC 4252, section 7; sshd_config(5)).

use std::net::IpAddr;

use crate::addresses::octets;
use crate::buffers::{ask, spans};
use crate::digests::Sha256;
use crate::grants::{grant_in, Grant, Refused};
use crate::questions::Question;
use crate::raw;
use crate::status::Status;

/// What a client offers in its request.
#[derive(Clone, Copy, Debug)]
pub struct Offer<'a> {
    /// Whom to log in as, in UTF-8.
    pub user: &'a [u8],
    /// The algorithm as the request names it: `rsa-sha2-512` also for a key of `ssh-rsa`. None only
    /// where somebody else verifies the signature, and does not tell it.
    pub algorithm: Option<&'a [u8]>,
    /// The blob of a key or of a certificate, as it was sent.
    pub blob: &'a [u8],
}

/// Who has seen the client's signature. There is no other way in.
#[derive(Clone, Copy, Debug)]
pub enum Signed<'a> {
    /// Nobody: it is asked about here.
    Request {
        /// The session identifier, which is the server's own (RFC 4253, section 7.2), and nothing
        /// that the client sent.
        session_id: &'a [u8],
        /// The blob of the server's own host key, and nothing that the client sent, where the
        /// method is `publickey-hostbound-v00@openssh.com`; none where it is `publickey`.
        host_key: Option<&'a [u8]>,
        /// The blob of the client's signature (RFC 4253, section 6.6).
        signature: &'a [u8],
    },
    /// Your SSH library, which has verified it under the blob's own key, for this user.
    ByTransport {
        /// The flags of a security key's signature (PROTOCOL.u2f: 1 touched, 4 verified), where it
        /// tells them. Without them a security key is let in only if neither server nor grant wants
        /// a touch or a verified user.
        flags: Option<u8>,
    },
    /// sshd, which verifies it itself and looks at its flags: for its helpers.
    BySshd,
}

/// The text of a file that the server's configuration names. Of a file that is not there it has no
/// bytes, and was read.
#[derive(Clone, Copy, Debug, PartialEq, Eq)]
pub enum Text<'a> {
    /// What stands in it. Lines need not be UTF-8.
    Read(&'a [u8]),
    /// It is there and could not be read: no text after it is asked, nor any other source.
    Unreadable,
}

/// Whom a certificate lets in that one of the authorities signed.
#[derive(Clone, Copy, Debug, PartialEq, Eq)]
pub enum Principals<'a> {
    /// The users that it lists: there is no `AuthorizedPrincipalsFile`.
    InCertificate,
    /// Those for whom these texts (the user's `AuthorizedPrincipalsFile`) have one of its names; the
    /// user need not stand there. Of the first text that has a line for a principal, the first such
    /// line decides.
    Files(&'a [Text<'a>]),
}

/// Whom a server trusts, in the order in which sshd asks.
#[derive(Clone, Copy, Debug)]
pub struct Trusted<'a> {
    /// `AuthorizedKeysFile`: each text in its turn.
    pub authorized_keys: &'a [Text<'a>],
    /// `TrustedUserCAKeys`: the fingerprints of the keys that may sign logins of all users.
    pub authorities: &'a [Sha256],
    /// Whom their certificates let in.
    pub principals: Principals<'a>,
    /// `AuthorizedKeysCommand`: what it wrote, if it ended with 0.
    pub command_keys: &'a [Text<'a>],
    /// `RevokedKeys`: what the files have, any of which revokes.
    /// [`NO_REVOCATIONS`](crate::NO_REVOCATIONS) where none is asked; an empty list refuses.
    pub revoked: &'a [&'a [u8]],
    /// `RequiredRSASize`. Below 1,024, as 0, it is 1,024.
    pub least_rsa_bits: u32,
    /// `PubkeyAuthOptions`: whether each security key has to be touched.
    pub requires_touch: bool,
    /// Likewise whether each has to verify its user.
    pub requires_verification: bool,
}

/// Where a client is, and when it asks.
#[derive(Clone, Copy, Debug)]
pub struct Place<'a> {
    /// The address of its socket, and no header of a proxy's. Without one, what asks for one lets
    /// nobody in.
    pub client: Option<IpAddr>,
    /// The name that was found for it (`UseDNS`), in UTF-8.
    pub host: Option<&'a [u8]>,
    /// Seconds since 1970.
    pub unix_timestamp: u64,
}

/// Lets in who holds the key that is offered, by itself or in a certificate, and has signed with
/// it, as sshd does by its method `publickey`, or more strictly; and says what the login is bound
/// to. The first source that lets in does so on its own terms: the texts of authorized_keys, the
/// authorities, and what a command wrote.
///
/// `verify` is your cryptography. It is asked about the authority's signature of a certificate, and
/// then about the client's, unless somebody else has verified that; and only where nothing else is
/// wrong.
///
/// Fails with what is wrong first, as `raf_log_in` of rafendilo.h says: last with
/// [`Status::NOT_SIGNED`] for the authority's signature, and [`Status::CLIENT_NOT_SIGNED`] for the
/// client's.
///
/// To keep to the grant is yours.
pub fn log_in(
    offer: &Offer<'_>,
    signed: &Signed<'_>,
    trusted: &Trusted<'_>,
    place: &Place<'_>,
    verify: impl FnMut(&Question) -> bool,
) -> Result<Grant, Refused> {
    let enough = enough_for(offer).saturating_add(signed.length().saturating_mul(2));
    with_raw(offer, signed.raw(), trusted, place, |login| {
        let asked = Asked::of_call(enough, |buffer, answer| {
            raw::raf_log_in_questions(login, buffer, answer)
        });
        match asked {
            Ok(asked) => grant(login, &asked.ticket, asked.answers(verify)),
            Err(Status::MEMORY) => Err(Status::MEMORY.into()),
            // it refuses alike, and tells the line that is the reason
            Err(status) => {
                let again = grant(login, &Sha256::default(), 0);
                Err(again.err().unwrap_or_else(|| status.into()))
            }
        }
    })
}

/// Whether what is offered lets in whoever signs with it: the answer to the query without a
/// signature (RFC 4252, section 7). `verify` is asked about the authority's signature alone. It
/// grants nothing.
///
/// Fails with what [`log_in`] fails with, but for the client's signature.
pub fn may_offer(
    offer: &Offer<'_>,
    trusted: &Trusted<'_>,
    place: &Place<'_>,
    verify: impl FnMut(&Question) -> bool,
) -> Result<(), Status> {
    with_raw(offer, raw::Signed::default(), trusted, place, |login| {
        let asked = Asked::of_call(enough_for(offer), |buffer, answer| {
            raw::raf_may_offer_questions(login, buffer, answer)
        })?;
        let answers = asked.answers(verify);
        Status::of(raw::raf_may_offer(login, &asked.ticket, answers))
    })
}

/// The bytes of a buffer for what a login is bound to; a longer one is asked for again.
const OF_GRANT: usize = 4096;

/// The bytes of a buffer for the questions about what is offered, without the client's signature.
fn enough_for(offer: &Offer<'_>) -> usize {
    offer.user.len().saturating_add(offer.blob.len()).saturating_mul(2).saturating_add(4608)
}

/// What the library says of the login, given the ticket of its questions and the answers.
fn grant(login: &raw::Login<'_>, ticket: &Sha256, answers: u32) -> Result<Grant, Refused> {
    let mut reason = raw::Grant::default();
    let said = ask(OF_GRANT, |buffer, answer: &mut raw::Grant| {
        let number = raw::raf_log_in(login, ticket, answers, buffer, answer);
        reason = *answer;
        number
    });
    let (buffer, found) = said.map_err(|status| Refused::at(status, &reason))?;
    Ok(grant_in(&buffer, &found)?)
}

/// What is asked of a login.
struct Asked {
    /// Each question with its bit, the authority's first.
    questions: Vec<(u32, Question)>,
    /// It names the questions to the library.
    ticket: Sha256,
}

impl Asked {
    /// What a call asks, which is given a buffer of that length.
    fn of_call(
        length: usize,
        call: impl FnMut(&mut [u8], &mut raw::LoginQuestions) -> u32,
    ) -> Result<Asked, Status> {
        let (buffer, answer) = ask(length, call)?;
        let both = [(raw::ASKS_AUTHORITY, answer.authority), (raw::ASKS_CLIENT, answer.client)];
        let asked = both.into_iter().filter(|(bit, _)| answer.asked & bit != 0);
        let questions =
            asked.map(|(bit, question)| Ok((bit, Question::of(buffer.clone(), question)?)));
        Ok(Asked { questions: questions.collect::<Result<_, Status>>()?, ticket: answer.ticket })
    }

    /// The bits of the questions to which the verifier says yes. After a no it is asked nothing
    /// more: so nobody verifies a signature under a key that a stranger has certified.
    fn answers(&self, mut verify: impl FnMut(&Question) -> bool) -> u32 {
        let yes = self.questions.iter().take_while(|(_, question)| verify(question));
        yes.map(|(bit, _)| bit).sum()
    }
}

impl<'a> Signed<'a> {
    /// How many bytes are told.
    fn length(&self) -> usize {
        match *self {
            Signed::Request { session_id, host_key, signature } => {
                let parts = [session_id, host_key.unwrap_or_default(), signature];
                parts.iter().fold(0, |sum: usize, it| sum.saturating_add(it.len()))
            }
            Signed::ByTransport { .. } | Signed::BySshd => 0,
        }
    }

    /// The same as the library takes it.
    fn raw(&self) -> raw::Signed<'a> {
        let none = raw::Signed::default();
        match *self {
            Signed::Request { session_id, host_key, signature } => raw::Signed {
                session_id: session_id.into(),
                host_key: host_key.unwrap_or_default().into(),
                signature: signature.into(),
                how: raw::SIGNED_REQUEST,
                has_host_key: u32::from(host_key.is_some()),
                ..none
            },
            Signed::ByTransport { flags: None } => {
                raw::Signed { how: raw::SIGNED_BY_TRANSPORT, ..none }
            }
            Signed::ByTransport { flags: Some(flags) } => {
                raw::Signed { how: raw::SIGNED_WITH_FLAGS, flags, ..none }
            }
            Signed::BySshd => raw::Signed { how: raw::SIGNED_BY_SSHD, ..none },
        }
    }
}

/// Texts as the library takes them.
fn texts<'a>(texts: &[Text<'a>]) -> Vec<raw::Text<'a>> {
    let raw = |it: &Text<'a>| match *it {
        Text::Read(text) => raw::Text { text: text.into(), is_read: 1 },
        Text::Unreadable => raw::Text::default(),
    };
    texts.iter().map(raw).collect()
}

/// What is said of the login as the library takes it.
fn with_raw<T>(
    offer: &Offer<'_>,
    signed_by: raw::Signed<'_>,
    trusted: &Trusted<'_>,
    place: &Place<'_>,
    say: impl FnOnce(&raw::Login<'_>) -> T,
) -> T {
    let (client, revoked) = (octets(place.client), spans(trusted.revoked));
    let (principals_from, principals) = match trusted.principals {
        Principals::InCertificate => (raw::PRINCIPALS_IN_CERTIFICATE, &[][..]),
        Principals::Files(texts) => (raw::PRINCIPALS_IN_FILES, texts),
    };
    let [authorized_keys, principals, command_keys] =
        [trusted.authorized_keys, principals, trusted.command_keys].map(texts);
    let trusted = raw::Trusted {
        authorized_keys: authorized_keys.as_slice().into(),
        authorities: trusted.authorities.into(),
        principals: principals.as_slice().into(),
        command_keys: command_keys.as_slice().into(),
        revoked: revoked.as_slice().into(),
        principals_from,
        least_rsa_bits: trusted.least_rsa_bits,
        requires_touch: u32::from(trusted.requires_touch),
        requires_verification: u32::from(trusted.requires_verification),
    };
    let (user, blob) = (offer.user.into(), offer.blob.into());
    let offer = raw::Offer { user, algorithm: offer.algorithm.unwrap_or_default().into(), blob };
    let (host, unix_timestamp) = (place.host.unwrap_or_default().into(), place.unix_timestamp);
    let client = client.as_slice().into();
    let place = raw::Place { client, host, unix_timestamp, ..raw::Place::default() };
    say(&raw::Login { offer, signed_by, trusted, place })
}
