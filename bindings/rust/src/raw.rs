//! The structs, the numbers and the calls of include/rafendilo.h.
//!
//! Printed by bindings/prototypes, which writes it anew: change the header, and run
//! bindings/prototypes --write.

use std::mem::size_of;

use crate::calling::{calls, expect_abi, Slice};
use crate::digests::{Sha256, Sha512};
use crate::status::{statuses, Status};

/// What raf_abi answers where the library has the structs, the calls and the statuses below.
pub const ABI: u32 = 2;

/// The end of a window that has none.
pub const FOREVER: u64 = 18446744073709551615;

/// How many bytes the text of a SHA-256 fingerprint has, as ssh-keygen shows it: "SHA256:" and 43
/// characters.
pub const FINGERPRINT_TEXT: usize = 50;

/// "SHA512:" and 86 characters.
pub const FINGERPRINT_SHA512_TEXT: usize = 93;

/// How many bytes random art has beside those of its header.
pub const RANDOM_ART_TEXT: usize = 219;

/// `RAF_ASK_DSA`.
pub const ASK_DSA: u32 = 1;

/// `RAF_ASK_P256`. With SHA-256.
pub const ASK_P256: u32 = 2;

/// `RAF_ASK_P384`. With SHA-384.
pub const ASK_P384: u32 = 3;

/// `RAF_ASK_P521`. With SHA-512.
pub const ASK_P521: u32 = 4;

/// `RAF_ASK_ED25519`.
pub const ASK_ED25519: u32 = 5;

/// `RAF_ASK_RSA_SHA256`. With SHA-256.
pub const ASK_RSA_SHA256: u32 = 6;

/// `RAF_ASK_RSA_SHA512`. With SHA-512.
pub const ASK_RSA_SHA512: u32 = 7;

/// `RAF_LINE_KEY`.
pub const LINE_KEY: u32 = 1;

/// `RAF_LINE_CERTIFICATE`.
pub const LINE_CERTIFICATE: u32 = 2;

/// `RAF_USER`.
pub const USER: u32 = 1;

/// `RAF_HOST`.
pub const HOST: u32 = 2;

/// `RAF_MARKER_NONE`.
pub const MARKER_NONE: u32 = 0;

/// `RAF_MARKER_CERT_AUTHORITY`.
pub const MARKER_CERT_AUTHORITY: u32 = 1;

/// `RAF_MARKER_REVOKED`.
pub const MARKER_REVOKED: u32 = 2;

/// `RAF_BY_AUTHORITY`. By an authority of the host, which made it a certificate.
pub const BY_AUTHORITY: u32 = 1;

/// `RAF_BY_CERTIFIED_KEY`. By the key in the certificate, as if nobody had signed it.
pub const BY_CERTIFIED_KEY: u32 = 2;

/// `RAF_SIGNED_REQUEST`. You ask here: session_id, host_key, signature.
pub const SIGNED_REQUEST: u32 = 1;

/// `RAF_SIGNED_BY_TRANSPORT`. Your SSH library verified it under the blob's own key, for this user,
/// and tells no flags.
pub const SIGNED_BY_TRANSPORT: u32 = 2;

/// `RAF_SIGNED_WITH_FLAGS`. It did, and `flags` are those of the security key's signature.
pub const SIGNED_WITH_FLAGS: u32 = 3;

/// `RAF_SIGNED_BY_SSHD`. Sshd verifies it itself and looks at its flags: for its helpers.
pub const SIGNED_BY_SSHD: u32 = 4;

/// `RAF_PRINCIPALS_IN_CERTIFICATE`. The users that it lists: no AuthorizedPrincipalsFile.
pub const PRINCIPALS_IN_CERTIFICATE: u32 = 1;

/// `RAF_PRINCIPALS_IN_FILES`. Those for whom `principals` have one of its names.
pub const PRINCIPALS_IN_FILES: u32 = 2;

/// `RAF_ASKS_AUTHORITY`.
pub const ASKS_AUTHORITY: u32 = 1;

/// `RAF_ASKS_CLIENT`.
pub const ASKS_CLIENT: u32 = 2;

/// `RAF_SOURCE_AUTHORIZED_KEYS`. A text of authorized_keys.
pub const SOURCE_AUTHORIZED_KEYS: u32 = 1;

/// `RAF_SOURCE_AUTHORITY`. An authority, by a certificate that lists the user.
pub const SOURCE_AUTHORITY: u32 = 2;

/// `RAF_SOURCE_PRINCIPALS`. An authority, by a text of principals.
pub const SOURCE_PRINCIPALS: u32 = 3;

/// `RAF_SOURCE_COMMAND`. What AuthorizedKeysCommand wrote.
pub const SOURCE_COMMAND: u32 = 4;

/// `RAF_PERMIT_PTY`.
pub const PERMIT_PTY: u32 = 1;

/// `RAF_PERMIT_PORT_FORWARDING`.
pub const PERMIT_PORT_FORWARDING: u32 = 2;

/// `RAF_PERMIT_AGENT_FORWARDING`.
pub const PERMIT_AGENT_FORWARDING: u32 = 4;

/// `RAF_PERMIT_X11_FORWARDING`.
pub const PERMIT_X11_FORWARDING: u32 = 8;

/// `RAF_PERMIT_USER_RC`.
pub const PERMIT_USER_RC: u32 = 16;

/// `RAF_PERMIT_ANY_COMMAND`. No force-command: what the client asks for, or a shell.
pub const PERMIT_ANY_COMMAND: u32 = 32;

/// `RAF_PERMIT_NO_TOUCH`. A security key that nobody touched.
pub const PERMIT_NO_TOUCH: u32 = 64;

/// `RAF_PERMIT_NO_VERIFICATION`. A security key that did not verify its user.
pub const PERMIT_NO_VERIFICATION: u32 = 128;

/// `RAF_PERMIT_TUNNELS`. Tunnels (tun(4)).
pub const PERMIT_TUNNELS: u32 = 256;

/// `RAF_PERMIT_ANY_TUNNEL`. Whichever device of them; never without RAF_PERMIT_TUNNELS.
pub const PERMIT_ANY_TUNNEL: u32 = 512;

statuses! {
    /// Malloc refused; nothing is said of the input, and nothing is kept: the call may be made
    /// again.
    MEMORY = 1, "no memory";
    /// The buffer is too short; `length` says how many bytes are needed.
    SHORT_BUFFER = 2, "the buffer is too short";
    /// Nothing is left: the place is the end, or there is no such line, option or command.
    END = 3, "nothing is left";
    /// The principal is not UTF-8, or a line of authorized_keys or known_hosts, options, a host's
    /// name, an identity, a namespace or a time; nothing is said of the rest. raf_read_line returns
    /// 11 for such a line.
    TEXT = 4, "a name or a text that is given is not UTF-8";
    /// A word of a line is no Base64, or not the one of its bytes.
    BASE64 = 10, "not Base64";
    /// A text is not UTF-8, or has a character that no name has.
    CHARACTER_ENCODING = 11, "a text that is not UTF-8";
    /// A name that is none of those that may stand there.
    LABEL = 12, "a name that may not stand there";
    /// A stated length passes the bytes, or is not the one wanted; a word of a line is missing; a
    /// digest is not as long as one by the signature's hash.
    LENGTH = 13, "a length that passes the bytes";
    /// Bytes follow the end.
    TRAILING_DATA = 14, "bytes after the end";
    /// A value does not keep the form of its kind.
    FORMAT = 15, "a value that has not the form of its kind";
    /// Two names differ that have to be one, or a point begins with 00 or 05.
    ALGORITHM_UNKNOWN = 16, "two names that have to be one";
    /// A number in a signature is not positive, or the curve of a security key is not P-256.
    CRYPTO = 17, "a number that is not positive";
    /// No encoding of a point.
    ECDSA = 18, "no encoding of a point";
    /// A time above 2^63 - 1 in the certificate.
    TIME = 19, "a time above 2^63 - 1";
    /// An empty namespace in the SSH signature.
    NAMESPACE = 20, "an empty namespace";
    /// Never returned: an error of private keys.
    PUBLIC_KEY = 21, "a public key that is not the private one's";
    /// An SSH signature of a version above 1, or a revocation list of another version than 1.
    UNSUPPORTED_VERSION = 22, "a version that is not read";
    /// Never returned.
    OTHER_ERROR = 23, "another error";
    /// An RSA signature by SHA-1, which no call reads: to them it is RAF_LENGTH. raf_read_line_blob
    /// of helpers/ tells it.
    RSA_SHA1 = 24, "signed by RSA with SHA-1";
    /// It raises no question, or `is_verified` is not 1; a signature also where it is in another
    /// namespace, or has reserved bytes.
    NOT_SIGNED = 30, "not signed";
    /// The key that signed it is none of the authorities'.
    UNTRUSTED_AUTHORITY = 31, "another authority";
    /// The time is above 2^63 - 1.
    INVALID_TIME = 32, "no time that a certificate has";
    /// It is not yet valid, or no longer.
    OUT_OF_WINDOW = 33, "not valid at that time";
    /// It lists principals, and not this one.
    UNLISTED_PRINCIPAL = 34, "another principal";
    /// Key and signature do not go together: it is not signed.
    UNSUPPORTED = 40, "key and signature do not go together";
    /// The SSH signature is for another namespace.
    OTHER_NAMESPACE = 41, "another namespace";
    /// It lists none and does not say so, or says so and lists some.
    PRINCIPALS = 45, "a list of principals against what is said of all";
    /// Its window has no second.
    EMPTY_WINDOW = 46, "a window without a second";
    /// A line for the host, or a revocation file, revokes it.
    HOST_REVOKED = 50, "revoked for the host";
    /// A line is no entry, and may be one for the host.
    HOST_UNREADABLE = 51, "a line that may revoke it and can't be read";
    /// A line for the host has another key, and none has this one.
    HOST_CHANGED = 52, "another key than the one known for the host";
    /// No line without a marker is for the host.
    HOST_UNKNOWN = 53, "no key or authority is known for the host";
    /// No line lets its key sign for the identity, there and then; or it is none of the keys that
    /// may sign.
    SIGNER_NOT_ALLOWED = 55, "no allowed signer";
    /// A revocation file or list revokes the key, the signer's, or the certificate.
    REVOKED = 56, "revoked";
    /// The client's address is none of those that are allowed.
    ELSEWHERE = 57, "from an address that is not allowed";
    /// One can't be read, or there is none: so everything is revoked.
    UNREADABLE_REVOCATIONS = 58, "the revocation file can't be read";
    /// A kind or a size of key that OpenSSH does not let in.
    KEY_NOT_ACCEPTED = 59, "a kind or a size of key that OpenSSH does not let in";
    /// The line has a key of a later kind, which signs nothing that is read: pass over it, and say
    /// so.
    LATER_KEY = 61, "a later kind of key, which is not read";
    /// Another's, or others may write it.
    UNSAFE_MODE = 62, "another's, or others may write it";
    /// Its bytes are not its normal form: not those that were signed.
    NOT_NORMAL_FORM = 70, "not in its normal form";
    /// A user shows one for hosts, or a host one for users.
    OTHER_TYPE = 71, "for hosts in place of users, or for users in place of hosts";
    /// It certifies another key than the client's.
    OTHER_KEY = 72, "another key";
    /// A critical option that is not known, or whose value sshd does not read.
    CRITICAL_OPTIONS = 73, "a critical option that is not known, or not read";
    /// Data in an extension that is a flag, or a zero byte in a name.
    EXTENSIONS = 74, "an extension that is not read";
    /// A zero byte in the key id.
    KEY_ID = 75, "a zero byte in the key id";
    /// It lists no principal, more than 256 or one with a zero byte; or the user's name is empty.
    VALID_PRINCIPALS = 76, "no principals, or some that are not read";
    /// The signed bytes are not those of this request, or its service is not ssh-connection.
    OTHER_REQUEST = 80, "signed for another request";
    /// The algorithm that the request names is not the signature's.
    OTHER_ALGORITHM = 81, "another algorithm than the request's";
    /// Nobody touched the security key, and it is wanted.
    UNTOUCHED = 82, "a security key that nobody touched";
    /// The security key did not verify its user, and it is wanted.
    UNVERIFIED = 83, "a security key that did not verify its user";
    /// It raises no question, or its answer is not yes: it is none of the key's for this request.
    CLIENT_NOT_SIGNED = 84, "not signed by the client";
    /// A touch or a verified user is wanted, and nobody tells the flags.
    NO_FLAGS = 85, "a security key whose flags nobody tells";
    /// Its bytes are none.
    NO_SIGNATURE = 86, "no signature";
    /// No line is for them, and no authority's certificate lists the user.
    USER_NOT_LISTED = 90, "no line is for the key, and no authority lists the user";
    /// Its expiry-time is over.
    LINE_EXPIRED = 91, "a line whose time is over";
    /// It has principals, and no cert-authority; of a file of principals, one of both.
    LINE_OPTION = 92, "a line with principals and without cert-authority";
    /// Its from is for other places.
    LINE_ELSEWHERE = 93, "a line for other places";
    /// Its command is another than the certificate's.
    LINE_COMMAND = 94, "a line with another command than the certificate's";
    /// The certificate lists nobody whom it lets in.
    LINE_PRINCIPALS = 95, "a line for nobody whom the certificate lists";
    /// A line may let in, and how sshd reads it cannot be told: so no other line and no other file
    /// may.
    LINE_UNCLEAR = 96, "a line that can't be told";
    /// The grant does not permit it.
    NOT_PERMITTED = 97, "the grant does not permit it";
    /// A text could not be read, and nothing before it lets in.
    TEXT_UNREADABLE = 98, "a text that could not be read";
    /// The port is 0.
    NO_PORT = 100, "port 0";
    /// The host has no bytes.
    NO_HOST = 101, "no host";
    /// It is like an address, and is none with one text: 127.1, fe80::1%eth0.
    NO_ADDRESS = 102, "a host that is like an address, and has no one text";
    /// The signer's identity has no bytes.
    NO_IDENTITY = 103, "no identity";
    /// `how` is none of RAF_SIGNED_*: nobody has seen the signature.
    UNSIGNED = 104, "nobody has seen the signature";
    /// `principals_from` is none of RAF_PRINCIPALS_*.
    NO_PRINCIPALS = 105, "not told whom authorities let in";
    /// The ticket is of other questions: ask again.
    OTHER_QUESTIONS = 106, "answers to other questions";
}

/// Bytes that a call reads; no null pointer, also where the length is 0 (raf_bytes).
pub(crate) type Span<'a> = Slice<'a, u8>;

/// Byte strings that a call reads: `count` of them, at no null pointer.
pub(crate) type Spans<'a> = Slice<'a, Span<'a>>;

/// A part of a buffer, or of other bytes: where it begins, and how many bytes it has.
#[repr(C)]
#[derive(Clone, Copy, Debug, Default)]
pub(crate) struct Part {
    /// The place of its first byte.
    pub start: usize,
    /// The number of its bytes.
    pub length: usize,
}

/// SHA-256 fingerprints of keys that a call reads: `count` of them, at no null pointer.
pub(crate) type Digests<'a> = Slice<'a, Sha256>;

/// What has to be verified: that `signature` is one of `message` under `key`, made as `algorithm`
/// says.
#[repr(C)]
#[derive(Clone, Copy, Debug, Default)]
pub(crate) struct Question {
    /// Its blob.
    pub key: Part,
    /// What is signed.
    pub message: Part,
    /// As the algorithm has it.
    pub signature: Part,
    /// How many bytes of the buffer these take.
    pub length: usize,
    /// RAF_ASK_*.
    pub algorithm: u32,
}

/// What stands in a line of a key file or of a certificate file: a blob, as the calls below take
/// it, and the comment, which may be empty.
#[repr(C)]
#[derive(Clone, Copy, Debug, Default)]
pub(crate) struct Line {
    pub blob: Part,
    pub comment: Part,
    /// How many bytes of the buffer these take.
    pub length: usize,
    /// RAF_LINE_*.
    pub kind: u32,
}

/// What a policy asks of a certificate.
#[repr(C)]
#[derive(Clone, Copy, Debug, Default)]
pub(crate) struct Fields {
    pub serial: u64,
    /// The first second of its window.
    pub valid_after: u64,
    /// The first second after its window, or RAF_FOREVER.
    pub valid_before: u64,
    /// RAF_USER or RAF_HOST.
    pub certificate_type: u32,
    /// 0 where it lists none, and so allows everybody; else 1.
    pub lists_principals: u32,
    /// 0 where it has none; else 1: refuse it unless you know each.
    pub has_critical_options: u32,
}

/// Where parts of a certificate stand in its bytes, in this order, each after its length of four
/// bytes.
#[repr(C)]
#[derive(Clone, Copy, Debug, Default)]
pub(crate) struct Parts {
    /// A text, for logs.
    pub key_id: Part,
    /// Strings: raf_next_string goes over them.
    pub principals: Part,
    /// One after the other: raf_next_certificate_option goes over them.
    pub critical_options: Part,
    /// Likewise.
    pub extensions: Part,
    /// The blob of the key that signed.
    pub authority: Part,
}

/// Where the name and the value of an option stand, and the place of the next one.
#[repr(C)]
#[derive(Clone, Copy, Debug, Default)]
pub(crate) struct CertificateOptionParts {
    pub name: Part,
    /// Of no bytes where the option has none.
    pub value: Part,
    pub next: usize,
}

/// What a certificate is to say.
#[repr(C)]
#[derive(Clone, Copy, Debug, Default)]
pub(crate) struct Draft<'a> {
    /// The blob of the key that is certified.
    pub key: Span<'a>,
    /// Random bytes of yours: 16 or 32.
    pub nonce: Span<'a>,
    /// A text, for logs.
    pub key_id: Span<'a>,
    /// Strings, one after the other: refuse a zero byte in one, since sshd takes the name to end
    /// there, and so for another user's.
    pub principals: Span<'a>,
    /// As raf_next_certificate_option reads them, with rising names.
    pub critical_options: Span<'a>,
    /// Likewise.
    pub extensions: Span<'a>,
    /// The blob of the key that is to sign.
    pub authority: Span<'a>,
    /// Not 0: to OpenSSH that is none, and no KRL can name it.
    pub serial: u64,
    /// The first second of its window, since 1970.
    pub valid_after: u64,
    /// The first second after its window, or RAF_FOREVER.
    pub valid_before: u64,
    /// RAF_USER or RAF_HOST.
    pub certificate_type: u32,
    /// 1 where it lists no principals, and so allows everybody; else 0.
    pub all_principals: u32,
}

/// An entry of a line: where its parts stand in the buffer.
#[repr(C)]
#[derive(Clone, Copy, Debug, Default)]
pub(crate) struct Entry {
    /// The options as they stand in the line, or the hosts.
    pub front: Part,
    /// The key's blob in its normal form, which fingerprints are digests of.
    pub key: Part,
    /// All that follows.
    pub comment: Part,
    /// How many bytes of the buffer these take.
    pub length: usize,
    /// RAF_MARKER_*; of authorized_keys always RAF_MARKER_NONE.
    pub marker: u32,
}

/// An option of an entry: where its parts stand in the buffer.
#[repr(C)]
#[derive(Clone, Copy, Debug, Default)]
pub(crate) struct LineOptionParts {
    /// As it stands in the line: letters are compared without case.
    pub name: Part,
    /// Without its quotes, and without each backslash before a quote.
    pub value: Part,
    /// How many bytes of the buffer these take.
    pub length: usize,
    /// The place of the next option.
    pub next: usize,
    /// 0 where there is no value; else 1.
    pub has_value: u32,
}

/// The host that a client connects to, and what is known of it.
#[repr(C)]
#[derive(Clone, Copy, Debug, Default)]
pub(crate) struct HostLogin<'a> {
    /// The texts of all the files that count: one file alone may list a key that another one
    /// revokes.
    pub known_hosts: Spans<'a>,
    /// The name or address as the user typed it, without brackets; UTF-8.
    pub host: Span<'a>,
    /// Revocation files (RevokedHostKeys), each a list or keys as text: any of them revokes.
    pub revoked: Spans<'a>,
    /// Asked of certificates alone.
    pub unix_timestamp: u64,
    /// As RequiredRSASize; below 1,024, as 0, it is 1,024.
    pub least_rsa_bits: u32,
    /// Not 0.
    pub port: u16,
}

/// A line of a text of known_hosts that is held, to be asked again and again.
#[repr(C)]
#[derive(Clone, Copy, Debug, Default)]
pub(crate) struct LinePlace {
    /// How many bytes the line has, with its end.
    pub length: usize,
    /// For which names it may be.
    pub names: u64,
}

/// The seconds since 1970 that a time may mean: from one to the other.
#[repr(C)]
#[derive(Clone, Copy, Debug, Default)]
pub(crate) struct TimeSpan {
    /// At least 1.
    pub first: u64,
    /// The first one if the time names its zone.
    pub last: u64,
}

/// Where a host stands in a text, without brackets, and its port, if one stands there.
#[repr(C)]
#[derive(Clone, Copy, Debug, Default)]
pub(crate) struct Destination {
    pub host: Part,
    /// 0 where none stands there: take the one that you would ask else.
    pub port: u16,
}

/// What a client offers in its request.
#[repr(C)]
#[derive(Clone, Copy, Debug, Default)]
pub(crate) struct Offer<'a> {
    /// Whom to log in as; UTF-8.
    pub user: Span<'a>,
    /// As the request names it: rsa-sha2-512 also for a key of ssh-rsa.
    pub algorithm: Span<'a>,
    /// Of a key or of a certificate, as it was sent.
    pub blob: Span<'a>,
}

/// `raf_signed`.
#[repr(C)]
#[derive(Clone, Copy, Debug, Default)]
pub(crate) struct Signed<'a> {
    /// The server's own, and nothing that the client sent.
    pub session_id: Span<'a>,
    /// The blob of the server's own host key, and nothing that the client sent, if has_host_key is
    /// not 0.
    pub host_key: Span<'a>,
    /// The blob of the client's signature (RFC 4253, section 6.6).
    pub signature: Span<'a>,
    /// RAF_SIGNED_*.
    pub how: u32,
    /// 0: the method is publickey; else publickey-hostbound-v00@openssh.com.
    pub has_host_key: u32,
    /// PROTOCOL.u2f: 1 touched, 4 verified.
    pub flags: u8,
}

/// The text of a file that the server's configuration names.
#[repr(C)]
#[derive(Clone, Copy, Debug, Default)]
pub(crate) struct Text<'a> {
    /// Lines need not be UTF-8.
    pub text: Span<'a>,
    /// 1 where it was read.
    pub is_read: u32,
}

/// `raf_texts`.
pub(crate) type Texts<'a> = Slice<'a, Text<'a>>;

/// Whom a server trusts, in the order in which sshd asks.
#[repr(C)]
#[derive(Clone, Copy, Debug, Default)]
pub(crate) struct Trusted<'a> {
    /// AuthorizedKeysFile: each text in its turn.
    pub authorized_keys: Texts<'a>,
    /// TrustedUserCAKeys: the keys that may sign logins of all users.
    pub authorities: Digests<'a>,
    /// AuthorizedPrincipalsFile of this user, who need not stand there: of the first text that has
    /// a line for a principal, the first such line decides.
    pub principals: Texts<'a>,
    /// AuthorizedKeysCommand: what it wrote, if it ended with 0.
    pub command_keys: Texts<'a>,
    /// RevokedKeys: each a list or keys as text; any of them revokes.
    pub revoked: Spans<'a>,
    /// RAF_PRINCIPALS_*.
    pub principals_from: u32,
    /// RequiredRSASize; below 1,024, as 0, it is 1,024.
    pub least_rsa_bits: u32,
    /// PubkeyAuthOptions: not 0 where each security key has to be touched.
    pub requires_touch: u32,
    /// Likewise where each has to verify its user.
    pub requires_verification: u32,
}

/// Where a client is, and when it asks.
#[repr(C)]
#[derive(Clone, Copy, Debug, Default)]
pub(crate) struct Place<'a> {
    /// The address of its socket, of 4 or 16 bytes; with any other number of bytes it is not known,
    /// and what asks for one lets nobody in.
    pub client: Span<'a>,
    /// The name that was found for it (UseDNS), or of no bytes; UTF-8.
    pub host: Span<'a>,
    /// Seconds since 1970.
    pub unix_timestamp: u64,
    /// 1: sshd checks source-address itself, as before 9.4, which tells its programs no address.
    pub caller_checks_address: u32,
}

/// A login by public key.
#[repr(C)]
#[derive(Clone, Copy, Debug, Default)]
pub(crate) struct Login<'a> {
    pub offer: Offer<'a>,
    pub signed_by: Signed<'a>,
    pub trusted: Trusted<'a>,
    pub place: Place<'a>,
}

/// What has to be verified of a login.
#[repr(C)]
#[derive(Clone, Copy, Debug, Default)]
pub(crate) struct LoginQuestions {
    /// About the signature of the certificate, with RAF_ASKS_AUTHORITY.
    pub authority: Question,
    /// About the client's, with RAF_ASKS_CLIENT; all zero where not asked.
    pub client: Question,
    /// How many bytes of the buffer both take.
    pub length: usize,
    /// Names these questions to raf_log_in.
    pub ticket: Sha256,
    /// RAF_ASKS_*: a sum; 0 where nothing is left to verify.
    pub asked: u32,
}

/// What a login is let in by, and what it may do.
#[repr(C)]
#[derive(Clone, Copy, Debug, Default)]
pub(crate) struct Grant {
    /// To be shown: the command that is forced.
    pub force_command: Part,
    /// The certificate's, a text for logs; of a plain key no bytes.
    pub key_id: Part,
    /// Where ports may be forwarded, which raf_may_open reads: strings (raf_next_string), two each:
    /// a host, and a port of two bytes, big-endian, or of none for any port.
    pub permit_open: Part,
    /// Likewise where may be listened, which raf_may_listen reads.
    pub permit_listen: Part,
    /// Strings NAME=VALUE (raf_next_string); by its defaults sshd sets none.
    pub environment: Part,
    /// How many bytes of the buffer these take.
    pub length: usize,
    /// The number of the line that lets in, from 1; 0 where the certificate alone does.
    pub line: usize,
    /// The number of its text among its like, from 0.
    pub text: usize,
    /// The certificate's; of a plain key 0.
    pub serial: u64,
    /// The last second at which the line counts; UINT64_MAX at any.
    pub expires: TimeSpan,
    /// Of the key that signed the certificate; of a plain key zero.
    pub authority: Sha256,
    /// Of the plain key, also of one in a certificate: a server that wants two methods in a row
    /// refuses a key that was taken before.
    pub key: Sha256,
    /// RAF_PERMIT_*.
    pub permits: u32,
    /// With RAF_PERMIT_TUNNELS alone the only device of tun(4); 0x7fffffff is the "any" that a
    /// client asks for.
    pub tunnel: u32,
    /// RAF_SOURCE_*; of a refusal 91 to 96 or 98 that of its text, else 0.
    pub source: u32,
}

// the layout that the library was built for
const _: () = assert!(size_of::<usize>() == 8);
const _: () = assert!(size_of::<Part>() == 16);
const _: () = assert!(size_of::<Sha256>() == 32);
const _: () = assert!(size_of::<Sha512>() == 64);
const _: () = assert!(size_of::<Line>() == 48);
const _: () = assert!(size_of::<Question>() == 64);
const _: () = assert!(size_of::<Fields>() == 40);
const _: () = assert!(size_of::<Parts>() == 80);
const _: () = assert!(size_of::<CertificateOptionParts>() == 40);
const _: () = assert!(size_of::<Span>() == 16);
const _: () = assert!(size_of::<Spans>() == 16);
const _: () = assert!(size_of::<Digests>() == 16);
const _: () = assert!(size_of::<Draft>() == 144);
const _: () = assert!(size_of::<HostLogin>() == 64);
const _: () = assert!(size_of::<LinePlace>() == 16);
const _: () = assert!(size_of::<Entry>() == 64);
const _: () = assert!(size_of::<LineOptionParts>() == 56);
const _: () = assert!(size_of::<TimeSpan>() == 16);
const _: () = assert!(size_of::<Destination>() == 24);
const _: () = assert!(size_of::<Offer>() == 48);
const _: () = assert!(size_of::<Signed>() == 64);
const _: () = assert!(size_of::<Text>() == 24);
const _: () = assert!(size_of::<Texts>() == 16);
const _: () = assert!(size_of::<Trusted>() == 96);
const _: () = assert!(size_of::<Place>() == 48);
const _: () = assert!(size_of::<Login>() == 256);
const _: () = assert!(size_of::<LoginQuestions>() == 176);
const _: () = assert!(size_of::<Grant>() == 208);

calls! {
    []
    fn raf_version();
    fn raf_abi();
}

calls! {
    [expect_abi();]
    fn raf_read_line(line: &[u8], buffer: &mut [u8], answer: &mut Line);
    fn raf_is_later_key_line(line: &[u8]);
    fn raf_names_later_kind(bytes: &[u8]);
    fn raf_authority(line: &[u8], answer: &mut Sha256);
    fn raf_user_authority(line: &[u8], user: &[u8], answer: &mut Sha256);
    fn raf_may_verify(key: &[u8]);
    fn raf_check_safe_mode(owner: u64, user: u64, mode: u32);
    fn raf_certificate_question(certificate: &[u8], buffer: &mut [u8], answer: &mut Question);
    fn raf_check_certificate(
        certificate: &[u8], unix_timestamp: u64, authorities: &[Sha256], is_verified: u32
    );
    fn raf_check_certificate_for(
        certificate: &[u8], unix_timestamp: u64, principal: &[u8], authorities: &[Sha256],
        is_verified: u32
    );
    fn raf_certificate_fields(certificate: &[u8], answer: &mut Fields);
    fn raf_certificate_parts(certificate: &[u8], answer: &mut Parts);
    fn raf_next_certificate_option(bytes: &[u8], place: usize, answer: &mut CertificateOptionParts);
    fn raf_certificate_key(certificate: &[u8], buffer: &mut [u8], length: &mut usize);
    fn raf_certificate_to_be_signed(draft: &Draft<'_>, buffer: &mut [u8], length: &mut usize);
    fn raf_certificate_make(
        to_be_signed: &[u8], signature: &[u8], buffer: &mut [u8], length: &mut usize
    );
    fn raf_fingerprint(key: &[u8], answer: &mut Sha256);
    fn raf_fingerprint_text(digest: &Sha256, buffer: &mut [u8]);
    fn raf_fingerprint_sha512(key: &[u8], answer: &mut Sha512);
    fn raf_fingerprint_sha512_text(digest: &Sha512, buffer: &mut [u8]);
    fn raf_random_art(digest: &Sha256, header: &[u8], buffer: &mut [u8], length: &mut usize);
    fn raf_signature_question(
        key: &[u8], message: &[u8], signature: &[u8], buffer: &mut [u8], answer: &mut Question
    );
    fn raf_read_armour(text: &[u8], buffer: &mut [u8], length: &mut usize);
    fn raf_sshsig_question(
        signature: &[u8], name_space: &[u8], message: &[u8], buffer: &mut [u8],
        answer: &mut Question, signer: &mut Sha256
    );
    fn raf_sshsig_question_of_digest(
        signature: &[u8], name_space: &[u8], digest: &[u8], buffer: &mut [u8],
        answer: &mut Question, signer: &mut Sha256
    );
    fn raf_check_sshsig(signature: &[u8], name_space: &[u8], signers: &[Sha256], is_verified: u32);
    fn raf_check_signer(
        signers: &[u8], identity: &[u8], name_space: &[u8], signature: &[u8], unix_timestamp: u64,
        revoked: &[Span<'_>], is_verified: u32
    );
    fn raf_key_normal(key: &[u8], buffer: &mut [u8], length: &mut usize);
    fn raf_certificate_normal(certificate: &[u8], buffer: &mut [u8], length: &mut usize);
    fn raf_sshsig_normal(signature: &[u8], buffer: &mut [u8], length: &mut usize);
    fn raf_signature_normal(signature: &[u8], buffer: &mut [u8], length: &mut usize);
    fn raf_next_string(bytes: &[u8], place: usize, answer: &mut Part);
    fn raf_check_unrevoked_key(revoked: &[Span<'_>], key: &[u8]);
    fn raf_check_unrevoked_certificate(revoked: &[Span<'_>], certificate: &[u8]);
    fn raf_check_unrevoked_key_by_krl(krl: &[u8], key: &[u8]);
    fn raf_check_unrevoked_certificate_by_krl(krl: &[u8], certificate: &[u8]);
    fn raf_next_line(text: &[u8], place: usize, answer: &mut Part);
    fn raf_authorized_entry(line: &[u8], buffer: &mut [u8], answer: &mut Entry);
    fn raf_known_host(line: &[u8], buffer: &mut [u8], answer: &mut Entry);
    fn raf_next_line_option(
        options: &[u8], place: usize, buffer: &mut [u8], answer: &mut LineOptionParts
    );
    fn raf_line_may_name_key(line: &[u8], key: &[u8]);
    fn raf_line_may_name_authority(line: &[u8], certificate: &[u8]);
    fn raf_check_host_key(login: &HostLogin<'_>, key: &[u8]);
    fn raf_check_host_certificate(
        login: &HostLogin<'_>, certificate: &[u8], is_verified: u32, known_by: &mut u32
    );
    fn raf_place_hosts(known_hosts: &[u8], places: &mut [LinePlace], count: &mut usize);
    fn raf_check_held_host_key(
        login: &HostLogin<'_>, held: &[u8], places: &[LinePlace], key: &[u8]
    );
    fn raf_check_held_host_certificate(
        login: &HostLogin<'_>, held: &[u8], places: &[LinePlace], certificate: &[u8],
        is_verified: u32, known_by: &mut u32
    );
    fn raf_unreadable_host_line(known_hosts: &[u8], host: &[u8], port: u16, number: &mut usize);
    fn raf_check_source_address(list: &[u8], address: &[u8]);
    fn raf_check_from(list: &[u8], host: &[u8], address: &[u8]);
    fn raf_read_time(text: &[u8], answer: &mut TimeSpan);
    fn raf_host_and_port(text: &[u8], answer: &mut Destination);
    fn raf_log_in_questions(login: &Login<'_>, buffer: &mut [u8], answer: &mut LoginQuestions);
    fn raf_log_in(
        login: &Login<'_>, ticket: &Sha256, answers: u32, buffer: &mut [u8], answer: &mut Grant
    );
    fn raf_may_offer_questions(login: &Login<'_>, buffer: &mut [u8], answer: &mut LoginQuestions);
    fn raf_may_offer(login: &Login<'_>, ticket: &Sha256, answers: u32);
    fn raf_may_open(grant: &Grant, buffer: &[u8], host: &[u8], port: u32);
    fn raf_may_listen(grant: &Grant, buffer: &[u8], host: &[u8], port: u32);
    fn raf_runs(
        grant: &Grant, granted: &[u8], asked: &[u8], asks_command: u32, buffer: &mut [u8],
        length: &mut usize
    );
}
