/* rafendilo.h: certificates, signatures, keys, revocation lists, authorized_keys and known_hosts of
 * OpenSSH, for C and whoever calls C.
 *
 * Cryptography is yours. A check is two calls with your verification between them:
 *
 *   1. raf_certificate_question says what has to be verified: an algorithm, a key, a message and
 *      a signature.
 *   2. You verify that with a library of yours.
 *   3. raf_check_certificate and .._for say whether the certificate is valid, given what you
 *      found, or what is wrong with it first.
 *
 * A login is such a check too: raf_log_in_questions, and raf_log_in. Of an SSH signature
 * (`ssh-keygen -Y sign`) raf_sshsig_question asks, or the same with the digest of the message.
 * Whether it counts, raf_check_sshsig says by the keys that you trust for its namespace, and
 * raf_check_signer by a file of allowed signers.
 *
 * What you owe, which nothing checks:
 *
 *  - Both calls get the SAME certificate or signature, with no byte changed in between, and
 *    `is_verified` is what your verification said of the question of that one.
 *  - No pointer is null, also where the length beside it is 0: raf_bytes(p) below gives one that
 *    may be passed.
 *  - A length is the true one: that many bytes, all initialised, lie at the pointer, in one
 *    object, and at most PTRDIFF_MAX of them.
 *  - What a call writes (buffer, answer, ..: the pointers without const) overlaps no other
 *    argument of the call, is initialised (zero it once), and nobody else reads or writes it during
 *    the call. What it only reads may overlap, and nobody writes it during the call.
 *  - malloc, realloc and free come from one allocator, and no call is made from a signal handler or
 *    from the forked child of a process with threads.
 *
 * In return no call keeps a pointer or hands one out, and there is no state: threads may call at
 * once. No call writes more than `buffer_length` bytes to a buffer. All that a call tells lies in
 * the buffer, from its front on, one part after the other in the order in which the answer names
 * them, and a part is a place and a number of bytes. Where the buffer is too short, the call
 * returns RAF_SHORT_BUFFER, leaves the buffer as it was, and sets `length` to the number of bytes
 * that are needed, so a buffer of 0 bytes asks for that number; do not rely on the other fields of
 * `*answer` then. (The text of a fingerprint has a fixed length, so its calls set none.) Every
 * other return value but RAF_DONE leaves the buffer, `*answer` and `*length` as they were; but a
 * grant and `*known_by` are zero then. `*signer` is written with RAF_DONE alone.
 */
#ifndef RAFENDILO_H
#define RAFENDILO_H

#include <stddef.h>
#include <stdint.h>

/* The version of this header, as raf_version tells that of the library: 300 is 0.3.0. */
#define RAF_VERSION 300

/* What raf_abi answers where the library has the structs, the calls and the statuses below. */
#define RAF_ABI 2

#ifdef __cplusplus
extern "C" {
#endif

/* ---- which library it is --------------------------------------------------------------------- */

/* The version of the library: the first of its three numbers by 10,000, the second by 100, and the
 * third. Takes no memory. */
uint32_t raf_version(void);

/* The number of its ABI, with which its name ends: librafendilo.so.2. It stays while calls and
 * statuses are only added; where it is not RAF_ABI, make no other call. A program that is linked
 * with the library need not ask: its linker and its loader do. Takes no memory. */
uint32_t raf_abi(void);

/* ---- what calls return ----------------------------------------------------------------------- */

/* What a call returns. */
enum {
  RAF_DONE = 0,         /* done; of a check: all is good, and of revocations that nothing revokes
                           it */
  RAF_MEMORY = 1,       /* malloc refused; nothing is said of the input, and nothing is kept: the
                           call may be made again */
  RAF_SHORT_BUFFER = 2, /* the buffer is too short; `length` says how many bytes are needed */
  RAF_END = 3,          /* nothing is left: the place is the end, or there is no such line, option
                           or command */
  RAF_TEXT = 4,         /* the principal is not UTF-8, or a line of authorized_keys or known_hosts,
                           options, a host's name, an identity, a namespace or a time; nothing is
                           said of the rest. raf_read_line returns 11 for such a line */

  /* 10 to 29: the bytes are no certificate, key, signature or revocation list, which is the first
   * error from the left; or the line is none, which is an error that it has. For logs: lines with
   * one error may return different statuses */
  RAF_BASE64 = 10,              /* a word of a line is no Base64, or not the one of its bytes */
  RAF_CHARACTER_ENCODING = 11,  /* a text is not UTF-8, or has a character that no name has */
  RAF_LABEL = 12,               /* a name that is none of those that may stand there */
  RAF_LENGTH = 13,              /* a stated length passes the bytes, or is not the one wanted; a
                                   word of a line is missing; a digest is not as long as one by the
                                   signature's hash */
  RAF_TRAILING_DATA = 14,       /* bytes follow the end */
  RAF_FORMAT = 15,              /* a value does not keep the form of its kind */
  RAF_ALGORITHM_UNKNOWN = 16,   /* two names differ that have to be one, or a point begins with 00
                                   or 05 */
  RAF_CRYPTO = 17,              /* a number in a signature is not positive, or the curve of a
                                   security key is not P-256 */
  RAF_ECDSA = 18,               /* no encoding of a point */
  RAF_TIME = 19,                /* a time above 2^63 - 1 in the certificate */
  RAF_NAMESPACE = 20,           /* an empty namespace in the SSH signature */
  RAF_PUBLIC_KEY = 21,          /* never returned: an error of private keys */
  RAF_UNSUPPORTED_VERSION = 22, /* an SSH signature of a version above 1, or a revocation list of
                                   another version than 1 */
  RAF_OTHER_ERROR = 23,         /* never returned */
  RAF_RSA_SHA1 = 24,            /* an RSA signature by SHA-1, which no call reads: to them it is
                                   RAF_LENGTH. raf_read_line_blob of helpers/ tells it */

  /* 30 to 34: what is wrong with a certificate that is not valid; the first of these */
  RAF_NOT_SIGNED = 30,          /* it raises no question, or `is_verified` is not 1; a signature
                                   also where it is in another namespace, or has reserved bytes */
  RAF_UNTRUSTED_AUTHORITY = 31, /* the key that signed it is none of the authorities' */
  RAF_INVALID_TIME = 32,        /* the time is above 2^63 - 1 */
  RAF_OUT_OF_WINDOW = 33,       /* it is not yet valid, or no longer */
  RAF_UNLISTED_PRINCIPAL = 34,  /* it lists principals, and not this one */

  /* there is nothing to verify */
  RAF_UNSUPPORTED = 40,     /* key and signature do not go together: it is not signed */
  RAF_OTHER_NAMESPACE = 41, /* the SSH signature is for another namespace */

  /* a draft of a certificate contradicts itself */
  RAF_PRINCIPALS = 45,   /* it lists none and does not say so, or says so and lists some */
  RAF_EMPTY_WINDOW = 46, /* its window has no second */

  /* 50 to 53: a host's key is not trusted; the first of these that holds */
  RAF_HOST_REVOKED = 50,    /* a line for the host, or a revocation file, revokes it */
  RAF_HOST_UNREADABLE = 51, /* a line is no entry, and may be one for the host */
  RAF_HOST_CHANGED = 52,    /* a line for the host has another key, and none has this one */
  RAF_HOST_UNKNOWN = 53,    /* no line without a marker is for the host */

  /* 55, 58, 56, and then 30: a signature does not count; the first of these that holds */
  RAF_SIGNER_NOT_ALLOWED = 55, /* no line lets its key sign for the identity, there and then; or it
                                  is none of the keys that may sign */
  RAF_REVOKED = 56,            /* a revocation file or list revokes the key, the signer's, or the
                                  certificate */

  RAF_ELSEWHERE = 57, /* the client's address is none of those that are allowed */

  /* of revocation files */
  RAF_UNREADABLE_REVOCATIONS = 58, /* one can't be read, or there is none: so everything is
                                      revoked */

  RAF_KEY_NOT_ACCEPTED = 59, /* a kind or a size of key that OpenSSH does not let in */

  RAF_LATER_KEY = 61,   /* the line has a key of a later kind, which signs nothing that is read:
                           pass over it, and say so. Of bytes that name such a kind the calls say 10
                           to 29, and raf_names_later_kind tells it */
  RAF_UNSAFE_MODE = 62, /* another's, or others may write it */

  /* 70 to 76, with 59 after 72: a certificate that lets nobody in, whoever signed it; the first of
   * these */
  RAF_NOT_NORMAL_FORM = 70,  /* its bytes are not its normal form: not those that were signed */
  RAF_OTHER_TYPE = 71,       /* a user shows one for hosts, or a host one for users */
  RAF_OTHER_KEY = 72,        /* it certifies another key than the client's */
  RAF_CRITICAL_OPTIONS = 73, /* a critical option that is not known, or whose value sshd does not
                                read */
  RAF_EXTENSIONS = 74,       /* data in an extension that is a flag, or a zero byte in a name */
  RAF_KEY_ID = 75,           /* a zero byte in the key id */
  RAF_VALID_PRINCIPALS = 76, /* it lists no principal, more than 256 or one with a zero byte; or the
                                user's name is empty */

  /* 80 to 86: a client's signature that does not count */
  RAF_OTHER_REQUEST = 80,   /* the signed bytes are not those of this request, or its service is not
                               ssh-connection */
  RAF_OTHER_ALGORITHM = 81, /* the algorithm that the request names is not the signature's */
  RAF_UNTOUCHED = 82,       /* nobody touched the security key, and it is wanted */
  RAF_UNVERIFIED = 83,      /* the security key did not verify its user, and it is wanted */
  RAF_CLIENT_NOT_SIGNED = 84, /* it raises no question, or its answer is not yes: it is none of the
                                 key's for this request. Said last */
  RAF_NO_FLAGS = 85,          /* a touch or a verified user is wanted, and nobody tells the flags */
  RAF_NO_SIGNATURE = 86,      /* its bytes are none */

  /* 90 to 96: nothing lets in. 91 to 95 is why the first line for the key, for the certificate's
   * authority or for a principal of it refuses: each such line does */
  RAF_USER_NOT_LISTED = 90, /* no line is for them, and no authority's certificate lists the user */
  RAF_LINE_EXPIRED = 91,    /* its expiry-time is over */
  RAF_LINE_OPTION = 92,     /* it has principals, and no cert-authority; of a file of principals,
                               one of both */
  RAF_LINE_ELSEWHERE = 93,  /* its from is for other places */
  RAF_LINE_COMMAND = 94,    /* its command is another than the certificate's */
  RAF_LINE_PRINCIPALS = 95, /* the certificate lists nobody whom it lets in */
  RAF_LINE_UNCLEAR = 96,    /* a line may let in, and how sshd reads it cannot be told: so no other
                               line and no other file may */

  RAF_NOT_PERMITTED = 97, /* the grant does not permit it */

  RAF_TEXT_UNREADABLE = 98, /* a text could not be read, and nothing before it lets in */

  /* 100 to 102: nothing is asked about the host; the first of these */
  RAF_NO_PORT = 100,    /* the port is 0 */
  RAF_NO_HOST = 101,    /* the host has no bytes */
  RAF_NO_ADDRESS = 102, /* it is like an address, and is none with one text: 127.1, fe80::1%eth0 */

  RAF_NO_IDENTITY = 103, /* the signer's identity has no bytes */

  /* of raf_log_in */
  RAF_UNSIGNED = 104,       /* `how` is none of RAF_SIGNED_*: nobody has seen the signature */
  RAF_NO_PRINCIPALS = 105,  /* `principals_from` is none of RAF_PRINCIPALS_* */
  RAF_OTHER_QUESTIONS = 106 /* the ticket is of other questions: ask again */
};

/* The name of a status as it stands above, without RAF_; for logs. */
static inline const char *raf_status_name(uint32_t status) {
#define RAF_NAMED(name) case RAF_##name: return #name
  switch (status) {
    RAF_NAMED(DONE); RAF_NAMED(MEMORY); RAF_NAMED(SHORT_BUFFER); RAF_NAMED(END);
    RAF_NAMED(TEXT); RAF_NAMED(BASE64); RAF_NAMED(CHARACTER_ENCODING);
    RAF_NAMED(LABEL); RAF_NAMED(LENGTH); RAF_NAMED(TRAILING_DATA);
    RAF_NAMED(FORMAT); RAF_NAMED(ALGORITHM_UNKNOWN); RAF_NAMED(CRYPTO);
    RAF_NAMED(ECDSA); RAF_NAMED(TIME); RAF_NAMED(NAMESPACE);
    RAF_NAMED(PUBLIC_KEY); RAF_NAMED(UNSUPPORTED_VERSION); RAF_NAMED(OTHER_ERROR);
    RAF_NAMED(RSA_SHA1);
    RAF_NAMED(NOT_SIGNED); RAF_NAMED(UNTRUSTED_AUTHORITY); RAF_NAMED(INVALID_TIME);
    RAF_NAMED(OUT_OF_WINDOW); RAF_NAMED(UNLISTED_PRINCIPAL);
    RAF_NAMED(UNSUPPORTED); RAF_NAMED(OTHER_NAMESPACE);
    RAF_NAMED(PRINCIPALS); RAF_NAMED(EMPTY_WINDOW);
    RAF_NAMED(HOST_REVOKED); RAF_NAMED(HOST_UNREADABLE);
    RAF_NAMED(HOST_CHANGED); RAF_NAMED(HOST_UNKNOWN);
    RAF_NAMED(SIGNER_NOT_ALLOWED); RAF_NAMED(REVOKED); RAF_NAMED(ELSEWHERE);
    RAF_NAMED(UNREADABLE_REVOCATIONS); RAF_NAMED(KEY_NOT_ACCEPTED);
    RAF_NAMED(LATER_KEY); RAF_NAMED(UNSAFE_MODE);
    RAF_NAMED(NOT_NORMAL_FORM); RAF_NAMED(OTHER_TYPE); RAF_NAMED(OTHER_KEY);
    RAF_NAMED(CRITICAL_OPTIONS); RAF_NAMED(EXTENSIONS); RAF_NAMED(KEY_ID);
    RAF_NAMED(VALID_PRINCIPALS);
    RAF_NAMED(OTHER_REQUEST); RAF_NAMED(OTHER_ALGORITHM); RAF_NAMED(UNTOUCHED);
    RAF_NAMED(UNVERIFIED); RAF_NAMED(CLIENT_NOT_SIGNED); RAF_NAMED(NO_FLAGS);
    RAF_NAMED(NO_SIGNATURE);
    RAF_NAMED(USER_NOT_LISTED); RAF_NAMED(LINE_EXPIRED); RAF_NAMED(LINE_OPTION);
    RAF_NAMED(LINE_ELSEWHERE); RAF_NAMED(LINE_COMMAND); RAF_NAMED(LINE_PRINCIPALS);
    RAF_NAMED(LINE_UNCLEAR); RAF_NAMED(NOT_PERMITTED);
    RAF_NAMED(TEXT_UNREADABLE);
    RAF_NAMED(NO_PORT); RAF_NAMED(NO_HOST); RAF_NAMED(NO_ADDRESS);
    RAF_NAMED(NO_IDENTITY);
    RAF_NAMED(UNSIGNED); RAF_NAMED(NO_PRINCIPALS); RAF_NAMED(OTHER_QUESTIONS);
    default: return "no status";
  }
#undef RAF_NAMED
}

/* ---- what is read ---------------------------------------------------------------------------- */

/* Bytes that a call reads; no null pointer, also where the length is 0 (raf_bytes). */
typedef struct {
  const uint8_t *bytes;
  size_t length;
} raf_span;

/* Byte strings that a call reads: `count` of them, at no null pointer. */
typedef struct {
  const raf_span *items;
  size_t count;
} raf_spans;

/* The revocation files of who asks about no revocation: one file, the list of nothing
 * (PROTOCOL.krl). No file at all would revoke everything, as one does that could not be read. */
static inline raf_spans raf_no_revocations(void) {
  static const uint8_t list[44] = "SSHKRL\n\0\0\0\0\1";
  static const raf_span file = {list, sizeof list};
  raf_spans files = {&file, 1};
  return files;
}
#define RAF_NO_REVOCATIONS raf_no_revocations()

/* ---- what is written ------------------------------------------------------------------------- */

/* A part of a buffer, or of other bytes: where it begins, and how many bytes it has. */
typedef struct {
  size_t start;  /* the place of its first byte */
  size_t length; /* the number of its bytes */
} raf_part;

/* A SHA-256 digest. */
typedef struct {
  uint8_t bytes[32];
} raf_sha256;

/* A SHA-512 digest. */
typedef struct {
  uint8_t bytes[64];
} raf_sha512;

/* SHA-256 fingerprints of keys that a call reads: `count` of them, at no null pointer. */
typedef struct {
  const raf_sha256 *items;
  size_t count;
} raf_digests;

/* ---- questions ------------------------------------------------------------------------------- */

/* How a signature is made. A key's blob (RFC 4253, section 6.6) is strings, one after the other:
 * four bytes of length, big-endian, and the bytes. The first is the name of the key's type. So
 * are the signatures of ECDSA. raf_next_string goes over them.
 *
 * Numbers in strings are mpints (RFC 4251, section 5): two's complement, big-endian. Those of a DSA
 * or RSA key may be zero (no bytes) or negative (the first bit is set): no such key is valid, so
 * your verification says no. r and s of an ECDSA signature are positive. A point need not lie on
 * its curve, and may be compressed, which OpenSSH does not read: say no to one that does not begin
 * with 04, or else a key has two fingerprints. raf_may_verify says all of this of a key. */
enum {
  /* with SHA-1; after the name p, q, g, y; signature: r and s, unsigned, 20 bytes each */
  RAF_ASK_DSA = 1,
  /* ECDSA; after the name the curve's name, and the point as in SEC 1; signature: two strings, r
   * and s */
  RAF_ASK_P256 = 2, /* with SHA-256 */
  RAF_ASK_P384 = 3, /* with SHA-384 */
  RAF_ASK_P521 = 4, /* with SHA-512 */
  /* after the name the key, 32 bytes; signature: 64 bytes */
  RAF_ASK_ED25519 = 5,
  /* PKCS#1 v1.5; after the name e and n; signature: an unsigned number, as long as n or longer: a
   * shorter one has got the zeros in front that its signer left out, under n up to 16,384 bits */
  RAF_ASK_RSA_SHA256 = 6, /* with SHA-256 */
  RAF_ASK_RSA_SHA512 = 7  /* with SHA-512 */
};

/* What has to be verified: that `signature` is one of `message` under `key`, made as `algorithm`
 * says. A security key's question is already the one about the plain key within and about what the
 * device signed (PROTOCOL.u2f): 32 bytes of digest, a byte of flags, four of the counter, and 32 of
 * digest. Whether somebody touched it or was verified, raf_log_in says of a client's signature. */
typedef struct {
  raf_part key;       /* its blob */
  raf_part message;   /* what is signed */
  raf_part signature; /* as the algorithm has it */
  size_t length;      /* how many bytes of the buffer these take */
  uint32_t algorithm; /* RAF_ASK_* */
} raf_question;

/* What stands in a line of a key file or of a certificate file: a blob, as the calls below take it,
 * and the comment, which may be empty. */
typedef struct {
  raf_part blob;
  raf_part comment;
  size_t length; /* how many bytes of the buffer these take */
  uint32_t kind; /* RAF_LINE_* */
} raf_line;

/* What the blob of a line is. */
enum { RAF_LINE_KEY = 1, RAF_LINE_CERTIFICATE = 2 };

/* ---- lines ----------------------------------------------------------------------------------- */

/* What stands in a line of a file of public keys (id_ed25519.pub) or of certificates
 * (id_ed25519-cert.pub): a type, a blob in Base64 and a comment, with a space between. White space
 * at the end is cut off; a line end before that is part of the comment. Lines of authorized_keys
 * and known_hosts may have more, and are not read; nor are tabs or several spaces, which sshd takes
 * in a file of authorities: raf_authorized_entry reads those, with an empty `front`.
 *
 * RAF_DONE exactly if the line is that of a key or of a certificate (memory and buffer aside);
 * else 11 for a line that is not UTF-8, and from 10 to 29 an error that it has as the line of a
 * certificate, or, where that is RAF_LABEL, as the line of a key. A buffer of the line's length is
 * enough. */
uint32_t raf_read_line(const uint8_t *line, size_t line_length, uint8_t *buffer,
                       size_t buffer_length, raf_line *answer);

/* Whether the line of a file of keys has a key of a later kind, as OpenSSH 10.6's
 * ssh-mldsa44-ed25519: after spaces and tabs, and without options, a name that no key begins with
 * that is read here, and Base64 of bytes that begin with that very name. In a file of authorities
 * (TrustedUserCAKeys) such a line is an authority that signs nothing that is read here: pass over
 * it, and say so. A line that is neither a key nor this refuses the file.
 *
 * RAF_DONE exactly if it has; RAF_LABEL if not, also for a key that is read here, and
 * RAF_TEXT for a line that is not UTF-8. Takes no memory. */
uint32_t raf_is_later_key_line(const uint8_t *line, size_t line_length);

/* Whether bytes name, as a string, a kind of key that OpenSSH reads or read and no call here does,
 * of its certificates or of its signatures: ssh-mldsa44-ed25519 of 10.4, those of WebAuthn, and
 * ssh-xmss@openssh.com up to 10.0. It tells why bytes are no key, no certificate, whose authority
 * may be such a key, or no signature: ask it after 10 to 29 alone.
 *
 * RAF_DONE exactly if they do; else RAF_LABEL. Takes no memory. */
uint32_t raf_names_later_kind(const uint8_t *bytes, size_t length);

/* ---- what may be believed -------------------------------------------------------------------- */

/* The SHA-256 fingerprint of the key in a line of a file of authorities (TrustedUserCAKeys): the
 * name of its type and its Base64, after spaces or tabs and with some between. What follows is a
 * comment, and decides nothing.
 *
 * RAF_DONE exactly if the line has a key (memory aside), and RAF_LATER_KEY if it has one of a
 * later kind (raf_is_later_key_line). Else refuse the file: RAF_TEXT where these two words
 * are not UTF-8, or 10 to 29. */
uint32_t raf_authority(const uint8_t *line, size_t line_length, raf_sha256 *answer);

/* The same of a file that says which authority may sign for whom: in its lines names of users, with
 * commas between, stand before the key.
 *
 * RAF_END exactly if the user is none of the names, which are compared byte by byte, or has no
 * byte: pass over the line, whatever follows. Else what raf_authority answers of what follows
 * the names. */
uint32_t raf_user_authority(const uint8_t *line, size_t line_length, const uint8_t *user,
                            size_t user_length, raf_sha256 *answer);

/* Whether your verification may say yes to a signature under the key of that blob, as of that of a
 * question. Ask it first, and make the key then.
 *
 * RAF_DONE exactly if OpenSSH lets somebody in by the key, and one of RSA has 2,048 bits or more,
 * where OpenSSH is content with 1,024: so it is none of DSA, each number in it is positive and has
 * at most 16,384 bits, and a point begins with 04. Else RAF_KEY_NOT_ACCEPTED, or 10 to 29 for
 * bytes that are no key. Takes no memory. */
uint32_t raf_may_verify(const uint8_t *key, size_t key_length);

/* Whether a file or a folder may be believed about a user, as by sshd's StrictModes; owner, user
 * and mode as of stat(2). The user 0 is root.
 *
 * RAF_DONE exactly if root or the user owns it, and neither group nor others may write; else
 * RAF_UNSAFE_MODE. Takes no memory. */
uint32_t raf_check_safe_mode(uint64_t owner, uint64_t user, uint32_t mode);

/* ---- certificates (PROTOCOL.certkeys) -------------------------------------------------------- */

/* What has to be verified of a certificate, given as its blob, which raf_read_line gives.
 *
 * RAF_DONE exactly if the bytes are a certificate and key and signature go together (memory and
 * buffer aside); else RAF_UNSUPPORTED, or 10 to 29 for bytes that are no certificate. A buffer of
 * twice the certificate's length and 2,304 bytes is enough. */
uint32_t raf_certificate_question(const uint8_t *certificate, size_t certificate_length,
                                  uint8_t *buffer, size_t buffer_length, raf_question *answer);

/* Whether a certificate is valid at that second (since 1970) for one of the authorities, which are
 * named by the SHA-256 fingerprints of their keys. `is_verified` is 1 if the answer to the question
 * of this certificate is yes; any other number is no.
 *
 * RAF_DONE exactly if the bytes are a certificate that raises a question, `is_verified` is 1,
 * the key that signed is one of the authorities', valid_after <= unix_timestamp < valid_before, and
 * unix_timestamp <= 2^63 - 1; RAF_MEMORY aside, which is answered only where the key that signed
 * is not in its normal form: an RSA key under another name than ssh-rsa. Else 10 to 29 for bytes
 * that are no certificate, and 30 to 33 for what is wrong first. Its type, its critical options and
 * whether it is revoked are yours to check: a login is raf_log_in, and a host's certificate
 * raf_check_host_certificate. */
uint32_t raf_check_certificate(const uint8_t *certificate, size_t certificate_length,
                               uint64_t unix_timestamp, const raf_sha256 *authorities,
                               size_t authority_count, uint32_t is_verified);

/* The same, and the certificate lists the principal, or no principal at all; where it does not,
 * RAF_UNLISTED_PRINCIPAL, which is looked at last. RAF_TEXT for a principal that is not
 * UTF-8, whatever the certificate is. A certificate that lists none allows everybody here; for a
 * user sshd refuses it by TrustedUserCAKeys, and by a line cert-authority sshd 9.2 takes it. */
uint32_t raf_check_certificate_for(const uint8_t *certificate, size_t certificate_length,
                                   uint64_t unix_timestamp, const uint8_t *principal,
                                   size_t principal_length, const raf_sha256 *authorities,
                                   size_t authority_count, uint32_t is_verified);

/* Whom a certificate is for. */
enum { RAF_USER = 1, RAF_HOST = 2 };

/* The end of a window that has none. */
#define RAF_FOREVER UINT64_MAX

/* What a policy asks of a certificate. */
typedef struct {
  uint64_t serial;
  uint64_t valid_after;          /* the first second of its window */
  uint64_t valid_before;         /* the first second after its window, or RAF_FOREVER */
  uint32_t certificate_type;     /* RAF_USER or RAF_HOST */
  uint32_t lists_principals;     /* 0 where it lists none, and so allows everybody; else 1 */
  uint32_t has_critical_options; /* 0 where it has none; else 1: refuse it unless you know each */
} raf_fields;

/* The fields of a certificate, whether it is valid or not. RAF_DONE exactly if the bytes are a
 * certificate; else 10 to 29. Takes no memory. */
uint32_t raf_certificate_fields(const uint8_t *certificate, size_t certificate_length,
                                raf_fields *answer);

/* ---- what a certificate lists ---------------------------------------------------------------- */

/* Where parts of a certificate stand in its bytes, in this order, each after its length of four
 * bytes. Between principals and critical options stands the window, and before the authority a
 * reserved string. */
typedef struct {
  raf_part key_id;           /* a text, for logs */
  raf_part principals;       /* strings: raf_next_string goes over them */
  raf_part critical_options; /* one after the other: raf_next_certificate_option goes over them */
  raf_part extensions;       /* likewise */
  raf_part authority;        /* the blob of the key that signed */
} raf_parts;

/* The parts of a certificate, whether it is valid or not. RAF_DONE exactly if the bytes are a
 * certificate; else 10 to 29. Takes no memory, and copies nothing. */
uint32_t raf_certificate_parts(const uint8_t *certificate, size_t certificate_length,
                               raf_parts *answer);

/* Where the name and the value of an option stand, and the place of the next one. The name stands
 * after its length of four bytes, and the next one begins where the value ends. */
typedef struct {
  raf_part name;
  raf_part value; /* of no bytes where the option has none */
  size_t next;
} raf_certificate_option_parts;

/* The option that begins at that place of critical options or extensions: the string of a name, and
 * a string that is empty or holds the string of a value. RAF_DONE exactly if one stands there;
 * RAF_END at the end of the bytes, else RAF_LENGTH. Takes no memory. */
uint32_t raf_next_certificate_option(const uint8_t *bytes, size_t length, size_t place,
                                     raf_certificate_option_parts *answer);

/* Writes the blob of the key that is certified to the front of the buffer, which does not stand
 * whole in the certificate. RAF_DONE exactly if the bytes are a certificate, memory and buffer
 * aside; else 10 to 29. `length` says how many bytes the blob has. A buffer as long as the
 * certificate is enough. */
uint32_t raf_certificate_key(const uint8_t *certificate, size_t certificate_length,
                             uint8_t *buffer, size_t buffer_length, size_t *length);

/* ---- how a certificate is made --------------------------------------------------------------- */

/* What a certificate is to say. */
typedef struct {
  raf_span key;              /* the blob of the key that is certified */
  raf_span nonce;            /* random bytes of yours: 16 or 32 */
  raf_span key_id;           /* a text, for logs */
  raf_span principals;       /* strings, one after the other: refuse a zero byte in one, since sshd
                                takes the name to end there, and so for another user's */
  raf_span critical_options; /* as raf_next_certificate_option reads them, with rising names */
  raf_span extensions;       /* likewise */
  raf_span authority;        /* the blob of the key that is to sign */
  uint64_t serial;           /* not 0: to OpenSSH that is none, and no KRL can name it */
  uint64_t valid_after;      /* the first second of its window, since 1970 */
  uint64_t valid_before;     /* the first second after its window, or RAF_FOREVER */
  uint32_t certificate_type; /* RAF_USER or RAF_HOST */
  uint32_t all_principals;   /* 1 where it lists no principals, and so allows everybody; else 0 */
} raf_draft;

/* Writes the bytes that are to be signed to the front of the buffer; `length` says how many they
 * are. Sign them with the authority's key, and make the signature's blob (RFC 4253, section 6.6):
 * the string of the algorithm's name, and the string of what it makes.
 *
 * RAF_DONE exactly if the draft tells a certificate, memory and buffer aside. Else what is wrong,
 * in this order: RAF_FORMAT for another certificate_type, RAF_TIME for a time above 2^63 - 1,
 * RAF_EMPTY_WINDOW, RAF_PRINCIPALS; then 10 to 29 for a key, a text or a list that is none. A key
 * to be certified that has a private-use name is rejected: RAF_LABEL. What stays yours:
 * docs/ISSUING.md. */
uint32_t raf_certificate_to_be_signed(const raf_draft *draft, uint8_t *buffer,
                                      size_t buffer_length, size_t *length);

/* Writes the certificate that a signature makes of these bytes. RAF_DONE exactly if that is a
 * certificate, memory and buffer aside; else 10 to 29. Whether the signature is one of these bytes
 * raf_certificate_question asks, and raf_check_certificate says. */
uint32_t raf_certificate_make(const uint8_t *to_be_signed, size_t to_be_signed_length,
                              const uint8_t *signature, size_t signature_length, uint8_t *buffer,
                              size_t buffer_length, size_t *length);

/* ---- keys ------------------------------------------------------------------------------------ */

/* The SHA-256 fingerprint of the key of that blob, as raf_check_certificate takes it.
 * RAF_DONE exactly if the bytes are a key, RAF_MEMORY aside, which is answered only for one
 * that is not its normal form; else 10 to 29. With any answer but RAF_DONE the digest stays as
 * it was. */
uint32_t raf_fingerprint(const uint8_t *key, size_t key_length, raf_sha256 *answer);

/* How many bytes the text of a SHA-256 fingerprint has, as ssh-keygen shows it: "SHA256:" and 43
 * characters. */
#define RAF_FINGERPRINT_TEXT 50

/* Writes that text to the front of the buffer, without a zero after it. RAF_DONE, or
 * RAF_SHORT_BUFFER where the buffer has fewer bytes. Takes no memory. */
uint32_t raf_fingerprint_text(const raf_sha256 *digest, uint8_t *buffer, size_t buffer_length);

/* The same by SHA-512. */
uint32_t raf_fingerprint_sha512(const uint8_t *key, size_t key_length, raf_sha512 *answer);

/* "SHA512:" and 86 characters. */
#define RAF_FINGERPRINT_SHA512_TEXT 93

/* Writes that text, as raf_fingerprint_text does. Takes no memory. */
uint32_t raf_fingerprint_sha512_text(const raf_sha512 *digest, uint8_t *buffer,
                                     size_t buffer_length);

/* How many bytes random art has beside those of its header. */
#define RAF_RANDOM_ART_TEXT 219

/* Writes the random art of a key with that SHA-256 fingerprint to the front of the buffer, as
 * `ssh-keygen -lv` shows it, and its length to `length`, also with RAF_SHORT_BUFFER: a header
 * between dashes, nine rows, and the name of the hash, in lines of 19 characters, without a line
 * end after the last. ssh-keygen's header is, say, [ED25519 256]; one of more than 17 characters
 * stands whole.
 *
 * RAF_DONE (memory and buffer aside), or RAF_TEXT where the header is not UTF-8. A buffer of
 * RAF_RANDOM_ART_TEXT bytes and the header's length is enough. */
uint32_t raf_random_art(const raf_sha256 *digest, const uint8_t *header, size_t header_length,
                        uint8_t *buffer, size_t buffer_length, size_t *length);

/* What has to be verified of a signature (RFC 4253, section 6.6) of the message under the key of
 * that blob: as an agent gives it, or a client at a login (docs/LOGIN.md).
 *
 * RAF_DONE exactly if the bytes are a key and a signature that go together (memory and buffer
 * aside); else RAF_UNSUPPORTED, or 10 to 29 for bytes that are no key, or else no signature.
 * RAF_MEMORY only where they are both. A buffer as long as the three together, and 2,304 bytes, is
 * enough. */
uint32_t raf_signature_question(const uint8_t *key, size_t key_length, const uint8_t *message,
                                size_t message_length, const uint8_t *signature,
                                size_t signature_length, uint8_t *buffer, size_t buffer_length,
                                raf_question *answer);

/* ---- SSH signatures (PROTOCOL.sshsig) -------------------------------------------------------- */

/* Writes the bytes of an SSH signature in its armour, the text of a file of `ssh-keygen -Y sign`, to
 * the front of the buffer, and their length to `length`, also with RAF_SHORT_BUFFER: the line
 * -----BEGIN SSH SIGNATURE-----, padded Base64 with white space anywhere in it, and the line
 * -----END SSH SIGNATURE-----. Lines end with LF or CR LF. What follows them is passed over.
 *
 * RAF_DONE exactly if the text is that, as OpenSSH 9.5 reads it (memory and buffer aside); else
 * RAF_FORMAT where one of the two lines is missing, and RAF_BASE64. Whether the bytes are a
 * signature, the calls below say. A buffer of the text's length is enough. */
uint32_t raf_read_armour(const uint8_t *text, size_t text_length, uint8_t *buffer,
                         size_t buffer_length, size_t *length);

/* What has to be verified of an SSH signature of the message in that namespace, and the SHA-256
 * fingerprint of the key that signed: whether that key may sign is yours to check
 * (docs/SIGNED-FILE.md). The signature is what raf_read_armour reads.
 *
 * RAF_DONE exactly if the bytes are an SSH signature for that namespace whose key and signature
 * go together (memory and buffer aside); else RAF_OTHER_NAMESPACE, RAF_UNSUPPORTED, or 10 to 29
 * for bytes that are no signature. A buffer of twice its length and 2,304 bytes is enough. */
uint32_t raf_sshsig_question(const uint8_t *signature, size_t signature_length,
                             const uint8_t *name_space, size_t name_space_length,
                             const uint8_t *message, size_t message_length, uint8_t *buffer,
                             size_t buffer_length, raf_question *answer, raf_sha256 *signer);

/* The same with the digest of the message in place of the message, so that a long one need not be
 * in memory. The hash is the one that the signature names, in its fourth string from byte 10 on
 * (raf_next_string): sha256 or sha512. Where a digest has not the 32 or 64 bytes of that hash,
 * RAF_LENGTH; else what raf_sshsig_question answers of each message with that digest. */
uint32_t raf_sshsig_question_of_digest(const uint8_t *signature, size_t signature_length,
                                       const uint8_t *name_space, size_t name_space_length,
                                       const uint8_t *digest, size_t digest_length,
                                       uint8_t *buffer, size_t buffer_length,
                                       raf_question *answer, raf_sha256 *signer);

/* Whether an SSH signature counts in that namespace, where the keys with these SHA-256 fingerprints
 * may sign. `is_verified` is 1 if the answer to the question of this signature, in the namespace
 * and of the message, is yes; any other number is no. Ask with 0 first: RAF_NOT_SIGNED says that
 * its key may sign, and with any other answer there is nothing to verify.
 *
 * RAF_DONE exactly if the bytes are a signature in the namespace that raises a question, without
 * reserved bytes, `is_verified` is 1, and its key is one of those (memory aside). Else 10 to 29 for
 * bytes that are no signature, RAF_SIGNER_NOT_ALLOWED, or RAF_NOT_SIGNED. RAF_MEMORY only
 * where a part of the signature is whole. */
uint32_t raf_check_sshsig(const uint8_t *signature, size_t signature_length,
                          const uint8_t *name_space, size_t name_space_length,
                          const raf_sha256 *signers, size_t signer_count,
                          uint32_t is_verified);

/* Whether an SSH signature counts as the identity's in that namespace, by a text of allowed signers
 * (ssh-keygen(1)), at that second (since 1970), as `ssh-keygen -Y verify` says, or more strictly
 * (docs/SIGNED-FILE.md): a time without Z, which is of the machine's zone there, has to hold in
 * every zone here. `revoked` are revocation files, as raf_check_unrevoked_key takes them; who asks
 * none passes RAF_NO_REVOCATIONS, and never what is left where a file was not read. `is_verified` is 1
 * if the answer to the question of this signature, in the namespace and of the message, is yes; any
 * other number is no. Ask with 0 first: RAF_NOT_SIGNED says that its key may sign, and with any
 * other answer there is nothing to verify. A line whose options are not UTF-8 lets nobody
 * sign.
 *
 * RAF_DONE exactly if the bytes are a signature in the namespace that raises a question, without
 * reserved bytes, `is_verified` is 1, the identity has a byte, a line lets its key sign for it in
 * the namespace at that time, and the key is not revoked (memory aside). Else RAF_TEXT, 10 to 29
 * for bytes that are no signature, RAF_NO_IDENTITY, 55, 58, 56 or RAF_NOT_SIGNED. RAF_MEMORY only
 * where a part of the signature is whole. What stays yours: docs/SIGNED-FILE.md. */
uint32_t raf_check_signer(const uint8_t *signers, size_t signers_length,
                          const uint8_t *identity, size_t identity_length,
                          const uint8_t *name_space, size_t name_space_length,
                          const uint8_t *signature, size_t signature_length,
                          uint64_t unix_timestamp, const raf_span *revoked,
                          size_t revoked_count, uint32_t is_verified);

/* ---- normal forms ---------------------------------------------------------------------------- */

/* A value may have more spellings than one: the name of an RSA key may be rsa-sha2-256, and an
 * empty option of a certificate may be written in two ways. Bytes that spell one value have one
 * normal form, which is what fingerprints digest: two keys are the same exactly if theirs are.
 *
 * Each call writes it to the front of the buffer, and its length to `length`, also with
 * RAF_SHORT_BUFFER. RAF_DONE exactly if the bytes are a value of that kind (memory and buffer
 * aside); else 10 to 29. A buffer of the bytes' length is enough. */

/* Of a key. RAF_MEMORY only where the bytes are a key, and not its normal form. */
uint32_t raf_key_normal(const uint8_t *key, size_t key_length, uint8_t *buffer,
                        size_t buffer_length, size_t *length);

/* Of a certificate. RAF_MEMORY only where the bytes are one. */
uint32_t raf_certificate_normal(const uint8_t *certificate, size_t certificate_length,
                                uint8_t *buffer, size_t buffer_length, size_t *length);

/* Of an SSH signature, as raf_sshsig_question takes it. */
uint32_t raf_sshsig_normal(const uint8_t *signature, size_t signature_length, uint8_t *buffer,
                           size_t buffer_length, size_t *length);

/* Of a signature, as raf_signature_question takes it, which is its own normal form. Takes no
 * memory. */
uint32_t raf_signature_normal(const uint8_t *signature, size_t signature_length, uint8_t *buffer,
                              size_t buffer_length, size_t *length);

/* ---- strings (RFC 4251, section 5) ----------------------------------------------------------- */

/* The string that begins at that place: four bytes of length, and that many bytes, which are the
 * answer. The next begins at answer.start + answer.length. RAF_DONE exactly if one stands there;
 * RAF_END at the end of the bytes, else RAF_LENGTH. Takes no memory. */
uint32_t raf_next_string(const uint8_t *bytes, size_t length, size_t place, raf_part *answer);

/* ---- revocation files (sshd_config(5), "RevokedKeys") ---------------------------------------- */

/* Whether none of these files revokes the key of that blob. One does if it is a list
 * (PROTOCOL.krl), as `ssh-keygen -k` makes it, that has the key or its digest by SHA-1 or SHA-256;
 * or a text with a key or a certificate a line, that has the key. A file of no bytes revokes
 * nothing, as sshd's.
 *
 * RAF_DONE exactly if all files can be read, and none revokes the key, and RAF_REVOKED exactly if
 * all can be read, and one does (memory aside). RAF_UNREADABLE_REVOCATIONS without a file, or for
 * one that can't be read, by which sshd lets nobody in either (docs/OPENSSH.md says what sshd
 * refuses beyond that); else 10 to 29 for bytes that are no key. A text takes memory for its lines,
 * several files do, and one list only for a key that is not its normal form. */
uint32_t raf_check_unrevoked_key(const raf_span *revoked, size_t revoked_count, const uint8_t *key,
                                 size_t key_length);

/* The same of a certificate: a file revokes it that has its key or the key that signed it, and a
 * list that revokes its serial number or its key id among the certificates of that key or of every
 * key. The serial number 0 revokes nothing. One list takes memory only where the bytes are a
 * certificate. */
uint32_t raf_check_unrevoked_certificate(const raf_span *revoked, size_t revoked_count,
                                         const uint8_t *certificate, size_t certificate_length);

/* Whether a key revocation list, as `ssh-keygen -k` makes it, does not revoke the key of that blob:
 * it has neither the key nor its digest by SHA-1 or SHA-256.
 *
 * RAF_DONE exactly if the list does not revoke the key, and RAF_REVOKED exactly if it does (memory
 * aside); else 10 to 29 for bytes that are no list, or else no key. An empty file is no list, nor
 * is a text of keys, which sshd takes in place of one. RAF_MEMORY only for a key that is not its
 * normal form. */
uint32_t raf_check_unrevoked_key_by_krl(const uint8_t *krl, size_t krl_length, const uint8_t *key,
                                        size_t key_length);

/* The same of a certificate: a list revokes it that has its key or the key that signed it, or its
 * serial number or its key id among the certificates of that key or of every key. The serial number
 * 0 revokes nothing. RAF_MEMORY only where the bytes are a list and a certificate. */
uint32_t raf_check_unrevoked_certificate_by_krl(const uint8_t *krl, size_t krl_length,
                                                const uint8_t *certificate,
                                                size_t certificate_length);

/* ---- authorized_keys and known_hosts (sshd(8)) ----------------------------------------------- */

/* The next line from that place on that may be an entry: neither empty nor a comment, without the
 * spaces and tabs at its front and without its end (a line feed, and a carriage return before it).
 * RAF_DONE exactly if there is one, else RAF_END. Begin at 0, and go on at answer.start +
 * answer.length: all lines take time in proportion to the text. Takes no memory. */
uint32_t raf_next_line(const uint8_t *text, size_t length, size_t place, raf_part *answer);

/* What stands before an entry of known_hosts: nothing, @cert-authority or @revoked. */
enum { RAF_MARKER_NONE = 0, RAF_MARKER_CERT_AUTHORITY = 1, RAF_MARKER_REVOKED = 2 };

/* An entry of a line: where its parts stand in the buffer. */
typedef struct {
  raf_part front;   /* the options as they stand in the line, or the hosts */
  raf_part key;     /* the key's blob in its normal form, which fingerprints are digests of */
  raf_part comment; /* all that follows */
  size_t length;    /* how many bytes of the buffer these take */
  uint32_t marker;  /* RAF_MARKER_*; of authorized_keys always RAF_MARKER_NONE */
} raf_entry;

/* The entry of a line of authorized_keys, as sshd reads it. RAF_DONE exactly if the line is one
 * (memory and buffer aside); RAF_TEXT for a line that is not UTF-8, else 10 to 29. A buffer of the
 * line's length is enough. Here a zero byte is a byte like others, while sshd reads no further.
 *
 * It shows a line, and decides nothing: whom a text lets in, raf_log_in says. */
uint32_t raf_authorized_entry(const uint8_t *line, size_t line_length, uint8_t *buffer,
                              size_t buffer_length, raf_entry *answer);

/* The same of a line of known_hosts, as ssh reads it; one with a zero byte is refused. A line that
 * is refused may be a revocation: to check a host's key, ask raf_check_host_key. */
uint32_t raf_known_host(const uint8_t *line, size_t line_length, uint8_t *buffer,
                        size_t buffer_length, raf_entry *answer);

/* An option of an entry: where its parts stand in the buffer. */
typedef struct {
  raf_part name;      /* as it stands in the line: letters are compared without case */
  raf_part value;     /* without its quotes, and without each backslash before a quote */
  size_t length;      /* how many bytes of the buffer these take */
  size_t next;        /* the place of the next option */
  uint32_t has_value; /* 0 where there is no value; else 1 */
} raf_line_option_parts;

/* The option that begins at that place of the options of an entry, commas before it aside: begin at
 * 0, and go on at answer.next. RAF_DONE exactly if one stands there that is UTF-8 (memory and
 * buffer aside); RAF_END exactly where nothing but commas is left, RAF_TEXT if what stands
 * before the next comma outside quotes is not UTF-8, and RAF_FORMAT if it is no option. A buffer
 * of the options' length is enough. All options take time in proportion to them.
 *
 * Go on to RAF_END, since what follows an option is not read with it. What the options of a line
 * say of a login, raf_log_in decides. */
uint32_t raf_next_line_option(const uint8_t *options, size_t options_length, size_t place,
                              uint8_t *buffer, size_t buffer_length,
                              raf_line_option_parts *answer);

/* Whether sshd may take a line of authorized_keys for one of the key of that blob, whatever it
 * makes of the line's options: for a program that has sshd check lines, as AuthorizedKeysCommand.
 * It takes the first that lets a key in, so leave out none but those for which this is RAF_END: a
 * line that is left out may hand the login to a later one, which binds it less.
 *
 * RAF_DONE where the key may be spelled in the line, as sshd reads Base64 (or is too short for that
 * to be told), RAF_END where the line is surely none of the key's (memory aside), and 10 to 29 for
 * bytes that are no key. RAF_MEMORY only where they are one. */
uint32_t raf_line_may_name_key(const uint8_t *line, size_t line_length, const uint8_t *key,
                               size_t key_length);

/* The same of the authority that signed the certificate: by its lines cert-authority sshd lets the
 * certificate in. */
uint32_t raf_line_may_name_authority(const uint8_t *line, size_t line_length,
                                     const uint8_t *certificate, size_t certificate_length);

/* ---- whether a host is the known one (ssh(1)) ------------------------------------------------ */

/* The host that a client connects to, and what is known of it. What stays yours: docs/HOST.md. */
typedef struct {
  raf_spans known_hosts;   /* the texts of all the files that count: one file alone may list a key
                              that another one revokes. They may have any bytes */
  raf_span host;           /* the name or address as the user typed it, without brackets; UTF-8 */
  raf_spans revoked;       /* revocation files (RevokedHostKeys), each a list or keys as text: any
                              of them revokes. Who asks none says so: RAF_NO_REVOCATIONS */
  uint64_t unix_timestamp; /* asked of certificates alone */
  uint32_t least_rsa_bits; /* as RequiredRSASize; below 1,024, as 0, it is 1,024 */
  uint16_t port;           /* not 0 */
} raf_host_login;

/* Whether the key of that blob is the host's, as ssh(1) says with StrictHostKeyChecking. Hashed
 * names are compared here, by HMAC-SHA1. Where no line is for the host at a port other than 22, the
 * host's plain name is asked too.
 *
 * An IPv6 address is asked in the text of inet_ntop(3): fd00::1 for FD00:0::1. What is like an
 * address has a colon, or is a digit followed by digits, dots, a to f and x alone. It is refused
 * where it is no address, as what inet_aton(3) alone reads, or with a scope, and where it is one of
 * ::/96 beyond :: and ::1, which has two texts. With HostKeyAlias ssh asks the alias in place of
 * the host, at no port: pass it alone, at port 22. With CheckHostIP it asks about the address too,
 * also where the name is known, and refuses where that has another key: that is a second call.
 *
 * RAF_DONE exactly if a line for the host has the key, no line for it and no revocation file
 * revokes the key, no line that is no entry could be one for the host, as each with a zero byte
 * could, and OpenSSH accepts its kind and size (memory aside). Else the first of these: RAF_TEXT,
 * 10 to 29 for bytes that are no key, 100 to 102, RAF_UNREADABLE_REVOCATIONS, 50 to 53,
 * RAF_KEY_NOT_ACCEPTED. RAF_MEMORY only where the bytes are a key. */
uint32_t raf_check_host_key(const raf_host_login *login, const uint8_t *key,
                            size_t key_length);

/* By what a host that shows a certificate is known; 0 is none of both. */
enum {
  RAF_BY_AUTHORITY = 1,    /* by an authority of the host, which made it a certificate */
  RAF_BY_CERTIFIED_KEY = 2 /* by the key in the certificate, as if nobody had signed it */
};

/* Whether the host that shows a certificate is known, and by what. `is_verified` is 1 if the answer
 * to the question of this certificate is yes (raf_certificate_question); any other number is no. Ask
 * with 0 first: RAF_NOT_SIGNED says "now verify", and with any other answer there is nothing to
 * verify.
 *
 * RAF_BY_AUTHORITY exactly if its bytes are its normal form; a line @cert-authority for the host has
 * the key that signed it; no line for the host revokes one of its two keys, and no revocation file
 * the certificate; no line that is no entry could be one for the host; OpenSSH accepts both keys; it
 * is for hosts, without critical options, of texts that ssh reads, and valid then for the host's
 * name in small letters, which it lists; and `is_verified` is 1 (memory aside). An address has to be
 * listed in that one text.
 *
 * Else, as ssh(1) does, the certified key is asked, but where something is revoked or may be:
 * RAF_BY_CERTIFIED_KEY exactly if the bytes are in normal form, OpenSSH accepts the key that signed,
 * whichever it is, and reads the texts, raf_check_host_key accepts the certified key, and
 * `is_verified` is 1. With HostKeyAlgorithms ssh 9.8 and later do so only where they name the key.
 *
 * RAF_DONE with one of these in `*known_by`, and any other answer with 0 there: the first of
 * RAF_TEXT, 10 to 29, RAF_NOT_NORMAL_FORM, 100 to 102, RAF_UNREADABLE_REVOCATIONS, 50, 51, and
 * RAF_NOT_SIGNED where all else is right with the certified key. Then, of a certificate that no
 * authority of the host signed: 59, 75 and 76 where ssh does not read it, 52 or 53 for its key.
 * Else 59, 71, 73, 75, 76, 30, 32 to 34. */
uint32_t raf_check_host_certificate(const raf_host_login *login,
                                    const uint8_t *certificate, size_t certificate_length,
                                    uint32_t is_verified, uint32_t *known_by);

/* A line of a text of known_hosts that is held, to be asked again and again. */
typedef struct {
  size_t length;  /* how many bytes the line has, with its end */
  uint64_t names; /* for which names it may be */
} raf_line_place;

/* Writes the places of the lines of a text of known_hosts, one after the other, and sets `*count` to
 * their number. RAF_DONE exactly if they are at most places_count, and else RAF_SHORT_BUFFER, which
 * leaves the places as they were. One more than the text has line feeds is enough. Takes no memory.
 *
 * You keep the text and the places, and neither changes: raf_check_held_host_key then looks at a
 * number for each line that is for others. Lines that have a pattern or a hash are read each time.
 * Several texts are held as one if a line feed stands between them. */
uint32_t raf_place_hosts(const uint8_t *known_hosts, size_t known_hosts_length,
                         raf_line_place *places, size_t places_count, size_t *count);

/* What raf_check_host_key says by login.known_hosts and the held text, as if all stood in one. The
 * places are those that raf_place_hosts wrote of these very bytes: they are believed, as the text
 * is. Where they are together not as long as the text, as those of a text that has grown since, it
 * is RAF_HOST_UNREADABLE, after RAF_TEXT. */
uint32_t raf_check_held_host_key(const raf_host_login *login, const uint8_t *held,
                                 size_t held_length, const raf_line_place *places,
                                 size_t places_count, const uint8_t *key, size_t key_length);

/* What raf_check_host_certificate says, likewise. */
uint32_t raf_check_held_host_certificate(const raf_host_login *login, const uint8_t *held,
                                         size_t held_length, const raf_line_place *places,
                                         size_t places_count, const uint8_t *certificate,
                                         size_t certificate_length, uint32_t is_verified,
                                         uint32_t *known_by);

/* The number of the first line, from 1, of a text of known_hosts that is no entry and may be one
 * for the host at that port: by it the text is RAF_HOST_UNREADABLE, whatever the key. Empty lines
 * and comments are counted.
 *
 * RAF_DONE exactly if there is one, and RAF_END if there is none (RAF_MEMORY aside);
 * RAF_TEXT where the host is not UTF-8, and then 100 to 102. Memory is taken only for
 * a line that is neither empty nor a comment, and for a host that is like an address. */
uint32_t raf_unreadable_host_line(const uint8_t *known_hosts, size_t known_hosts_length,
                                  const uint8_t *host, size_t host_length, uint16_t port,
                                  size_t *number);

/* ---- where a client may come from ------------------------------------------------------------ */

/* Whether the list, the value of a certificate's critical option source-address, lets a client in
 * from the address: 4 or 16 bytes, those of struct in_addr or in6_addr. An IPv4 address as an IPv6
 * socket shows it (::ffff:10.1.2.3) is that IPv4 address, and one of fe80::/10 is in no network, as
 * to sshd. Let in for RAF_DONE alone.
 *
 * RAF_DONE exactly if each item of the list is a network and one of them has the address. Else
 * the first of these: RAF_LENGTH for another number of bytes, RAF_TEXT for a list that is not
 * UTF-8, RAF_FORMAT for a malformed one, which sshd refuses too, and RAF_ELSEWHERE. Takes no
 * memory. */
uint32_t raf_check_source_address(const uint8_t *list, size_t list_length,
                                  const uint8_t *address, size_t address_length);

/* Whether the list, the value of the option from of a line of authorized_keys, lets a client in
 * from the address, as above. The host is the client's name in the DNS, if it was looked up and
 * looked up back (UseDNS of sshd), and else of length 0.
 *
 * RAF_DONE exactly if an item of the list is for the client and none with a `!` is
 * (RAF_MEMORY aside), and RAF_ELSEWHERE if not: then go on to the next line. Else refuse the
 * login, since sshd may let in by this line: RAF_LENGTH; RAF_TEXT where list or host are not
 * UTF-8, where the address is of fe80::/10, or of ::/96 beyond :: and ::1, whose text may be
 * another to sshd, or where the host's name is like an address; RAF_FORMAT for a malformed list.
 */
uint32_t raf_check_from(const uint8_t *list, size_t list_length, const uint8_t *host,
                        size_t host_length, const uint8_t *address, size_t address_length);

/* ---- times (ssh-keygen(1), "ALLOWED SIGNERS") ------------------------------------------------- */

/* The seconds since 1970 that a time may mean: from one to the other. */
typedef struct {
  uint64_t first; /* at least 1 */
  uint64_t last;  /* the first one if the time names its zone */
} raf_time_span;

/* The seconds that a time may mean, which is YYYYMMDD, YYYYMMDDHHMM or YYYYMMDDHHMMSS, alone or
 * before Z or UTC in small or large letters. Alone it is of the zone of the machine to OpenSSH, and
 * here it may be of any. Each month is taken for one of 31 days, as by strptime(3): 20230230 is 2
 * March 2023.
 *
 * RAF_DONE exactly if the text is such a time and later than the start of 1970, of whatever zone
 * it may be; else RAF_TEXT where it is not UTF-8, and RAF_FORMAT. Takes no memory. */
uint32_t raf_read_time(const uint8_t *text, size_t length, raf_time_span *answer);

/* ---- hosts and ports (RFC 3986, section 3.2) ------------------------------------------------- */

/* Where a host stands in a text, without brackets, and its port, if one stands there. */
typedef struct {
  raf_part host;
  uint16_t port; /* 0 where none stands there: take the one that you would ask else */
} raf_destination;

/* Takes apart what a user types for a host: HOST:PORT, [HOST]:PORT, [HOST] or HOST. Digits write a
 * port, from 1 on. Without brackets a text with several colons is a host alone, as an address of
 * IPv6. The host may have no bytes; what else it is, raf_check_host_key asks.
 *
 * RAF_DONE exactly if the text is that; else RAF_TEXT where it is not UTF-8, and RAF_FORMAT, where
 * something else follows a bracket or the one colon. Takes no memory. */
uint32_t raf_host_and_port(const uint8_t *text, size_t length, raf_destination *answer);

/* ---- who logs in by public key (RFC 4252, section 7; sshd_config(5)) ------------------------- */

/* What a client offers in its request. What stays yours: docs/LOGIN.md. */
typedef struct {
  raf_span user;      /* whom to log in as; UTF-8 */
  raf_span algorithm; /* as the request names it: rsa-sha2-512 also for a key of ssh-rsa. Of no bytes
                         only where somebody else verifies the signature, and does not tell it */
  raf_span blob;      /* of a key or of a certificate, as it was sent */
} raf_offer;

/* Who has seen the client's signature. 0 is nobody, and nobody is let in. */
enum {
  RAF_SIGNED_REQUEST = 1,      /* you ask here: session_id, host_key, signature */
  RAF_SIGNED_BY_TRANSPORT = 2, /* your SSH library verified it under the blob's own key, for this
                                  user, and tells no flags */
  RAF_SIGNED_WITH_FLAGS = 3,   /* it did, and `flags` are those of the security key's signature */
  RAF_SIGNED_BY_SSHD = 4       /* sshd verifies it itself and looks at its flags: for its helpers */
};
typedef struct {
  raf_span session_id;   /* the server's own, and nothing that the client sent */
  raf_span host_key;     /* the blob of the server's own host key, and nothing that the client sent,
                            if has_host_key is not 0 */
  raf_span signature;    /* the blob of the client's signature (RFC 4253, section 6.6) */
  uint32_t how;          /* RAF_SIGNED_* */
  uint32_t has_host_key; /* 0: the method is publickey; else publickey-hostbound-v00@openssh.com */
  uint8_t flags;         /* PROTOCOL.u2f: 1 touched, 4 verified */
} raf_signed;

/* The text of a file that the server's configuration names. Of a file that is not there it has no
 * bytes, and was read. */
typedef struct {
  raf_span text;    /* lines need not be UTF-8 */
  uint32_t is_read; /* 1 where it was read. With any other number, as 0, it is there and could not
                       be read: no text after it is asked, nor any other source */
} raf_text;
typedef struct {
  const raf_text *items; /* no null pointer */
  size_t count;
} raf_texts;

/* Whom a certificate lets in that an authority signed. 0 is neither, and nobody is let in. */
enum {
  RAF_PRINCIPALS_IN_CERTIFICATE = 1, /* the users that it lists: no AuthorizedPrincipalsFile */
  RAF_PRINCIPALS_IN_FILES = 2        /* those for whom `principals` have one of its names */
};

/* Whom a server trusts, in the order in which sshd asks. */
typedef struct {
  raf_texts authorized_keys;  /* AuthorizedKeysFile: each text in its turn */
  raf_digests authorities;    /* TrustedUserCAKeys: the keys that may sign logins of all users */
  raf_texts principals;       /* AuthorizedPrincipalsFile of this user, who need not stand there: of
                                 the first text that has a line for a principal, the first such line
                                 decides */
  raf_texts command_keys;     /* AuthorizedKeysCommand: what it wrote, if it ended with 0 */
  raf_spans revoked;          /* RevokedKeys: each a list or keys as text; any of them revokes. Who
                                 asks none says so: RAF_NO_REVOCATIONS */
  uint32_t principals_from;   /* RAF_PRINCIPALS_* */
  uint32_t least_rsa_bits;    /* RequiredRSASize; below 1,024, as 0, it is 1,024 */
  uint32_t requires_touch;    /* PubkeyAuthOptions: not 0 where each security key has to be touched */
  uint32_t requires_verification; /* likewise where each has to verify its user */
} raf_trusted;

/* Where a client is, and when it asks. */
typedef struct {
  raf_span client;         /* the address of its socket, of 4 or 16 bytes; with any other number of
                              bytes it is not known, and what asks for one lets nobody in */
  raf_span host;           /* the name that was found for it (UseDNS), or of no bytes; UTF-8 */
  uint64_t unix_timestamp; /* seconds since 1970 */
  uint32_t caller_checks_address; /* 1: sshd checks source-address itself, as before 9.4, which tells
                                     its programs no address. It counts with RAF_SIGNED_BY_SSHD
                                     alone; else no address is known then */
} raf_place;

/* A login by public key. */
typedef struct {
  raf_offer offer;
  raf_signed signed_by;
  raf_trusted trusted;
  raf_place place;
} raf_login;

/* Which questions are asked; and which were answered yes. */
enum { RAF_ASKS_AUTHORITY = 1, RAF_ASKS_CLIENT = 2 };

/* What has to be verified of a login. */
typedef struct {
  raf_question authority; /* about the signature of the certificate, with RAF_ASKS_AUTHORITY */
  raf_question client;    /* about the client's, with RAF_ASKS_CLIENT; all zero where not asked */
  size_t length;          /* how many bytes of the buffer both take */
  raf_sha256 ticket;      /* names these questions to raf_log_in */
  uint32_t asked;         /* RAF_ASKS_*: a sum; 0 where nothing is left to verify */
} raf_login_questions;

/* By what a login is let in. */
enum {
  RAF_SOURCE_AUTHORIZED_KEYS = 1, /* a text of authorized_keys */
  RAF_SOURCE_AUTHORITY = 2,       /* an authority, by a certificate that lists the user */
  RAF_SOURCE_PRINCIPALS = 3,      /* an authority, by a text of principals */
  RAF_SOURCE_COMMAND = 4          /* what AuthorizedKeysCommand wrote */
};

/* What a grant permits. Zero permits nothing. */
enum {
  RAF_PERMIT_PTY = 1,
  RAF_PERMIT_PORT_FORWARDING = 2,
  RAF_PERMIT_AGENT_FORWARDING = 4,
  RAF_PERMIT_X11_FORWARDING = 8,
  RAF_PERMIT_USER_RC = 16,
  RAF_PERMIT_ANY_COMMAND = 32,      /* no force-command: what the client asks for, or a shell */
  RAF_PERMIT_NO_TOUCH = 64,         /* a security key that nobody touched */
  RAF_PERMIT_NO_VERIFICATION = 128, /* a security key that did not verify its user */
  RAF_PERMIT_TUNNELS = 256,   /* tunnels (tun(4)) */
  RAF_PERMIT_ANY_TUNNEL = 512 /* whichever device of them; never without RAF_PERMIT_TUNNELS */
};

/* What a login is let in by, and what it may do. Zero permits nothing. */
typedef struct {
  raf_part force_command; /* to be shown: the command that is forced. It may have no bytes, and has
                             none with RAF_PERMIT_ANY_COMMAND: raf_runs says what runs */
  raf_part key_id;        /* the certificate's, a text for logs; of a plain key no bytes */
  raf_part permit_open;   /* where ports may be forwarded, which raf_may_open reads: strings
                             (raf_next_string), two each: a host, and a port of two bytes,
                             big-endian, or of none for any port. Where they may be forwarded
                             anywhere it is "*" at any port, and nowhere it has no bytes */
  raf_part permit_listen; /* likewise where may be listened, which raf_may_listen reads */
  raf_part environment;   /* strings NAME=VALUE (raf_next_string); by its defaults sshd sets none */
  size_t length;          /* how many bytes of the buffer these take */
  size_t line;            /* the number of the line that lets in, from 1; 0 where the certificate
                             alone does. Of a refusal 91 to 96, of the line that refuses */
  size_t text;            /* the number of its text among its like, from 0. Of a refusal 91 to 96 or
                             98 likewise */
  uint64_t serial;        /* the certificate's; of a plain key 0 */
  raf_time_span expires;  /* the last second at which the line counts; UINT64_MAX at any */
  raf_sha256 authority;   /* of the key that signed the certificate; of a plain key zero */
  raf_sha256 key;         /* of the plain key, also of one in a certificate: a server that wants two
                             methods in a row refuses a key that was taken before */
  uint32_t permits;       /* RAF_PERMIT_* */
  uint32_t tunnel;        /* with RAF_PERMIT_TUNNELS alone the only device of tun(4); 0x7fffffff is
                             the "any" that a client asks for */
  uint32_t source;        /* RAF_SOURCE_*; of a refusal 91 to 96 or 98 that of its text, else 0 */
} raf_grant;

/* What has to be verified before a login is let in: of a certificate the authority's signature, and
 * the client's, unless somebody else has verified it. So nothing is verified of what a stranger
 * certified, or where anything else is wrong.
 *
 * RAF_DONE, or RAF_SHORT_BUFFER, exactly if all is right but the signatures (memory aside): then
 * raf_log_in lets in if each answer is yes. Else what raf_log_in says, whatever the answers are;
 * 30 of a certificate that raises no question, and 84 of a client's signature that raises none. A
 * buffer of twice the length of blob, session_id, host_key, signature and user, and 4,608 bytes, is
 * enough. */
uint32_t raf_log_in_questions(const raf_login *login, uint8_t *buffer,
                              size_t buffer_length, raf_login_questions *answer);

/* Lets in who holds the key that is offered, by itself or in a certificate, and has signed with it,
 * as sshd does by its method publickey, and says what the login is bound to. `answers` is the sum of
 * RAF_ASKS_* of the questions to which your verification said yes, and `ticket` the one that came
 * with them. An answer to a question that was not asked does not count.
 *
 * RAF_DONE exactly if (memory and buffer aside)
 *  - what is offered is a key or a certificate that OpenSSH accepts, and it is not revoked;
 *  - the first source that lets it in does so on these terms: the texts of authorized_keys, by the
 *    first line for the key, or cert-authority for its certificate's, that allows the login; then
 *    the authorities, for a certificate that lists the user, or by `principals`; then command_keys.
 *    What refuses is passed over, but a line of principals ends it, and so does what cannot be told;
 *  - the certificate, if it is one, is for users, in normal form, valid then, not revoked, with
 *    options and texts that sshd accepts, and a source-address that has the client's;
 *  - the algorithm is one of what is offered, and the flags of a security key are what server and
 *    grant want;
 *  - the ticket is of these questions, and each has its bit.
 *
 * Else what is wrong first: RAF_UNSIGNED, RAF_TEXT for user or host, RAF_NO_PRINCIPALS; 10 to 29 for
 * bytes that are no key and no certificate; 59; of a key 58 or 56; 96 or 98; 91 to 95 or 90; of a
 * certificate 70, 71, 59, 73 to 76, 31, 58 or 56, 32 to 34, 57; 81, RAF_LENGTH, 86, 82, 83, 85;
 * RAF_OTHER_QUESTIONS; 30; and last 84. RAF_MEMORY only where user and host are UTF-8.
 *
 * With RAF_SHORT_BUFFER `*answer` is zero but for its `length`. With every other answer but RAF_DONE
 * it is zero, which permits nothing, but for `line`, `text` and `source` as above; the buffer stays
 * as it was. To keep to the grant is yours. */
uint32_t raf_log_in(const raf_login *login, const raf_sha256 *ticket, uint32_t answers,
                    uint8_t *buffer, size_t buffer_length, raf_grant *answer);

/* The same for the query without a signature (RFC 4252, section 7): whether what is offered lets in
 * whoever signs with it. `signed_by` is not looked at, the address is not left to the caller, and
 * the authority's question alone is asked. It grants nothing. */
uint32_t raf_may_offer_questions(const raf_login *login, uint8_t *buffer,
                                 size_t buffer_length, raf_login_questions *answer);

/* RAF_DONE exactly if so, with the ticket and the answers as raf_log_in takes them; else what that
 * says, but nothing about a client's signature: of 80 to 86 only 81. */
uint32_t raf_may_offer(const raf_login *login, const raf_sha256 *ticket,
                       uint32_t answers);

/* Whether the client may have a port forwarded to that host and port, as its request names them
 * ("direct-tcpip" of RFC 4254, section 7.2). The grant and the buffer are those that
 * raf_log_in wrote with RAF_DONE.
 *
 * RAF_DONE exactly if the grant permits the forwarding of ports, there is such a port, up to
 * 65,535, and the line has no permitopen or one for them, where "*" is any host and another is
 * compared byte by byte; else RAF_TEXT for a host that is not UTF-8, and RAF_NOT_PERMITTED. Takes no
 * memory. */
uint32_t raf_may_open(const raf_grant *grant, const uint8_t *buffer, size_t buffer_length,
                      const uint8_t *host, size_t host_length, uint32_t port);

/* Whether it may have the server listen at that host and port ("tcpip-forward", section 7.1),
 * likewise by permitlisten, of which a host is a pattern that the client's matches in small letters,
 * as the request has it: "", "localhost" and "127.0.0.1" are three. Port 0, by which the server
 * chooses one, is permitted where any port is. Takes no memory. */
uint32_t raf_may_listen(const raf_grant *grant, const uint8_t *buffer, size_t buffer_length,
                        const uint8_t *host, size_t host_length, uint32_t port);

/* What runs where the client asks for that command ("exec" of RFC 4254, section 6.5), or where it
 * asks for a shell ("shell"): then `asks_command` is 0, and `asked` is not looked at. Ask it each
 * time: it is the way to the command. `granted` is the buffer that raf_log_in wrote with the grant.
 *
 * RAF_DONE with the command in the buffer: the grant's, if it forces one, and else the client's. The
 * user's shell runs it by -c, and where it is empty nothing runs. RAF_END if a shell runs, as a login
 * shell; else RAF_SHORT_BUFFER. A buffer as long as both is enough. Takes no memory. */
uint32_t raf_runs(const raf_grant *grant, const uint8_t *granted, size_t granted_length,
                  const uint8_t *asked, size_t asked_length, uint32_t asks_command,
                  uint8_t *buffer, size_t buffer_length, size_t *length);

/* ---------------------------------------------------------------------------------------------- */

/* A pointer that may be passed beside the length 0, whatever `bytes` is. */
static inline const uint8_t *raf_bytes(const void *bytes) {
  return (const uint8_t *)(bytes ? bytes : (const void *)"");
}

/* The layout that the library was built for: Linux on x86-64 and aarch64. */
#ifdef __cplusplus
#define RAF_IS(fact) static_assert(fact, #fact)
#else
#define RAF_IS(fact) _Static_assert(fact, #fact)
#endif
RAF_IS(sizeof(size_t) == 8);
RAF_IS(offsetof(raf_part, start) == 0);
RAF_IS(offsetof(raf_part, length) == 8);
RAF_IS(sizeof(raf_part) == 16);
RAF_IS(offsetof(raf_sha256, bytes) == 0);
RAF_IS(sizeof(raf_sha256) == 32);
RAF_IS(offsetof(raf_sha512, bytes) == 0);
RAF_IS(sizeof(raf_sha512) == 64);
RAF_IS(offsetof(raf_line, blob) == 0);
RAF_IS(offsetof(raf_line, comment) == 16);
RAF_IS(offsetof(raf_line, length) == 32);
RAF_IS(offsetof(raf_line, kind) == 40);
RAF_IS(sizeof(raf_line) == 48);
RAF_IS(offsetof(raf_question, key) == 0);
RAF_IS(offsetof(raf_question, message) == 16);
RAF_IS(offsetof(raf_question, signature) == 32);
RAF_IS(offsetof(raf_question, length) == 48);
RAF_IS(offsetof(raf_question, algorithm) == 56);
RAF_IS(sizeof(raf_question) == 64);
RAF_IS(offsetof(raf_fields, serial) == 0);
RAF_IS(offsetof(raf_fields, valid_after) == 8);
RAF_IS(offsetof(raf_fields, valid_before) == 16);
RAF_IS(offsetof(raf_fields, certificate_type) == 24);
RAF_IS(offsetof(raf_fields, lists_principals) == 28);
RAF_IS(offsetof(raf_fields, has_critical_options) == 32);
RAF_IS(sizeof(raf_fields) == 40);
RAF_IS(offsetof(raf_parts, key_id) == 0);
RAF_IS(offsetof(raf_parts, principals) == 16);
RAF_IS(offsetof(raf_parts, critical_options) == 32);
RAF_IS(offsetof(raf_parts, extensions) == 48);
RAF_IS(offsetof(raf_parts, authority) == 64);
RAF_IS(sizeof(raf_parts) == 80);
RAF_IS(offsetof(raf_certificate_option_parts, name) == 0);
RAF_IS(offsetof(raf_certificate_option_parts, value) == 16);
RAF_IS(offsetof(raf_certificate_option_parts, next) == 32);
RAF_IS(sizeof(raf_certificate_option_parts) == 40);
RAF_IS(offsetof(raf_span, bytes) == 0);
RAF_IS(offsetof(raf_span, length) == 8);
RAF_IS(sizeof(raf_span) == 16);
RAF_IS(offsetof(raf_spans, items) == 0);
RAF_IS(offsetof(raf_spans, count) == 8);
RAF_IS(sizeof(raf_spans) == 16);
RAF_IS(offsetof(raf_digests, items) == 0);
RAF_IS(offsetof(raf_digests, count) == 8);
RAF_IS(sizeof(raf_digests) == 16);
RAF_IS(offsetof(raf_draft, key) == 0);
RAF_IS(offsetof(raf_draft, nonce) == 16);
RAF_IS(offsetof(raf_draft, key_id) == 32);
RAF_IS(offsetof(raf_draft, principals) == 48);
RAF_IS(offsetof(raf_draft, critical_options) == 64);
RAF_IS(offsetof(raf_draft, extensions) == 80);
RAF_IS(offsetof(raf_draft, authority) == 96);
RAF_IS(offsetof(raf_draft, serial) == 112);
RAF_IS(offsetof(raf_draft, valid_after) == 120);
RAF_IS(offsetof(raf_draft, valid_before) == 128);
RAF_IS(offsetof(raf_draft, certificate_type) == 136);
RAF_IS(offsetof(raf_draft, all_principals) == 140);
RAF_IS(sizeof(raf_draft) == 144);
RAF_IS(offsetof(raf_host_login, known_hosts) == 0);
RAF_IS(offsetof(raf_host_login, host) == 16);
RAF_IS(offsetof(raf_host_login, revoked) == 32);
RAF_IS(offsetof(raf_host_login, unix_timestamp) == 48);
RAF_IS(offsetof(raf_host_login, least_rsa_bits) == 56);
RAF_IS(offsetof(raf_host_login, port) == 60);
RAF_IS(sizeof(raf_host_login) == 64);
RAF_IS(offsetof(raf_line_place, length) == 0);
RAF_IS(offsetof(raf_line_place, names) == 8);
RAF_IS(sizeof(raf_line_place) == 16);
RAF_IS(offsetof(raf_entry, front) == 0);
RAF_IS(offsetof(raf_entry, key) == 16);
RAF_IS(offsetof(raf_entry, comment) == 32);
RAF_IS(offsetof(raf_entry, length) == 48);
RAF_IS(offsetof(raf_entry, marker) == 56);
RAF_IS(sizeof(raf_entry) == 64);
RAF_IS(offsetof(raf_line_option_parts, name) == 0);
RAF_IS(offsetof(raf_line_option_parts, value) == 16);
RAF_IS(offsetof(raf_line_option_parts, length) == 32);
RAF_IS(offsetof(raf_line_option_parts, next) == 40);
RAF_IS(offsetof(raf_line_option_parts, has_value) == 48);
RAF_IS(sizeof(raf_line_option_parts) == 56);
RAF_IS(offsetof(raf_time_span, first) == 0);
RAF_IS(offsetof(raf_time_span, last) == 8);
RAF_IS(sizeof(raf_time_span) == 16);
RAF_IS(offsetof(raf_destination, host) == 0);
RAF_IS(offsetof(raf_destination, port) == 16);
RAF_IS(sizeof(raf_destination) == 24);
RAF_IS(offsetof(raf_offer, user) == 0);
RAF_IS(offsetof(raf_offer, algorithm) == 16);
RAF_IS(offsetof(raf_offer, blob) == 32);
RAF_IS(sizeof(raf_offer) == 48);
RAF_IS(offsetof(raf_signed, session_id) == 0);
RAF_IS(offsetof(raf_signed, host_key) == 16);
RAF_IS(offsetof(raf_signed, signature) == 32);
RAF_IS(offsetof(raf_signed, how) == 48);
RAF_IS(offsetof(raf_signed, has_host_key) == 52);
RAF_IS(offsetof(raf_signed, flags) == 56);
RAF_IS(sizeof(raf_signed) == 64);
RAF_IS(offsetof(raf_text, text) == 0);
RAF_IS(offsetof(raf_text, is_read) == 16);
RAF_IS(sizeof(raf_text) == 24);
RAF_IS(offsetof(raf_texts, items) == 0);
RAF_IS(offsetof(raf_texts, count) == 8);
RAF_IS(sizeof(raf_texts) == 16);
RAF_IS(offsetof(raf_trusted, authorized_keys) == 0);
RAF_IS(offsetof(raf_trusted, authorities) == 16);
RAF_IS(offsetof(raf_trusted, principals) == 32);
RAF_IS(offsetof(raf_trusted, command_keys) == 48);
RAF_IS(offsetof(raf_trusted, revoked) == 64);
RAF_IS(offsetof(raf_trusted, principals_from) == 80);
RAF_IS(offsetof(raf_trusted, least_rsa_bits) == 84);
RAF_IS(offsetof(raf_trusted, requires_touch) == 88);
RAF_IS(offsetof(raf_trusted, requires_verification) == 92);
RAF_IS(sizeof(raf_trusted) == 96);
RAF_IS(offsetof(raf_place, client) == 0);
RAF_IS(offsetof(raf_place, host) == 16);
RAF_IS(offsetof(raf_place, unix_timestamp) == 32);
RAF_IS(offsetof(raf_place, caller_checks_address) == 40);
RAF_IS(sizeof(raf_place) == 48);
RAF_IS(offsetof(raf_login, offer) == 0);
RAF_IS(offsetof(raf_login, signed_by) == 48);
RAF_IS(offsetof(raf_login, trusted) == 112);
RAF_IS(offsetof(raf_login, place) == 208);
RAF_IS(sizeof(raf_login) == 256);
RAF_IS(offsetof(raf_login_questions, authority) == 0);
RAF_IS(offsetof(raf_login_questions, client) == 64);
RAF_IS(offsetof(raf_login_questions, length) == 128);
RAF_IS(offsetof(raf_login_questions, ticket) == 136);
RAF_IS(offsetof(raf_login_questions, asked) == 168);
RAF_IS(sizeof(raf_login_questions) == 176);
RAF_IS(offsetof(raf_grant, force_command) == 0);
RAF_IS(offsetof(raf_grant, key_id) == 16);
RAF_IS(offsetof(raf_grant, permit_open) == 32);
RAF_IS(offsetof(raf_grant, permit_listen) == 48);
RAF_IS(offsetof(raf_grant, environment) == 64);
RAF_IS(offsetof(raf_grant, length) == 80);
RAF_IS(offsetof(raf_grant, line) == 88);
RAF_IS(offsetof(raf_grant, text) == 96);
RAF_IS(offsetof(raf_grant, serial) == 104);
RAF_IS(offsetof(raf_grant, expires) == 112);
RAF_IS(offsetof(raf_grant, authority) == 128);
RAF_IS(offsetof(raf_grant, key) == 160);
RAF_IS(offsetof(raf_grant, permits) == 192);
RAF_IS(offsetof(raf_grant, tunnel) == 196);
RAF_IS(offsetof(raf_grant, source) == 200);
RAF_IS(sizeof(raf_grant) == 208);
#undef RAF_IS

#ifdef __cplusplus
}
#endif
#endif
