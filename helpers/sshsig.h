/* SSH signatures, as `ssh-keygen -Y sign` writes them: their armour, and whether one counts. */
#ifndef SSHSIG_H
#define SSHSIG_H
#include <stddef.h>
#include <stdint.h>
#include "reading.h"

#ifdef __cplusplus
extern "C" {
#endif

/* The bytes of the signature in an armour, of malloc: what raf_read_armour answers. */
uint32_t raf_read_armour_blob(raf_blob text, raf_blob *answer);

/* How long the digest of a message is by the hash that the signature names: 32 by SHA-256 and 64 by
 * SHA-512; 0 where it names none. */
size_t raf_sshsig_digest_length(raf_blob signature);

/* Whether the signature counts, in that namespace, for a message with that digest: RAF_DONE, or
 * what is wrong first. RAF_SIGNER_NOT_ALLOWED says that none of the keys made it: then no
 * cryptography runs over its key. With reserved bytes it is RAF_NOT_SIGNED: ssh-keygen verifies
 * it as if there were none. */
uint32_t raf_verify_sshsig_of_digest(raf_blob signature, const char *name_space, raf_blob digest,
                                     raf_authorities keys);

/* By whom a signature has to be, as `ssh-keygen -Y verify` asks, or more strictly: a time without Z
 * in the text, which is of the machine's zone there, has to hold in every zone here. */
typedef struct {
  raf_blob text;           /* that of a file of allowed signers */
  const char *identity;    /* one of those whom it names; null is nobody */
  uint64_t unix_timestamp; /* when that is */
  raf_spans revoked;       /* what revocation files have, or RAF_NO_REVOCATIONS */
} raf_signers;

/* The same, as the identity's by allowed signers: RAF_DONE, or what is wrong first, a status:
 * RAF_*. */
uint32_t raf_verify_signer_of_digest(raf_blob signature, const char *name_space, raf_blob digest,
                                     const raf_signers *by);

#ifdef __cplusplus
}
#endif
#endif
