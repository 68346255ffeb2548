/* Answers a question of rafendilo.h with OpenSSL's libcrypto. */
#ifndef VERIFY_H
#define VERIFY_H
#include <stdbool.h>
#include <stdio.h>
#include "rafendilo.h"

#ifdef __cplusplus
extern "C" {
#endif

/* Whether the signature is one of the message under the key. The buffer is the one that the
 * question was written to. False also where libcrypto fails, and for DSA. */
bool raf_is_signature(const raf_question *question, const uint8_t *buffer);

/* Writes the digest of what is left of the file, by SHA-256 or SHA-512 as the length says: 32 or 64
 * bytes. False where it can't be read, or libcrypto fails. */
bool raf_digest_stream(FILE *file, uint8_t *digest, size_t length);

#ifdef __cplusplus
}
#endif
#endif
