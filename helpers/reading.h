/* What programs read, as the calls of rafendilo.h take it: lines, words, streams and files; and the
 * words for what these calls return. A login is raf_verify_login (verdict.h). */
#ifndef READING_H
#define READING_H
#include <stdbool.h>
#include <stddef.h>
#include <stdint.h>
#include <stdio.h>
#include <time.h>
#include "rafendilo.h"

#ifdef __cplusplus
extern "C" {
#endif

/* Bytes of malloc. */
typedef struct {
  uint8_t *bytes;
  size_t length;
} raf_blob;

/* The same bytes, and those of a text, as calls take them: while they are there. */
raf_span raf_blob_span(raf_blob blob);
raf_span raf_text_span(const char *text);

/* Authorities, by the fingerprints of their keys, of malloc; and as calls take them. */
typedef struct {
  raf_sha256 *keys;
  size_t count;
} raf_authorities;

raf_digests raf_authority_digests(raf_authorities by);

/* The key or the certificate of a line, as the kind says: RAF_DONE, or why there is none;
 * RAF_RSA_SHA1 for a certificate that RSA with SHA-1 signed, and RAF_LATER_KEY where its bytes name
 * a later kind, of the key, of the authority or in a signature (raf_names_later_kind). */
uint32_t raf_read_line_blob(const char *line, size_t length, uint32_t kind, raf_blob *answer);

/* The same of two words, as sshd gives them: a type, and Base64. */
uint32_t raf_read_words_blob(const char *type, const char *base64, uint32_t kind, raf_blob *answer);

/* Reads what is left of a file; false where it can't, and errno says why. */
bool raf_read_stream(FILE *file, raf_blob *answer);

/* Reads a file of that path, likewise. */
bool raf_read_file(const char *path, raf_blob *answer);

/* Adds the key of the line to the authorities: RAF_DONE, or what raf_authority answers: with
 * RAF_LATER_KEY pass over the line, and else refuse the file. */
uint32_t raf_add_authority(raf_authorities *to, const char *line, size_t length);

/* The same of a line that says for whom it may sign (raf_user_authority): with RAF_END pass
 * over it, too. */
uint32_t raf_add_user_authority(raf_authorities *to, const char *line, size_t length,
                                const char *user);

/* What a status means, in words: each has its own. */
const char *raf_status_meaning(uint32_t status);

#ifdef __cplusplus
}
#endif
#endif
