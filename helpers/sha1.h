/* Certificates that RSA with SHA-1 signed, which the library does not read: OpenSSH before 8.2
 * makes such by an RSA key. */
#ifndef SHA1_H
#define SHA1_H
#include <stddef.h>
#include <stdint.h>
#include "reading.h"

#ifdef __cplusplus
extern "C" {
#endif

/* RAF_RSA_SHA1 where the line is that of a certificate, but that its signature is one by SHA-1;
 * else RAF_LENGTH, or RAF_MEMORY. With the first the answer is the certificate under another name
 * in its signature, rsa-sha2-256, so that the calls of rafendilo.h read all that stands before:
 * nobody signed it, and it is there to be shown. */
uint32_t raf_read_sha1_line(const char *line, size_t length, raf_blob *answer);

/* The bytes that the second word of a line spells in Base64, of malloc, with so much room behind
 * them: none where it spells none, and a null pointer where memory ran out. */
raf_blob raf_decode_second_word(const char *line, size_t length, size_t room);

/* Decodes Base64 with white space in it to the front of the same bytes: their number, or SIZE_MAX
 * where it is none. */
size_t raf_decode_base64(uint8_t *bytes, size_t length);

#ifdef __cplusplus
}
#endif
#endif
