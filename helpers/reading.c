#include "reading.h"

#include <stdio.h>
#include <stdlib.h>
#include <string.h>

#include "sha1.h"

raf_span raf_blob_span(raf_blob blob) {
  return (raf_span){raf_bytes(blob.bytes), blob.length};
}

raf_span raf_text_span(const char *text) {
  return (raf_span){(const uint8_t *)text, strlen(text)};
}

raf_digests raf_authority_digests(raf_authorities by) {
  static const raf_sha256 none = {{0}};
  return (raf_digests){by.keys ? by.keys : &none, by.count};
}

/* What RAF_LENGTH of the line of a certificate comes from, where that is known. */
static uint32_t told_length(const char *line, size_t length) {
  raf_blob found = {NULL, 0};
  uint32_t answer = raf_read_sha1_line(line, length, &found);
  free(found.bytes);
  return answer;
}

/* The same, but RAF_LATER_KEY where the bytes of the line name a later kind. */
static uint32_t told_kind(const char *line, size_t length, uint32_t status) {
  raf_blob found = raf_decode_second_word(line, length, 0);
  if (!found.bytes) return RAF_MEMORY;
  if (raf_names_later_kind(found.bytes, found.length) == RAF_DONE) status = RAF_LATER_KEY;
  free(found.bytes);
  return status;
}

uint32_t raf_read_line_blob(const char *line, size_t length, uint32_t kind, raf_blob *answer) {
  /* a buffer as long as the line is enough */
  uint8_t *buffer = calloc(1, length + 1);
  raf_line found;
  memset(&found, 0, sizeof found);
  if (!buffer) return RAF_MEMORY;
  uint32_t status = raf_read_line((const uint8_t *)line, length, buffer, length, &found);
  if (status != RAF_DONE && status != RAF_MEMORY) status = told_kind(line, length, status);
  if (status == RAF_DONE && found.kind != kind) status = RAF_LABEL;
  if (status == RAF_LENGTH && kind == RAF_LINE_CERTIFICATE) status = told_length(line, length);
  if (status != RAF_DONE) {
    free(buffer);
    return status;
  }
  memmove(buffer, buffer + found.blob.start, found.blob.length);
  *answer = (raf_blob){buffer, found.blob.length};
  return status;
}

uint32_t raf_read_words_blob(const char *type, const char *base64, uint32_t kind,
                             raf_blob *answer) {
  size_t length = strlen(type) + 1 + strlen(base64);
  char *line = malloc(length + 1);
  if (!line) return RAF_MEMORY;
  snprintf(line, length + 1, "%s %s", type, base64);
  uint32_t status = raf_read_line_blob(line, length, kind, answer);
  free(line);
  return status;
}

bool raf_read_stream(FILE *file, raf_blob *answer) {
  raf_blob text = {NULL, 0};
  bool good = true;
  for (size_t buffer = 0, read = 1; good && read;) {
    if (text.length == buffer) {
      uint8_t *more = realloc(text.bytes, buffer = 2 * buffer + 4096);
      good = more != NULL;
      if (more) text.bytes = more;
    }
    read = good ? fread(text.bytes + text.length, 1, buffer - text.length, file) : 0;
    text.length += read;
  }
  good = good && !ferror(file);
  if (good)
    *answer = text;
  else
    free(text.bytes);
  return good;
}

bool raf_read_file(const char *path, raf_blob *answer) {
  FILE *file = fopen(path, "rb");
  bool good = file && raf_read_stream(file, answer);
  if (file) fclose(file);
  return good;
}

/* Adds the authority where one was found. */
static uint32_t add_found(raf_authorities *to, uint32_t answer, raf_sha256 found) {
  if (answer != RAF_DONE) return answer;
  raf_sha256 *more = realloc(to->keys, (to->count + 1) * sizeof *more);
  if (!more) return RAF_MEMORY;
  more[to->count++] = found;
  to->keys = more;
  return RAF_DONE;
}

uint32_t raf_add_authority(raf_authorities *to, const char *line, size_t length) {
  raf_sha256 found = {{0}};
  uint32_t answer = raf_authority((const uint8_t *)line, length, &found);
  return add_found(to, answer, found);
}

uint32_t raf_add_user_authority(raf_authorities *to, const char *line, size_t length,
                                const char *user) {
  raf_sha256 found = {{0}};
  raf_span name = raf_text_span(user);
  uint32_t answer =
      raf_user_authority((const uint8_t *)line, length, name.bytes, name.length, &found);
  return add_found(to, answer, found);
}

/* ---- words */

static const struct {
  uint32_t status;
  const char *words;
} meanings[] = {
    {RAF_DONE, "valid"},
    {RAF_MEMORY, "no memory"},
    {RAF_SHORT_BUFFER, "the buffer is too short"},
    {RAF_END, "nothing is left"},
    {RAF_TEXT, "a name or a text that is given is not UTF-8"},
    {RAF_BASE64, "not Base64"},
    {RAF_CHARACTER_ENCODING, "a text that is not UTF-8"},
    {RAF_LABEL, "a name that may not stand there"},
    {RAF_LENGTH, "a length that passes the bytes"},
    {RAF_TRAILING_DATA, "bytes after the end"},
    {RAF_FORMAT, "a value that has not the form of its kind"},
    {RAF_ALGORITHM_UNKNOWN, "two names that have to be one"},
    {RAF_CRYPTO, "a number that is not positive"},
    {RAF_ECDSA, "no encoding of a point"},
    {RAF_TIME, "a time above 2^63 - 1"},
    {RAF_NAMESPACE, "an empty namespace"},
    {RAF_PUBLIC_KEY, "a public key that is not the private one's"},
    {RAF_UNSUPPORTED_VERSION, "a version that is not read"},
    {RAF_OTHER_ERROR, "another error"},
    {RAF_RSA_SHA1, "signed by RSA with SHA-1"},
    {RAF_NOT_SIGNED, "not signed"},
    {RAF_UNTRUSTED_AUTHORITY, "another authority"},
    {RAF_INVALID_TIME, "no time that a certificate has"},
    {RAF_OUT_OF_WINDOW, "not valid at that time"},
    {RAF_UNLISTED_PRINCIPAL, "another principal"},
    {RAF_UNSUPPORTED, "key and signature do not go together"},
    {RAF_OTHER_NAMESPACE, "another namespace"},
    {RAF_PRINCIPALS, "a list of principals against what is said of all"},
    {RAF_EMPTY_WINDOW, "a window without a second"},
    {RAF_HOST_REVOKED, "revoked for the host"},
    {RAF_HOST_UNREADABLE, "a line that may revoke it and can't be read"},
    {RAF_HOST_CHANGED, "another key than the one known for the host"},
    {RAF_HOST_UNKNOWN, "no key or authority is known for the host"},
    {RAF_SIGNER_NOT_ALLOWED, "no allowed signer"},
    {RAF_REVOKED, "revoked"},
    {RAF_ELSEWHERE, "from an address that is not allowed"},
    {RAF_UNREADABLE_REVOCATIONS, "the revocation file can't be read"},
    {RAF_KEY_NOT_ACCEPTED, "a kind or a size of key that OpenSSH does not let in"},
    {RAF_LATER_KEY, "a later kind of key, which is not read"},
    {RAF_UNSAFE_MODE, "another's, or others may write it"},
    {RAF_NOT_NORMAL_FORM, "not in its normal form"},
    {RAF_OTHER_TYPE, "for hosts in place of users, or for users in place of hosts"},
    {RAF_OTHER_KEY, "another key"},
    {RAF_CRITICAL_OPTIONS, "a critical option that is not known, or not read"},
    {RAF_EXTENSIONS, "an extension that is not read"},
    {RAF_KEY_ID, "a zero byte in the key id"},
    {RAF_VALID_PRINCIPALS, "no principals, or some that are not read"},
    {RAF_OTHER_REQUEST, "signed for another request"},
    {RAF_OTHER_ALGORITHM, "another algorithm than the request's"},
    {RAF_UNTOUCHED, "a security key that nobody touched"},
    {RAF_UNVERIFIED, "a security key that did not verify its user"},
    {RAF_CLIENT_NOT_SIGNED, "not signed by the client"},
    {RAF_NO_FLAGS, "a security key whose flags nobody tells"},
    {RAF_NO_SIGNATURE, "no signature"},
    {RAF_USER_NOT_LISTED, "no line is for the key, and no authority lists the user"},
    {RAF_LINE_EXPIRED, "a line whose time is over"},
    {RAF_LINE_OPTION, "a line with principals and without cert-authority"},
    {RAF_LINE_ELSEWHERE, "a line for other places"},
    {RAF_LINE_COMMAND, "a line with another command than the certificate's"},
    {RAF_LINE_PRINCIPALS, "a line for nobody whom the certificate lists"},
    {RAF_LINE_UNCLEAR, "a line that can't be told"},
    {RAF_NOT_PERMITTED, "the grant does not permit it"},
    {RAF_TEXT_UNREADABLE, "a text that could not be read"},
    {RAF_NO_PORT, "port 0"},
    {RAF_NO_HOST, "no host"},
    {RAF_NO_ADDRESS, "a host that is like an address, and has no one text"},
    {RAF_NO_IDENTITY, "no identity"},
    {RAF_UNSIGNED, "nobody has seen the signature"},
    {RAF_NO_PRINCIPALS, "not told whom authorities let in"},
    {RAF_OTHER_QUESTIONS, "answers to other questions"},
};

const char *raf_status_meaning(uint32_t status) {
  for (size_t at = 0; at < sizeof meanings / sizeof *meanings; at++)
    if (meanings[at].status == status) return meanings[at].words;
  return "a status without words";
}
