#include "sshsig.h"

#include <stdlib.h>
#include <string.h>

#include "sha1.h"
#include "verify.h"

/* where the strings of a signature begin, after SSHSIG and the version: key, namespace, reserved
 * bytes, hash, signature (PROTOCOL.sshsig) */
#define STRINGS 10
enum { HASH = 3, SIGNATURE = 4 };

/* ---- armour */

uint32_t raf_read_armour_blob(raf_blob text, raf_blob *answer) {
  /* a buffer as long as the text is enough, and one of no bytes may be null */
  raf_blob made = {calloc(1, text.length + 1), 0};
  if (!made.bytes) return RAF_MEMORY;
  uint32_t status = raf_read_armour(raf_bytes(text.bytes), text.length, made.bytes, text.length,
                                    &made.length);
  if (status == RAF_DONE)
    *answer = made;
  else
    free(made.bytes);
  return status;
}

/* ---- what it says */

/* A string of the signature, which may be none: it has no bytes where there is no such string. */
static raf_part string_of(raf_blob signature, int number) {
  raf_part part = {STRINGS, 0}, none = {0, 0};
  for (int at = 0; at <= number; at++)
    if (raf_next_string(signature.bytes, signature.length, part.start + part.length, &part) !=
        RAF_DONE)
      return none;
  return part;
}

size_t raf_sshsig_digest_length(raf_blob signature) {
  raf_part hash = string_of(signature, HASH);
  if (hash.length != 6) return 0;
  if (!memcmp(signature.bytes + hash.start, "sha256", 6)) return 32;
  return memcmp(signature.bytes + hash.start, "sha512", 6) ? 0 : 64;
}

/* The answer; but a fault is RAF_LATER_KEY where the signature names a later kind, and RAF_LENGTH is
 * RAF_RSA_SHA1 where that is what it names. */
static uint32_t told(uint32_t answer, raf_blob signature) {
  static const char sha1[] = "\0\0\0\7ssh-rsa";
  raf_part own = string_of(signature, SIGNATURE);
  bool is_fault = answer >= RAF_BASE64 && answer <= RAF_OTHER_ERROR;
  if (is_fault && raf_names_later_kind(signature.bytes, signature.length) == RAF_DONE)
    return RAF_LATER_KEY;
  if (answer != RAF_LENGTH || own.length < sizeof sha1 - 1) return answer;
  return memcmp(signature.bytes + own.start, sha1, sizeof sha1 - 1) ? answer : RAF_RSA_SHA1;
}

/* RAF_DONE where the signature is one of the message with that digest. */
static uint32_t verify_question(raf_blob signature, const char *name_space, raf_blob digest) {
  /* a buffer of this length is enough */
  size_t buffer_length = 2 * signature.length + 2304;
  uint8_t *buffer = calloc(1, buffer_length);
  raf_question question;
  raf_sha256 signer = {{0}};
  memset(&question, 0, sizeof question);
  if (!buffer) return RAF_MEMORY;
  uint32_t answer = raf_sshsig_question_of_digest(
      signature.bytes, signature.length, (const uint8_t *)name_space, strlen(name_space),
      digest.bytes, digest.length, buffer, buffer_length, &question, &signer);
  if (answer == RAF_DONE && !raf_is_signature(&question, buffer)) answer = RAF_NOT_SIGNED;
  free(buffer);
  return answer;
}

/* Whether it counts by those keys, where that is what the verification said. */
static uint32_t check_by_keys(raf_blob signature, const char *name_space, raf_authorities keys,
                              bool is_verified) {
  raf_digests signers = raf_authority_digests(keys);
  return raf_check_sshsig(signature.bytes, signature.length, (const uint8_t *)name_space,
                          strlen(name_space), signers.items, signers.count, is_verified);
}

uint32_t raf_verify_sshsig_of_digest(raf_blob signature, const char *name_space, raf_blob digest,
                                     raf_authorities keys) {
  /* no cryptography runs over a key that may not sign */
  uint32_t answer = check_by_keys(signature, name_space, keys, false);
  if (answer == RAF_NOT_SIGNED) answer = verify_question(signature, name_space, digest);
  return answer == RAF_DONE ? check_by_keys(signature, name_space, keys, true)
                               : told(answer, signature);
}

/* Whether it counts by the file of allowed signers, likewise. */
static uint32_t check_allowed(raf_blob signature, const char *name_space,
                              const raf_signers *by, bool is_verified) {
  return raf_check_signer(
      raf_bytes(by->text.bytes), by->text.length, (const uint8_t *)by->identity,
      strlen(by->identity), (const uint8_t *)name_space, strlen(name_space), signature.bytes,
      signature.length, by->unix_timestamp, by->revoked.items, by->revoked.count, is_verified);
}

uint32_t raf_verify_signer_of_digest(raf_blob signature, const char *name_space, raf_blob digest,
                                     const raf_signers *by) {
  if (!by->identity) return RAF_SIGNER_NOT_ALLOWED;
  uint32_t answer = check_allowed(signature, name_space, by, false);
  if (answer == RAF_NOT_SIGNED) answer = verify_question(signature, name_space, digest);
  return answer == RAF_DONE ? check_allowed(signature, name_space, by, true)
                               : told(answer, signature);
}
