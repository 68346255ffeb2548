/* A verifier in place of libcrypto's, for programs of processors that have none here: its answers
 * say nothing of signatures, and are the same on each processor. */
#include "verify.h"

bool raf_is_signature(const raf_question *question, const uint8_t *room) {
  unsigned sum = question->algorithm;
  for (size_t at = 0; at < question->length; at++) sum += room[at];
  return sum % 2;
}

bool raf_digest_stream(FILE *file, uint8_t *digest, size_t length) {
  (void)file;
  for (size_t at = 0; at < length; at++) digest[at] = (uint8_t)at;
  return true;
}
