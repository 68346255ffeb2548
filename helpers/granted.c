#include "granted.h"

#include <stdlib.h>
#include <string.h>

#include "verdict.h"

/* enough for most grants */
#define FIRST_LENGTH 4096

uint32_t granted_ask(const raf_login *login, granted_login *answer) {
  uint32_t said = RAF_SHORT_BUFFER;
  size_t length = FIRST_LENGTH;
  memset(answer, 0, sizeof *answer);
  /* a second buffer has the length that the first answer told */
  for (int tries = 2; tries && said == RAF_SHORT_BUFFER; tries--) {
    free(answer->buffer);
    answer->buffer = calloc(1, length);
    if (!answer->buffer) return RAF_MEMORY;
    said = raf_verify_login(login, answer->buffer, length, &answer->grant);
    length = answer->grant.length;
  }
  return said;
}

/* What is said of the certificate but for its signature and its time: whose it is, and whom it
 * lists. */
static uint32_t ask_whose(const raf_login *login) {
  raf_digests by = login->trusted.authorities;
  raf_span blob = login->offer.blob, user = login->offer.user;
  raf_fields fields;
  memset(&fields, 0, sizeof fields);
  uint32_t answer = raf_certificate_fields(blob.bytes, blob.length, &fields);
  if (answer != RAF_DONE) return answer;
  return raf_check_certificate_for(blob.bytes, blob.length, fields.valid_after, user.bytes,
                                   user.length, by.items, by.count, 1);
}

const char *granted_unlisted_words(const raf_login *login, bool is_certificate) {
  bool has_lines = login->trusted.authorized_keys.count || login->trusted.command_keys.count;
  if (has_lines && !login->trusted.authorities.count) return "no line is for the key";
  if (has_lines || !is_certificate) return NULL;
  uint32_t answer = ask_whose(login);
  if (answer == RAF_UNTRUSTED_AUTHORITY) return raf_status_meaning(answer);
  if (answer != RAF_DONE && answer != RAF_UNLISTED_PRINCIPAL) return NULL;
  if (login->trusted.principals_from == RAF_PRINCIPALS_IN_FILES)
    return "no line is for a principal that it lists";
  /* one that lists nobody is not asked for a name there */
  return raf_status_meaning(answer == RAF_DONE ? (uint32_t)RAF_VALID_PRINCIPALS : answer);
}
