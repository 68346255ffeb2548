/* What sshkey-check says of SSH signatures, also in the words of ssh-keygen -Y, which git reads. */
#include <errno.h>
#include <stdlib.h>
#include <string.h>

#include "check.h"
#include "show.h"
#include "text.h"
#include "verify.h"

/* ---- what a signature names */

/* Its key, which is the first of its strings, or its namespace, which is the second; of no bytes
 * where it has none. */
static raf_span string_of(raf_blob signature, int number) {
  raf_part part = {10, 0}; /* after SSHSIG and the version */
  for (int at = 0; at <= number; at++)
    if (raf_next_string(signature.bytes, signature.length, part.start + part.length, &part) !=
        RAF_DONE)
      return (raf_span){signature.bytes, 0};
  return text_part(signature.bytes, part);
}

/* ---- who may sign */

/* A signature, and how many names are printed for it. */
typedef struct {
  const check_request *asked;
  raf_blob signature;
  size_t printed;
} sought;

/* Whether the signature's key may sign by that line for a name, in its namespace. */
static uint32_t check_name(raf_span line, raf_span name, const sought *it) {
  raf_span space = string_of(it->signature, 1);
  raf_spans revoked = RAF_NO_REVOCATIONS;
  return raf_check_signer(line.bytes, line.length, name.bytes, name.length, space.bytes,
                          space.length, it->signature.bytes, it->signature.length,
                          it->asked->second, revoked.items, revoked.count, 0);
}

/* Prints each name of a line of allowed signers for which the key may sign: verify is asked
 * next. */
static uint32_t print_names(const char *line, size_t length, size_t number, void *given) {
  sought *it = given;
  raf_span left = {(const uint8_t *)line, length}, whole = left;
  const char *end = *line == '"' ? "\"" : " \t";
  (void)number;
  if (*line == '"') left.bytes++, left.length--;
  for (bool is_last = false; !is_last && left.length;) {
    raf_span name = {left.bytes, 0};
    while (name.length < left.length && left.bytes[name.length] != ',' &&
           !strchr(end, left.bytes[name.length]))
      name.length++;
    is_last = name.length == left.length || left.bytes[name.length] != ',';
    left.bytes += name.length + !is_last, left.length -= name.length + !is_last;
    uint32_t answer = check_name(whole, name, it);
    if (answer == RAF_MEMORY) return answer;
    if (answer != RAF_NOT_SIGNED) continue;
    fwrite(name.bytes, 1, name.length, stdout);
    putchar('\n');
    it->printed++;
  }
  return RAF_DONE;
}

static int find_names(raf_blob signature, const check_request *asked) {
  sought it = {asked, signature, 0};
  size_t number;
  const char *path = asked->given[CHECK_SIGNERS];
  uint32_t answer = program_each_line(asked->allowed.text, print_names, &it, &number);
  if (answer != RAF_DONE)
    program_complain("%s:%zu: %s", path, number, raf_status_meaning(answer));
  else if (!it.printed)
    program_complain("%s: no line lets the key sign", path);
  if (!program_is_written() || answer != RAF_DONE) return UNTOLD;
  return it.printed ? VALID : INVALID;
}

/* ---- whether it counts */

/* Whether it is one by its own key, whoever has that. */
static uint32_t verify_own(raf_blob signature, const char *name_space, raf_blob digest) {
  raf_sha256 own = {{0}};
  raf_span key = string_of(signature, 0);
  uint32_t answer = raf_fingerprint(key.bytes, key.length, &own);
  return answer == RAF_DONE ? raf_verify_sshsig_of_digest(signature, name_space, digest,
                                                          (raf_authorities){&own, 1})
                            : answer;
}

/* Says in ssh-keygen's words that it counts, or that it does not. */
static void print_as_keygen(raf_blob signature, uint32_t answer, const check_request *asked) {
  const char *identity = asked->given[CHECK_IDENTITY];
  if (answer != RAF_DONE) {
    puts("Could not verify signature.");
    return;
  }
  printf("Good \"");
  text_print(string_of(signature, 1));
  printf("\" signature ");
  if (identity) {
    printf("for ");
    text_print(raf_text_span(identity));
    putchar(' ');
  }
  printf("with ");
  show_named_key(string_of(signature, 0), " key");
  putchar('\n');
}

/* Whether the signature counts, with that digest of the message. */
static uint32_t verify_digest(raf_blob signature, raf_blob digest, const check_request *asked) {
  const char *name_space = asked->given[CHECK_NAMESPACE];
  switch (asked->mode) {
  case CHECK_UNKNOWN: return verify_own(signature, name_space, digest);
  case CHECK_VERIFY:
    return raf_verify_sshsig_of_digest(signature, name_space, digest, asked->by);
  default: return raf_verify_signer_of_digest(signature, name_space, digest, &asked->allowed);
  }
}

/* Says whether the signature counts for what is left of the file, and returns the status. */
static int verify_file(raf_blob signature, FILE *file, const check_request *asked) {
  uint8_t bytes[64];
  raf_blob digest = {bytes, raf_sshsig_digest_length(signature)};
  report of = check_report(asked, 0);
  of.message = of.path;
  of.path = asked->given[CHECK_SIGNATURE];
  /* what names no hash is refused, whatever the digest is */
  if (!digest.length) digest.length = 32;
  if (!raf_digest_stream(file, digest.bytes, digest.length)) {
    program_complain("%s: %s", of.message, strerror(errno));
    return UNTOLD;
  }
  uint32_t answer = verify_digest(signature, digest, asked);
  bool is_told = !check_can_not_tell(answer);
  bool is_keygen = asked->mode == CHECK_UNKNOWN || asked->mode == CHECK_KEYGEN;
  if (is_told && is_keygen) print_as_keygen(signature, answer, asked);
  if (answer == RAF_DONE && !is_keygen)
    report_valid(&of);
  else if (answer != RAF_DONE && !check_name_unread(&asked->revoked, answer))
    (is_told && !is_keygen ? report_refused : report_complain)(&of, answer);
  if (!program_is_written() || !is_told) return UNTOLD;
  return answer == RAF_DONE ? VALID : INVALID;
}

int check_signature(raf_blob text, FILE *file, const check_request *asked) {
  raf_blob signature = {NULL, 0};
  uint32_t answer = raf_read_armour_blob(text, &signature);
  if (answer != RAF_DONE) {
    program_complain("%s: %s", asked->given[CHECK_SIGNATURE],
                     answer == RAF_MEMORY ? raf_status_meaning(answer) : "no SSH signature");
    return UNTOLD;
  }
  int status = asked->mode == CHECK_FIND ? find_names(signature, asked)
                                         : verify_file(signature, file, asked);
  free(signature.bytes);
  return status;
}
