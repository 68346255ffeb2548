/* Asks the functions of helpers/reading.h, sshsig.h, verdict.h and verify.h, for checks/foreign.c,
 * which has the helpers. The verifier is linked with --wrap. */
#ifndef HELPER_CALLS_H
#define HELPER_CALLS_H

/* How often the verifier was asked. */
static size_t verifications;

bool __real_raf_is_signature(const raf_question *question, const uint8_t *room);

bool __wrap_raf_is_signature(const raf_question *question, const uint8_t *room) {
  verifications++;
  return __real_raf_is_signature(question, room);
}

/* The bytes of the word as a text of malloc, which ends at its first zero byte. */
static char *text_of(const char *word) {
  raf_blob bytes = bytes_of(word);
  char *text = calloc(1, bytes.length + 1);
  if (!text) exit(3);
  memcpy(text, bytes.bytes, bytes.length);
  free(bytes.bytes);
  return text;
}

/* ---- which host it is */

/* Says where a verification was asked for, or another answer came after it, though the first call
 * did not ask for one. */
static void say_asked_for(uint32_t unverified, uint32_t answer) {
  if (unverified == RAF_NOT_SIGNED || (unverified == answer && !verifications)) return;
  printf(" and %zu verifications after %" PRIu32, verifications, unverified);
}

/* Has a call by a held text be given the places of its lines, if it is given none. */
static void add_places(given_call *it, const char *name) {
  raf_blob held = it->spans[HELD];
  raf_line_place none = {0, 0};
  size_t count = 0;
  if (it->spans[PLACES].length || strncmp(name, "check_held", 10)) return;
  raf_place_hosts(held.bytes, held.length, &none, 0, &count);
  free(it->spans[PLACES].bytes);
  it->spans[PLACES] = made(count * sizeof none);
  raf_place_hosts(held.bytes, held.length, (raf_line_place *)it->spans[PLACES].bytes, count,
                  &count);
}

/* Has the texts be held, as one, and says where the call then answers something else. */
static void say_held(given_call *it, const char *name, uint32_t answer) {
  given_spans *texts = &it->several[0];
  size_t length = 0;
  for (size_t at = 0; at < texts->count; at++) length += texts->items[at].length + 1;
  raf_blob held = made(length);
  for (length = 0; texts->count; free((void *)texts->items[texts->count].bytes)) {
    raf_span text = texts->items[--texts->count];
    memcpy(held.bytes + length, text.bytes, text.length);
    length += text.length;
    held.bytes[length++] = '\n';
  }
  free(it->spans[HELD].bytes);
  it->spans[HELD] = held;
  add_places(it, name);
  uint32_t by_held = ask(it, name, NULL);
  if (by_held != answer) printf("held: %" PRIu32 " ", by_held);
}

static void ask_host_key(given_call *it, const char *name) {
  uint32_t answer = ask(it, name, NULL);
  say_held(it, "check_held_host_key", answer);
  printf("%" PRIu32, answer);
}

static void ask_host_certificate(given_call *it, const char *name) {
  const uint64_t *numbers = it->numbers;
  raf_host_login login = {{it->several[0].items, it->several[0].count},
                          raf_blob_span(it->spans[1]),
                          {it->several[3].items, it->several[3].count}, numbers[2],
                          (uint32_t)numbers[1], (uint16_t)numbers[0]};
  uint32_t unverified = ask(it, name, NULL);
  verifications = 0;
  uint32_t known_by = 7;
  uint32_t answer = raf_verify_host_certificate(&login, raf_blob_span(it->spans[2]), &known_by);
  say_asked_for(unverified, answer);
  printf("%" PRIu32, answer);
  if (answer == RAF_DONE || known_by) printf(" %" PRIu32, known_by);
  say_held(it, "check_held_host_certificate", unverified);
}

/* ---- who signed a file */

static void ask_sshsig_by(char **words) {
  raf_blob signature = bytes_of(words[1]), digest = bytes_of(words[3]), by = bytes_of(words[4]);
  char *name_space = text_of(words[2]);
  raf_authorities keys = {(raf_sha256 *)by.bytes, by.length / sizeof(raf_sha256)};
  verifications = 0;
  printf("%" PRIu32, raf_verify_sshsig_of_digest(signature, name_space, digest, keys));
  printf(" %zu", verifications);
  raf_blob made[] = {signature, digest, by};
  for (size_t at = 0; at < sizeof made / sizeof *made; at++) free(made[at].bytes);
  free(name_space);
}

static void ask_signer_by(char **words) {
  given_call it = given_by(words + 1, 7);
  raf_blob digest = it.spans[6], signature = it.spans[3];
  char *identity = text_of(words[2]), *name_space = text_of(words[3]);
  raf_signers by = {it.spans[0], NULL, strtoull(words[6], NULL, 10),
                    {it.several[4].items, it.several[4].count}};
  if (raf_verify_signer_of_digest(signature, name_space, digest, &by) != RAF_SIGNER_NOT_ALLOWED)
    printf("nobody may sign ");
  by.identity = identity;
  verifications = 0;
  printf("%" PRIu32, raf_verify_signer_of_digest(signature, name_space, digest, &by));
  printf(" %zu", verifications);
  let_go(&it);
  free(identity);
  free(name_space);
}

static void ask_names(void) {
  printf("%d %d %" PRIu32 " %" PRIu32, RAF_VERSION, RAF_ABI, raf_version(), raf_abi());
  for (uint32_t answer = 0; answer < 200; answer++)
    printf(",%" PRIu32 " %s", answer, raf_status_name(answer));
  printf(",%" PRIu32 " %s", UINT32_MAX, raf_status_name(UINT32_MAX));
}

static void ask_meanings(void) {
  for (uint32_t answer = 0; answer < 200; answer++)
    printf("%s%s", answer ? "|" : "", raf_status_meaning(answer));
}

/* Answers a question that takes no call of rafendilo.h by its name; false where it is none. */
static bool has_answered_helper(char **words) {
  if (!strcmp(words[0], "names"))
    ask_names();
  else if (!strcmp(words[0], "meanings"))
    ask_meanings();
  else if (!strcmp(words[0], "sshsig-by"))
    ask_sshsig_by(words);
  else if (!strcmp(words[0], "signer-by"))
    ask_signer_by(words);
  else if (!strcmp(words[0], "authority"))
    ask_authority(words[1]);
  else
    return false;
  return true;
}

#endif
