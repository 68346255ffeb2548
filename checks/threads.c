/* Calls each function of helpers/reading.h, sshsig.h, verdict.h and verify.h from threads at the
 * same time, for checks/asked/threads.py: what a thread is answered has to be what the same call
 * answers alone.
 *
 *     threads FOLDER..
 *
 * Each folder has the files that `asked` names; each is asked about by two threads. */
#include <pthread.h>
#include <stdio.h>
#include <stdlib.h>
#include <string.h>

#include "reading.h"
#include "rafendilo.h"
#include "sshsig.h"
#include "verdict.h"
#include "verify.h"

#define ANSWERS 36
#define MOST 8
#define ROUNDS 12

/* What is asked about: a folder, and what was answered. */
typedef struct {
  const char *folder;
  uint64_t answers[ANSWERS];
  size_t count;
} asked;

static void note(asked *it, uint64_t answer) {
  if (it->count == ANSWERS) abort();
  it->answers[it->count++] = answer;
}

static void note_bytes(asked *it, const uint8_t *bytes, size_t length) {
  uint64_t sum = 0xcbf29ce484222325;
  for (size_t at = 0; at < length; at++) sum = (sum ^ bytes[at]) * 0x100000001b3;
  note(it, sum);
}

static raf_blob file_of(const asked *it, const char *name) {
  char path[4096];
  raf_blob read = {NULL, 0};
  snprintf(path, sizeof path, "%s/%s", it->folder, name);
  if (!raf_read_file(path, &read)) abort();
  return read;
}

static FILE *opened(const asked *it, const char *name) {
  char path[4096];
  snprintf(path, sizeof path, "%s/%s", it->folder, name);
  FILE *file = fopen(path, "rb");
  if (!file) abort();
  return file;
}

/* The key or the certificate in the first line of a file. */
static raf_blob line_of(asked *it, const char *name, uint32_t kind) {
  raf_blob text = file_of(it, name), found = {NULL, 0};
  size_t length = 0;
  while (length < text.length && text.bytes[length] != '\n') length++;
  note(it, raf_read_line_blob((const char *)text.bytes, length, kind, &found));
  free(text.bytes);
  if (!found.bytes) abort();
  return found;
}

/* A file as a text that ends with a zero byte. */
static char *text_of(const asked *it, const char *name) {
  raf_blob read = file_of(it, name);
  char *text = calloc(1, read.length + 1);
  if (!text) abort();
  memcpy(text, read.bytes, read.length);
  free(read.bytes);
  return text;
}

/* Whether a login is let in, by what, and to what. */
static void ask_login(asked *it, const raf_login *login) {
  uint8_t room[4096] = {0};
  raf_grant grant;
  note(it, raf_verify_login(login, room, sizeof room, &grant));
  note_bytes(it, room, grant.length);
  note(it, grant.source);
  note(it, grant.line);
  note(it, grant.permits);
}

/* The user's key alone, by a text that lists it, with a request that the key of the first folder
 * has signed; and the user's certificate, by an authority and by principals, where somebody else has
 * verified the signature. */
static void ask_logins(asked *it, raf_blob key, raf_blob certificate, const raf_trusted *trusted,
                       uint64_t now) {
  raf_blob signature = file_of(it, "request.sig"), listed = file_of(it, "user.pub");
  raf_text keys = {raf_blob_span(listed), 1}, principals = {raf_text_span("alice\n"), 1};
  raf_login login = {.offer = {raf_text_span("alice"), raf_text_span("ssh-ed25519"),
                               raf_blob_span(key)},
                     .signed_by = {.how = RAF_SIGNED_REQUEST,
                                   .session_id = raf_text_span("a session"),
                                   .signature = raf_blob_span(signature)},
                     .trusted = *trusted,
                     .place = {.unix_timestamp = now}};
  login.trusted.authorized_keys = (raf_texts){&keys, 1};
  ask_login(it, &login);
  login.offer.algorithm.length = 0;
  login.offer.blob = raf_blob_span(certificate);
  login.signed_by.how = RAF_SIGNED_BY_TRANSPORT;
  ask_login(it, &login);
  login.trusted.principals = (raf_texts){&principals, 1};
  login.trusted.principals_from = RAF_PRINCIPALS_IN_FILES;
  ask_login(it, &login);
  note(it, raf_verify_offer(&login));
  free(listed.bytes);
  free(signature.bytes);
}

/* A line that says for whom an authority may sign. */
static void ask_user_authority(asked *it, const char *line) {
  raf_authorities by = {NULL, 0};
  size_t length = strlen("bob,alice ") + strlen(line);
  char *named = calloc(1, length + 1);
  if (!named) abort();
  snprintf(named, length + 1, "bob,alice %s", line);
  note(it, raf_add_user_authority(&by, named, length, "alice"));
  note(it, by.count);
  free(named);
  free(by.keys);
}

static void ask_user(asked *it, uint64_t now, raf_authorities by, raf_spans revoked) {
  raf_blob certificate = line_of(it, "user-cert.pub", RAF_LINE_CERTIFICATE);
  raf_blob key = line_of(it, "user.pub", RAF_LINE_KEY), again = {NULL, 0};
  raf_trusted trusted = {.authorities = raf_authority_digests(by),
                         .revoked = revoked,
                         .principals_from = RAF_PRINCIPALS_IN_CERTIFICATE};
  char *type = text_of(it, "user.pub"), *base64 = strchr(type, ' ');
  *base64++ = 0;
  base64[strcspn(base64, " \n")] = 0;
  note(it, raf_read_words_blob(type, base64, RAF_LINE_KEY, &again));
  ask_logins(it, again, certificate, &trusted, now);
  free(type);
  free(again.bytes);
  free(key.bytes);
  free(certificate.bytes);
}

static void ask_host(asked *it, uint64_t now, raf_spans revoked) {
  raf_blob certificate = line_of(it, "host-cert.pub", RAF_LINE_CERTIFICATE);
  raf_blob known = file_of(it, "known_hosts");
  raf_span text = raf_blob_span(known);
  raf_host_login login = {{&text, 1}, raf_text_span("host.example.org"), revoked, now, 0, 22};
  raf_question question;
  size_t room_length = 2 * certificate.length + 256;
  uint8_t *room = calloc(1, room_length);
  if (!room) abort();
  memset(&question, 0, sizeof question);
  uint32_t known_by = 0;
  note(it, raf_verify_host_certificate(&login, raf_blob_span(certificate), &known_by));
  note(it, known_by);
  note(it, raf_certificate_question(certificate.bytes, certificate.length, room, room_length,
                                    &question));
  note(it, raf_is_signature(&question, room));
  free(room);
  free(known.bytes);
  free(certificate.bytes);
}

static void ask_signature(asked *it, uint64_t now, raf_authorities by, raf_spans revoked) {
  raf_blob armour = file_of(it, "message.sig"), signature = {NULL, 0};
  raf_signers signers = {file_of(it, "signers"), "alice", now, revoked};
  FILE *file = opened(it, "message");
  uint8_t bytes[64];
  note(it, raf_read_armour_blob(armour, &signature));
  raf_blob digest = {bytes, raf_sshsig_digest_length(signature)}, again = {NULL, 0};
  note(it, raf_digest_stream(file, digest.bytes, digest.length));
  note_bytes(it, digest.bytes, digest.length);
  note(it, raf_verify_sshsig_of_digest(signature, "file", digest, by));
  note(it, raf_verify_signer_of_digest(signature, "file", digest, &signers));
  rewind(file);
  note(it, raf_read_stream(file, &again));
  note_bytes(it, again.bytes, again.length);
  fclose(file);
  free(again.bytes);
  free(signature.bytes);
  free(signers.text.bytes);
  free(armour.bytes);
}

/* Asks all. */
static void ask(asked *it) {
  raf_authorities by = {NULL, 0};
  char *line = text_of(it, "authority.pub"), *now = text_of(it, "now");
  raf_blob list = file_of(it, "list");
  raf_span revoked[] = {RAF_NO_REVOCATIONS.items[0], raf_blob_span(list)};
  raf_spans files = {revoked, 2};
  it->count = 0;
  line[strcspn(line, "\n")] = 0;
  uint32_t added = raf_add_authority(&by, line, strlen(line));
  note_bytes(it, (const uint8_t *)raf_status_meaning(added), strlen(raf_status_meaning(added)));
  ask_user_authority(it, line);
  ask_user(it, strtoull(now, NULL, 10), by, files);
  ask_host(it, strtoull(now, NULL, 10), files);
  ask_signature(it, strtoull(now, NULL, 10), by, files);
  free(by.keys);
  free(list.bytes);
  free(line);
  free(now);
}

/* Asks again and again, and answers how often another answer came than alone. */
static void *ask_often(void *given) {
  const asked *alone = given;
  asked it = {alone->folder, {0}, 0};
  size_t wrong = 0;
  for (int round = 0; round < ROUNDS; round++) {
    ask(&it);
    wrong += it.count != alone->count ||
             memcmp(it.answers, alone->answers, it.count * sizeof *it.answers) != 0;
  }
  return wrong ? given : NULL;
}

int main(int count, char **words) {
  asked all[MOST] = {{NULL, {0}, 0}};
  pthread_t threads[2 * MOST];
  int folders = count - 1, status = 0;
  if (folders < 1 || folders > MOST) return 2;
  for (int at = 0; at < folders; at++) {
    all[at].folder = words[at + 1];
    ask(&all[at]);
    for (size_t answer = 0; answer < all[at].count; answer++)
      printf("%llu ", (unsigned long long)all[at].answers[answer]);
    putchar('\n');
  }
  for (int at = 0; at < 2 * folders; at++)
    if (pthread_create(&threads[at], NULL, ask_often, &all[at / 2])) return 2;
  for (int at = 0; at < 2 * folders; at++) {
    void *wrong = NULL;
    if (pthread_join(threads[at], &wrong)) return 2;
    if (wrong) status = 1;
  }
  return status;
}
