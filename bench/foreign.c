/* Makes a call of the library for C so many times, for bench/foreign:
 *
 *     foreign question|validate|login-questions|verdict|log-in|fields|fingerprint|line|verify CALLS <FILE.pub
 *
 * `login-questions` and `verdict` are the two calls of a login which lets in by an Ed25519 key in a
 * certificate, with the client's signature in it, and `log-in` both, which is all that is asked but
 * the verification; `line` reads the line of the certificate, and `verify` is what libcrypto takes to
 * answer the authority's question. It prints nanoseconds of processor time a call, and what the last
 * one answered. */
#include <stdio.h>
#include <stdlib.h>
#include <string.h>
#include <time.h>

#include "reading.h"
#include "verify.h"

static raf_question question;
static raf_login_questions questions;
static uint8_t buffer[1 << 16];
static raf_span given_line;
static raf_sha256 authority;
/* the form of a signature: the two calls verify nothing */
static const uint8_t signature[] = "\0\0\0\013ssh-ed25519\0\0\0\100"
                                   "0123456789abcdef0123456789abcdef0123456789abcdef0123456789abcdef";

static raf_login login_by(raf_blob given) {
  static const raf_text none;
  raf_texts no_texts = {&none, 0};
  raf_span empty = raf_text_span(""), session = raf_text_span("the identifier of this session");
  raf_login login = {
      {raf_text_span("user"), raf_text_span("ssh-ed25519-cert-v01@openssh.com"),
       raf_blob_span(given)},
      {session, empty, {signature, sizeof signature - 1}, RAF_SIGNED_REQUEST, 0, 0},
      {no_texts, {&authority, 1}, no_texts, no_texts, RAF_NO_REVOCATIONS,
       RAF_PRINCIPALS_IN_CERTIFICATE, 0, 0, 0},
      {empty, empty, 1, 0}};
  return login;
}

static uint32_t login_questions(raf_blob given) {
  raf_login login = login_by(given);
  return raf_log_in_questions(&login, buffer, sizeof buffer, &questions);
}

/* The verdict where all questions of the last call are answered yes. */
static uint32_t verdict(raf_blob given) {
  raf_grant grant;
  raf_login login = login_by(given);
  memset(&grant, 0, sizeof grant);
  return raf_log_in(&login, &questions.ticket, questions.asked, buffer, sizeof buffer, &grant);
}

static uint32_t ask(raf_blob given) {
  return raf_certificate_question(given.bytes, given.length, buffer, sizeof buffer, &question);
}

static uint32_t log_in(raf_blob given) {
  login_questions(given);
  return verdict(given);
}

static uint32_t read_line(void) {
  raf_blob found = {NULL, 0};
  uint32_t status = raf_read_line_blob((const char *)given_line.bytes, given_line.length,
                                       RAF_LINE_CERTIFICATE, &found);
  free(found.bytes);
  return status;
}

/* Reads the authority that the verdict is given. */
static void read_certificate(raf_blob given) {
  raf_parts parts;
  memset(&parts, 0, sizeof parts);
  if (raf_certificate_parts(given.bytes, given.length, &parts) != RAF_DONE) return;
  raf_fingerprint(given.bytes + parts.authority.start, parts.authority.length, &authority);
}

static uint32_t call(const char *what, raf_blob given) {
  raf_sha256 digest = {{0}};
  raf_fields fields = {0, 0, 0, 0, 0, 0};
  if (!strcmp(what, "verify")) return raf_is_signature(&question, buffer);
  if (!strcmp(what, "login-questions")) return login_questions(given);
  if (!strcmp(what, "verdict")) return verdict(given);
  if (!strcmp(what, "log-in")) return log_in(given);
  if (!strcmp(what, "line")) return read_line();
  if (!strcmp(what, "validate"))
    return raf_check_certificate_for(given.bytes, given.length, 1, (const uint8_t *)"user", 4,
                                     &authority, 1, 1);
  if (!strcmp(what, "fields")) return raf_certificate_fields(given.bytes, given.length, &fields);
  if (!strcmp(what, "fingerprint")) return raf_fingerprint(given.bytes, given.length, &digest);
  return ask(given);
}

int main(int count, char **words) {
  char *line = NULL;
  size_t held = 0;
  ssize_t length = count == 3 ? getline(&line, &held, stdin) : -1;
  raf_blob given;
  if (length < 0) return 2;
  if (raf_read_line_blob(line, (size_t)length, RAF_LINE_CERTIFICATE, &given) != RAF_DONE &&
      raf_read_line_blob(line, (size_t)length, RAF_LINE_KEY, &given) != RAF_DONE)
    return 2;
  given_line = (raf_span){(const uint8_t *)line, (size_t)length};
  long calls = strtol(words[2], NULL, 10);
  read_certificate(given);
  memset(&questions, 0, sizeof questions);
  call("login-questions", given);
  call("question", given);
  volatile uint32_t last = 0;
  clock_t began = clock();
  for (long at = 0; at < calls; at++) last = call(words[1], given);
  double took = (double)(clock() - began) / CLOCKS_PER_SEC;
  printf("%s: %.0f ns, answer %u\n", words[1], calls ? took / (double)calls * 1e9 : 0, last);
  free(given.bytes);
  free(line);
  return 0;
}
