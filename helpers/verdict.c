#include "verdict.h"

#include <stdbool.h>
#include <stdlib.h>
#include <string.h>

#include "verify.h"

/* ---- who logs in */

/* That span, at no null pointer where it has no bytes. */
static raf_span span_of(raf_span it) {
  return it.length ? it : (raf_span){raf_bytes(it.bytes), 0};
}

/* Those texts, likewise. */
static raf_texts texts_of(raf_texts it) {
  static const raf_text none = {{(const uint8_t *)"", 0}, 1};
  return it.count ? it : (raf_texts){&none, 0};
}

/* That login, in which no pointer is null beside the length 0. */
static raf_login login_of(const raf_login *it) {
  static const raf_sha256 no_key = {{0}};
  static const raf_span no_file = {(const uint8_t *)"", 0};
  raf_login login = *it;
  login.offer = (raf_offer){span_of(it->offer.user), span_of(it->offer.algorithm),
                            span_of(it->offer.blob)};
  login.signed_by.session_id = span_of(it->signed_by.session_id);
  login.signed_by.host_key = span_of(it->signed_by.host_key);
  login.signed_by.signature = span_of(it->signed_by.signature);
  login.trusted.authorized_keys = texts_of(it->trusted.authorized_keys);
  login.trusted.principals = texts_of(it->trusted.principals);
  login.trusted.command_keys = texts_of(it->trusted.command_keys);
  if (!login.trusted.authorities.count) login.trusted.authorities.items = &no_key;
  if (!login.trusted.revoked.count) login.trusted.revoked.items = &no_file;
  login.place.client = span_of(it->place.client);
  login.place.host = span_of(it->place.host);
  return login;
}

/* A call that asks what has to be verified of a login. */
typedef uint32_t call_of_questions(const raf_login *login, uint8_t *buffer, size_t buffer_length,
                                   raf_login_questions *answer);

/* What that call asks, and in `answers` to which questions the verification says yes, which is
 * asked about no client under what a stranger certified: RAF_DONE, or why nothing is asked. */
static uint32_t verify_questions(call_of_questions *ask, const raf_login *login,
                                 raf_login_questions *questions, uint32_t *answers) {
  /* a buffer of this length is enough */
  size_t buffer_length = 2 * (login->offer.blob.length + login->signed_by.session_id.length +
                              login->signed_by.host_key.length +
                              login->signed_by.signature.length + login->offer.user.length) +
                         4608;
  uint8_t *buffer = calloc(1, buffer_length);
  *answers = 0;
  memset(questions, 0, sizeof *questions);
  if (!buffer) return RAF_MEMORY;
  uint32_t said = ask(login, buffer, buffer_length, questions);
  uint32_t asked = said == RAF_DONE ? questions->asked : 0;
  if (asked & RAF_ASKS_AUTHORITY && raf_is_signature(&questions->authority, buffer))
    *answers |= RAF_ASKS_AUTHORITY;
  bool is_certified = *answers == (asked & RAF_ASKS_AUTHORITY);
  if (asked & RAF_ASKS_CLIENT && is_certified && raf_is_signature(&questions->client, buffer))
    *answers |= RAF_ASKS_CLIENT;
  free(buffer);
  return said;
}

uint32_t raf_verify_login(const raf_login *login, uint8_t *buffer, size_t buffer_length,
                          raf_grant *answer) {
  raf_login asked = login_of(login);
  raf_login_questions questions;
  uint32_t answers;
  memset(answer, 0, sizeof *answer);
  uint32_t said = verify_questions(raf_log_in_questions, &asked, &questions, &answers);
  if (said == RAF_MEMORY) return said;
  /* where nothing is asked, it says why not, and which line is the reason */
  return raf_log_in(&asked, &questions.ticket, answers, buffer, buffer_length, answer);
}

uint32_t raf_verify_offer(const raf_login *login) {
  raf_login asked = login_of(login);
  raf_login_questions questions;
  uint32_t answers, said;
  said = verify_questions(raf_may_offer_questions, &asked, &questions, &answers);
  return said == RAF_DONE ? raf_may_offer(&asked, &questions.ticket, answers) : said;
}

/* ---- hosts */

/* What raf_certificate_question asks of the certificate: RAF_DONE, and what the verification
 * says; or RAF_MEMORY. */
static uint32_t verify_certificate(raf_span certificate, uint32_t *is_verified) {
  /* a buffer of this length is enough */
  size_t buffer_length = 2 * certificate.length + 2304;
  uint8_t *buffer = calloc(1, buffer_length);
  raf_question question;
  memset(&question, 0, sizeof question);
  if (!buffer) return RAF_MEMORY;
  uint32_t answer = raf_certificate_question(certificate.bytes, certificate.length, buffer,
                                             buffer_length, &question);
  /* of what raises no question the verdict says what it is */
  *is_verified = answer == RAF_DONE && raf_is_signature(&question, buffer);
  free(buffer);
  return answer == RAF_MEMORY ? answer : RAF_DONE;
}

uint32_t raf_verify_host_certificate(const raf_host_login *login, raf_span certificate,
                                     uint32_t *known_by) {
  uint32_t is_verified = 0;
  uint32_t said = raf_check_host_certificate(login, certificate.bytes, certificate.length,
                                             is_verified, known_by);
  if (said != RAF_NOT_SIGNED) return said;
  said = verify_certificate(certificate, &is_verified);
  if (said != RAF_DONE) return said;
  return raf_check_host_certificate(login, certificate.bytes, certificate.length, is_verified,
                                    known_by);
}
