/* What sshkey-check says of lines: of certificates, of what hosts show, and of logins. */
#include <inttypes.h>
#include <stdio.h>
#include <stdlib.h>

#include "check.h"
#include "sha1.h"
#include "verdict.h"

bool check_can_not_tell(uint32_t answer) {
  return answer == RAF_MEMORY || answer == RAF_UNREADABLE_REVOCATIONS ||
         answer == RAF_TEXT_UNREADABLE;
}

bool check_name_unread(const program_files *revoked, uint32_t answer) {
  char *words = program_unread_revocations(revoked, answer);
  bool is_named = words != NULL;
  if (words) program_complain("%s (%" PRIu32 ")", words, answer);
  free(words);
  return is_named;
}

report check_report(const check_request *asked, size_t number) {
  return (report){.path = asked->path ? asked->path : REPORT_INPUT,
                  .line = number,
                  .unix_timestamp = asked->second,
                  .is_verdict = asked->mode != CHECK_SHOW && asked->mode != CHECK_FINGERPRINT,
                  .has_art = asked->given[CHECK_ART] != NULL,
                  .is_json = asked->given[CHECK_JSON] != NULL};
}

uint32_t check_read_shown(const char *line, size_t length, raf_blob *shown,
                          bool *is_certificate) {
  uint32_t answer = raf_read_line_blob(line, length, RAF_LINE_CERTIFICATE, shown);
  *is_certificate = answer != RAF_LABEL;
  return *is_certificate ? answer : raf_read_line_blob(line, length, RAF_LINE_KEY, shown);
}

/* ---- certificates */

/* Shows what stands before a signature by SHA-1: RAF_RSA_SHA1, or why not. */
static uint32_t show_sha1(const char *line, size_t length, report *of) {
  uint32_t answer = raf_read_sha1_line(line, length, &of->certificate);
  uint32_t shown = answer == RAF_RSA_SHA1 ? report_certificate(of, answer) : RAF_DONE;
  return shown == RAF_DONE ? answer : shown;
}

/* Shows what a certificate says that is not read, if it can be found: that answer, or why it can't
 * tell. */
static uint32_t show_unread(const char *line, size_t length, uint32_t answer, report *of) {
  uint32_t status = unread_read_line(line, length, &of->unread, &of->certificate);
  if (status == RAF_DONE) status = report_certificate(of, answer);
  return status == RAF_MEMORY ? status : answer;
}

/* Whether the line has a key. */
static bool is_key_line(const char *line, size_t length) {
  raf_blob key = {NULL, 0};
  bool is_key = raf_read_line_blob(line, length, RAF_LINE_KEY, &key) == RAF_DONE;
  free(key.bytes);
  return is_key;
}

/* What is said of the certificate of a line: by an authority, or shown. */
static uint32_t answer_certificate(const char *line, size_t length, report *of,
                                   const check_request *asked) {
  bool is_shown = asked->mode == CHECK_SHOW;
  uint32_t answer = raf_read_line_blob(line, length, RAF_LINE_CERTIFICATE, &of->certificate);
  if (answer == RAF_LABEL) of->is_key = is_key_line(line, length);
  if (answer == RAF_RSA_SHA1 && is_shown) return show_sha1(line, length, of);
  if ((answer == RAF_FORMAT || answer == RAF_TIME) && is_shown)
    return show_unread(line, length, answer, of);
  if (answer != RAF_DONE) return answer;
  return is_shown ? report_certificate(of, answer)
                  : check_login(raf_blob_span(of->certificate), of, asked);
}

/* ---- hosts */

/* Names the lines of known_hosts that may hide a revocation: of one file, where the host is known
 * at that port. */
static bool name_unreadable(const check_request *asked, uint16_t port) {
  bool is_named = false;
  for (size_t at = 0; at < asked->known_hosts.count; at++) {
    raf_span text = asked->known_hosts.texts[at], host = raf_text_span(asked->given[CHECK_HOST]);
    size_t number = 0;
    if (raf_unreadable_host_line(text.bytes, text.length, host.bytes, host.length, port,
                                 &number) != RAF_DONE)
      continue;
    program_complain("%s:%zu: no entry, and may be one for the host",
                     asked->known_hosts.paths[at], number);
    is_named = true;
  }
  return is_named;
}

/* What is wrong with a host that is like an address, in words: that it has a port; or else null. */
static const char *words_of_host(raf_span host) {
  raf_destination found = {{0, 0}, 0};
  bool is_read = raf_host_and_port(host.bytes, host.length, &found) == RAF_DONE;
  return is_read && found.port ? "the host has a port: write --host NAME --port NUMBER" : NULL;
}

/* Whether the key or the certificate of a line is the host's. */
static uint32_t answer_host(const char *line, size_t length, report *of,
                            const check_request *asked) {
  uint16_t port = (uint16_t)asked->port_number;
  raf_host_login login = {program_texts(&asked->known_hosts),
                          raf_text_span(asked->given[CHECK_HOST]),
                          program_revocations(&asked->revoked), asked->second, 0, port};
  raf_blob shown = {NULL, 0};
  bool is_certificate;
  uint32_t answer = check_read_shown(line, length, &shown, &is_certificate);
  if (answer == RAF_DONE)
    answer = is_certificate
                 ? raf_verify_host_certificate(&login, raf_blob_span(shown), &of->known_by)
                 : raf_check_host_key(&login, shown.bytes, shown.length);
  if (is_certificate)
    of->certificate = shown;
  else
    free(shown.bytes);
  if (answer == RAF_DONE) report_valid(of);
  if (answer == RAF_NO_ADDRESS) of->words = words_of_host(login.host);
  /* ssh asks about the plain name where nothing is known at the port */
  if (answer == RAF_HOST_UNREADABLE && !name_unreadable(asked, port)) name_unreadable(asked, 22);
  return answer;
}

/* ---- logins */

/* Whether the key or the certificate of a line logs the user in. */
static uint32_t answer_login(const char *line, size_t length, report *of,
                             const check_request *asked) {
  raf_blob shown = {NULL, 0};
  bool is_certificate;
  uint32_t answer = check_read_shown(line, length, &shown, &is_certificate);
  of->is_key = answer == RAF_DONE && !is_certificate;
  if (is_certificate) of->certificate = shown;
  if (answer == RAF_DONE) answer = check_login(raf_blob_span(shown), of, asked);
  if (!is_certificate) free(shown.bytes);
  return answer;
}

/* ---- lines */

/* Whether nothing is said of the line, but that it can't tell. */
static bool is_untold(uint32_t answer, check_mode mode) {
  /* of a login by names that are not UTF-8 nothing follows */
  return check_can_not_tell(answer) || (mode == CHECK_LOGIN && answer == RAF_TEXT);
}

/* Answers what is asked about a line: RAF_DONE, or why it can't tell. */
static uint32_t answer_line(const char *line, size_t length, size_t number, void *given) {
  check_request *asked = given;
  report of = check_report(asked, number);
  uint32_t answer = asked->mode == CHECK_HOST_KEY  ? answer_host(line, length, &of, asked)
                    : asked->mode == CHECK_LOGIN ? answer_login(line, length, &of, asked)
                                                 : answer_certificate(line, length, &of, asked);
  bool is_refused = answer != RAF_DONE && !is_untold(answer, asked->mode);
  bool is_shown = asked->mode == CHECK_SHOW && of.certificate.length;
  asked->count++;
  if (is_refused) {
    asked->is_valid = false;
    (is_shown ? report_complain : report_refused)(&of, answer);
    answer = RAF_DONE;
  }
  if (answer == RAF_TEXT_UNREADABLE) report_complain(&of, answer);
  free(of.certificate.bytes);
  free(of.unread.bytes.bytes);
  return answer;
}

int check_text(raf_blob text, check_request *asked) {
  size_t number;
  program_line *each = asked->mode == CHECK_FINGERPRINT ? check_fingerprint : answer_line;
  const char *what = asked->mode == CHECK_FINGERPRINT ? "key"
                     : asked->mode == CHECK_HOST_KEY || asked->mode == CHECK_LOGIN
                         ? "key or certificate"
                         : "certificate";
  const char *path = asked->path ? asked->path : REPORT_INPUT;
  asked->count = 0;
  uint32_t answer = program_each_line(text, each, asked, &number);
  bool is_named = answer == RAF_TEXT_UNREADABLE || check_name_unread(&asked->revoked, answer);
  if (answer != RAF_DONE && !is_named)
    program_complain("%s:%zu: %s", path, number, raf_status_meaning(answer));
  else if (!asked->count)
    program_complain("%s: no %s was given", path, what);
  if (!program_is_written() || answer != RAF_DONE || !asked->count) return UNTOLD;
  return asked->is_valid ? VALID : INVALID;
}
