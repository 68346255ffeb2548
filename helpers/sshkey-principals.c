/* Lets users in by certificates of their own authorities: sshd trusts an authority for all users
 * (TrustedUserCAKeys) or for none, and this says which authority may sign for whom. See
 * sshkey-principals(8). */
#include <stdbool.h>
#include <stdio.h>
#include <stdlib.h>
#include <string.h>

#include "certificate.h"
#include "granted.h"
#include "reading.h"
#include "login.h"
#include "program.h"

const char program_name[] = "sshkey-principals";
const int program_untold = 1;
#define USAGE                                                                              \
  "sshkey-principals [--revoked FILE].. [--least-rsa-bits N] [--client WORDS] [--quiet] " \
  "[--insecure-modes] AUTHORITIES USER TYPE CERTIFICATE"
static const char help[] =
    "usage: " USAGE "\n"
    "       sshkey-principals --check [--revoked FILE].. [--insecure-modes] AUTHORITIES\n"
    "\n"
    "sshd_config: AuthorizedPrincipalsCommand PATH/sshkey-principals AUTHORITIES %u %t %k\n"
    "             AuthorizedPrincipalsCommandUser sshkey\n"
    "Prints USER if the certificate lets USER in by an authority of a line of AUTHORITIES:\n"
    "USER[,USER..] TYPE BASE64 [COMMENT], and no FILE, as sshd's RevokedKeys, revokes it. N is\n"
    "sshd's RequiredRSASize. The system's log is told why USER is not let in, with WORDS.\n"
    "With --check it reads all files, and says who may be let in by whom, and what can't be read.\n"
    "It does not run as nobody.\n"
    "Status 0: printed, or not let in; 1: it can't tell, as standard error says.\n";

/* Whose authorities are read, and to where. */
typedef struct {
  const login_request *asked;
  raf_authorities by;
  bool has_line; /* the user has one */
  bool is_whole; /* each line of the user has a key */
} wanted;

/* Says that a line has no key, or a later one, in which case nothing else is wrong. */
static bool is_later(const login_request *asked, size_t number, uint32_t answer) {
  if (answer == RAF_LATER_KEY)
    login_tell(asked, "%s:%zu: %s", asked->path, number, raf_status_meaning(answer));
  else
    login_complain(asked, "%s:%zu: no key: %s", asked->path, number, raf_status_meaning(answer));
  return answer == RAF_LATER_KEY;
}

/* Adds the authority of a line if the line has the user. */
static uint32_t read_authority(const char *line, size_t length, size_t number, void *given) {
  wanted *to = given;
  uint32_t answer = raf_add_user_authority(&to->by, line, length, to->asked->user);
  if (answer == RAF_MEMORY) return answer;
  /* another user's line */
  if (answer == RAF_END) return RAF_DONE;
  to->has_line = true;
  if (answer != RAF_DONE && !is_later(to->asked, number, answer)) to->is_whole = false;
  return RAF_DONE;
}

/* ---- a login */

/* Why the certificate does not let the user in, in more words than the answer has, of malloc; null
 * where there are none. */
static char *words_of(uint32_t answer, raf_blob certificate, const raf_login *login,
                      const wanted *to) {
  bool is_unlisted = answer == RAF_USER_NOT_LISTED, lacks_line = is_unlisted && !to->has_line;
  char *user = lacks_line ? login_quoted(to->asked->user) : NULL;
  const char *known = is_unlisted && !lacks_line ? granted_unlisted_words(login, true) : NULL;
  size_t length = strlen(to->asked->path) + (user ? strlen(user) : 0) + 64;
  char *words = malloc(length);
  bool is_known = words && (user || known);
  if (is_known && user) snprintf(words, length, "no line of %s is for %s", to->asked->path, user);
  if (is_known && known) snprintf(words, length, "%s", known);
  if (words && answer == RAF_OUT_OF_WINDOW)
    is_known = certificate_write_window(certificate, login->place.unix_timestamp, words, length);
  free(user);
  if (is_known) return words;
  free(words);
  return NULL;
}

/* Prints the user where the certificate lets that user in, and returns the status. */
static int let_in(raf_blob certificate, const wanted *to) {
  const login_request *asked = to->asked;
  /* where the client is, sshd asks of the certificate itself: before 9.4 it tells nobody */
  raf_login login = {.offer = {.user = raf_text_span(asked->user),
                               .blob = raf_blob_span(certificate)},
                     .signed_by = {.how = RAF_SIGNED_BY_SSHD},
                     .trusted = {.authorities = raf_authority_digests(to->by),
                                 .revoked = program_revocations(&asked->revoked),
                                 .principals_from = RAF_PRINCIPALS_IN_CERTIFICATE,
                                 .least_rsa_bits = asked->least_rsa_bits},
                     .place = {.unix_timestamp = (uint64_t)time(NULL),
                               .caller_checks_address = 1}};
  granted_login found;
  uint32_t answer = granted_ask(&login, &found);
  free(found.buffer);
  if (answer != RAF_DONE) {
    char *words = words_of(answer, certificate, &login, to);
    int status = login_refuse(asked, answer, words);
    free(words);
    return status;
  }
  puts(asked->user);
  return program_is_written() ? 0 : program_untold;
}

static int answer_login(login_request *asked) {
  wanted to = {asked, {NULL, 0}, false, true};
  raf_blob certificate = {NULL, 0};
  int status = program_untold;
  uint32_t answer =
      raf_read_words_blob(asked->type, asked->base64, RAF_LINE_CERTIFICATE, &certificate);
  if (answer != RAF_DONE) {
    login_complain(asked, "no certificate is offered: %s", raf_status_meaning(answer));
  } else {
    login_note(asked, certificate, true);
    if (login_read_revoked(asked) &&
        login_each_line(asked, asked->path, NULL, read_authority, &to) == LOGIN_READ && to.is_whole)
      status = let_in(certificate, &to);
  }
  free(certificate.bytes);
  free(to.by.keys);
  return status;
}

/* ---- the files alone */

/* The users of a line, which stand before a blank. */
static raf_span users_of(const char *line, size_t length) {
  size_t at = 0;
  while (at < length && line[at] != ' ' && line[at] != '\t') at++;
  return (raf_span){(const uint8_t *)line, at};
}

/* The authority of a line, as the first of its users has it; RAF_END where it has none. */
static uint32_t first_authority(const char *line, size_t length, raf_sha256 *found) {
  raf_span users = users_of(line, length);
  uint32_t answer = RAF_END;
  for (size_t at = 0; at < users.length && answer == RAF_END;) {
    size_t begin = at;
    while (at < users.length && line[at] != ',') at++;
    answer = raf_user_authority((const uint8_t *)line, length, users.bytes + begin, at - begin,
                                found);
    at++;
  }
  return answer;
}

/* Prints who may be let in by the authority of a line, or says that it has no user or no key. */
static uint32_t check_line(const char *line, size_t length, size_t number, void *given) {
  wanted *to = given;
  raf_sha256 found = {{0}};
  uint32_t answer = first_authority(line, length, &found);
  if (answer == RAF_MEMORY) return answer;
  to->has_line = true;
  if (answer == RAF_DONE) {
    login_print_line(to->asked->path, number, users_of(line, length), &found);
  } else if (answer == RAF_END) {
    login_complain(to->asked, "%s:%zu: no user", to->asked->path, number);
    to->is_whole = false;
  } else if (program_has_no_users(line, length)) {
    login_complain(to->asked, PROGRAM_NO_USERS, to->asked->path, number);
    to->is_whole = false;
  } else if (!is_later(to->asked, number, answer)) {
    to->is_whole = false;
  }
  return RAF_DONE;
}

static int check_files(login_request *asked) {
  wanted to = {asked, {NULL, 0}, false, true};
  bool is_read = login_read_revoked(asked) && login_check_revoked(asked);
  if (login_each_line(asked, asked->path, NULL, check_line, &to) != LOGIN_READ) is_read = false;
  if (is_read && !to.has_line) login_complain(asked, "%s: it has no line", asked->path);
  return is_read && to.has_line && to.is_whole && program_is_written() ? 0 : program_untold;
}

int main(int count, char **words) {
  login_request asked;
  program_start_libcrypto();
  int status = program_show(count, words, help);
  if (status >= 0) return status;
  status = program_untold;
  if (login_read_words(count, words, LOGIN_BITS, USAGE, &asked) && login_may_run(&asked))
    status = asked.is_check ? check_files(&asked) : answer_login(&asked);
  login_forget(&asked);
  return status;
}
