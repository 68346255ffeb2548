/* What sshkey-check says of a login by public key. */
#include <stdio.h>
#include <stdlib.h>
#include <string.h>

#include "check.h"
#include "granted.h"

/* ---- what is asked */

/* Texts of files, as the call takes them, of malloc; null where there is no memory. */
static raf_text *read_texts(const program_files *files) {
  raf_text *texts = calloc(files->count + 1, sizeof *texts);
  for (size_t at = 0; texts && at < files->count; at++) {
    raf_span text = files->texts[at];
    texts[at] = (raf_text){{raf_bytes(text.bytes), text.length}, text.bytes != NULL};
  }
  return texts;
}

/* The texts of the files that are asked, of malloc. */
typedef struct {
  raf_text *authorized_keys, *principals, *command_keys;
} login_texts;

static bool make_texts(const check_request *asked, login_texts *texts) {
  *texts = (login_texts){read_texts(&asked->authorized_keys), read_texts(&asked->principals),
                         read_texts(&asked->command_keys)};
  return texts->authorized_keys && texts->principals && texts->command_keys;
}

static void forget_texts(login_texts *texts) {
  free(texts->authorized_keys);
  free(texts->principals);
  free(texts->command_keys);
}

/* What is asked of whoever signs with what is shown, where nobody has, by no algorithm that is
 * named. */
static raf_login login_of(raf_span shown, const check_request *asked, const login_texts *texts) {
  const char *host = asked->given[CHECK_HOST];
  return (raf_login){
      .offer = {.user = raf_text_span(asked->user), .blob = shown},
      .signed_by = {.how = RAF_SIGNED_BY_SSHD},
      .trusted = {.authorized_keys = {texts->authorized_keys, asked->authorized_keys.count},
                  .authorities = raf_authority_digests(asked->by),
                  .principals = {texts->principals, asked->principals.count},
                  .command_keys = {texts->command_keys, asked->command_keys.count},
                  .revoked = program_revocations(&asked->revoked),
                  .principals_from = asked->given[CHECK_PRINCIPALS]
                                         ? RAF_PRINCIPALS_IN_FILES
                                         : RAF_PRINCIPALS_IN_CERTIFICATE},
      .place = {.client = {asked->address, asked->address_length},
                .host = raf_text_span(host ? host : ""),
                .unix_timestamp = asked->second}};
}

/* ---- what is answered */

/* The files of a source. */
static const program_files *files_of(uint32_t source, const check_request *asked) {
  return source == RAF_SOURCE_AUTHORIZED_KEYS ? &asked->authorized_keys
         : source == RAF_SOURCE_PRINCIPALS    ? &asked->principals
         : source == RAF_SOURCE_COMMAND       ? &asked->command_keys
                                              : NULL;
}

/* Tells the report which line of which file it is that lets in or refuses. */
static void tell_source(const raf_grant *grant, const check_request *asked, report *of) {
  const program_files *files = files_of(grant->source, asked);
  of->source = grant->source;
  of->by_line = grant->line;
  if (files && grant->text < files->count) of->by_path = files->paths[grant->text];
}

/* Tells the report of a line with an option that is not read, of the first file that has one. */
static bool find_option(const program_files *files, uint32_t source, const raf_login *login,
                        report *of) {
  size_t at = 0;
  while (at < files->count && !check_find_option(files->texts[at], login, of)) at++;
  if (at == files->count) return false;
  of->source = source;
  of->by_path = files->paths[at];
  return true;
}

/* Whether a line can't be told for want of the client's address: from some address it can. */
static bool wants_address(raf_login login) {
  static const uint8_t some[4] = {192, 0, 2, 1};
  granted_login found;
  if (login.place.client.length) return false;
  login.place.client = (raf_span){some, sizeof some};
  uint32_t answer = granted_ask(&login, &found);
  free(found.buffer);
  return answer != RAF_LINE_UNCLEAR;
}

uint32_t check_login(raf_span shown, report *of, const check_request *asked) {
  login_texts texts;
  granted_login found;
  bool has_lines = asked->authorized_keys.count || asked->command_keys.count;
  uint32_t answer = RAF_MEMORY;
  memset(&found, 0, sizeof found);
  if (make_texts(asked, &texts)) {
    raf_login login = login_of(shown, asked, &texts);
    answer = granted_ask(&login, &found);
    tell_source(&found.grant, asked, of);
    if (answer == RAF_DONE) report_grant(of, &found.grant, found.buffer);
    if (answer == RAF_USER_NOT_LISTED &&
        !find_option(&asked->authorized_keys, RAF_SOURCE_AUTHORIZED_KEYS, &login, of) &&
        !find_option(&asked->command_keys, RAF_SOURCE_COMMAND, &login, of))
      of->words = granted_unlisted_words(&login, of->certificate.length > 0);
    if (answer == RAF_LINE_UNCLEAR && wants_address(login))
      of->words = "a line for certain places: it wants --from ADDRESS";
  }
  /* an authority signs certificates */
  if (has_lines) of->is_key = false;
  free(found.buffer);
  forget_texts(&texts);
  return answer;
}
