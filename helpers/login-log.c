#include <inttypes.h>
#include <stdarg.h>
#include <stdio.h>
#include <stdlib.h>
#include <string.h>
#include <syslog.h>

#include "login.h"

/* of a key id, whose rest a log does without */
#define LOGGED 200

/* Writes the bytes for a log: what is no printable ASCII, or quotes, by three octal digits. */
static void write_escaped(FILE *to, const uint8_t *bytes, size_t length) {
  for (size_t at = 0; at < length && at < LOGGED; at++) {
    if (bytes[at] >= ' ' && bytes[at] < 0x7f && bytes[at] != '\\' && bytes[at] != '"')
      fputc(bytes[at], to);
    else
      fprintf(to, "\\%03o", bytes[at]);
  }
  if (length > LOGGED) fputs("..", to);
}

static void write_quoted(FILE *to, const char *text) {
  fputc('"', to);
  write_escaped(to, (const uint8_t *)text, strlen(text));
  fputc('"', to);
}

char *login_quoted(const char *text) {
  char *quoted = NULL;
  size_t length = 0;
  FILE *to = open_memstream(&quoted, &length);
  if (!to) return NULL;
  write_quoted(to, text);
  if (fclose(to) == 0) return quoted;
  free(quoted);
  return NULL;
}

/* Writes a name and what it is of the request, if that is known. */
static void write_named(FILE *to, const char *name, const char *text) {
  if (!text) return;
  fprintf(to, "%s ", name);
  write_quoted(to, text);
  fputs(", ", to);
}

/* Tells the log of the request, as far as its words were read. */
static void tell_log(const login_request *asked, int priority, const char *said) {
  char *line = NULL;
  size_t length = 0;
  FILE *to = open_memstream(&line, &length);
  if (!to) return;
  write_named(to, "user", asked->user);
  write_named(to, "client", asked->client);
  fprintf(to, "%s: %s", asked->offered ? asked->offered : "what is offered was not read", said);
  if (fclose(to) == 0) {
    openlog(program_name, LOG_PID, LOG_AUTH);
    syslog(priority, "%s", line);
  }
  free(line);
}

static void say(const login_request *asked, int priority, const char *format, va_list words) {
  char *said = NULL;
  size_t length = 0;
  FILE *to = open_memstream(&said, &length);
  if (to) vfprintf(to, format, words);
  if (!to || fclose(to)) {
    program_complain("no memory");
  } else {
    program_complain("%s", said);
    if (!asked->is_quiet && !asked->is_check) tell_log(asked, priority, said);
  }
  free(said);
}

void login_complain(const login_request *asked, const char *format, ...) {
  va_list words;
  va_start(words, format);
  say(asked, LOG_ERR, format, words);
  va_end(words);
}

void login_tell(const login_request *asked, const char *format, ...) {
  va_list words;
  va_start(words, format);
  say(asked, LOG_NOTICE, format, words);
  va_end(words);
}

/* Whether it says that nothing can be told, and not that the client is not let in. */
static bool is_untold(uint32_t answer) {
  return answer == RAF_MEMORY || answer == RAF_TEXT ||
         answer == RAF_UNREADABLE_REVOCATIONS;
}

int login_refuse(const login_request *asked, uint32_t answer, const char *words) {
  char *unread = program_unread_revocations(&asked->revoked, answer);
  const char *said = unread ? unread : words ? words : raf_status_meaning(answer);
  if (is_untold(answer))
    login_complain(asked, "it can't tell: %s (%" PRIu32 ")", said, answer);
  else
    login_tell(asked, "refused: %s (%" PRIu32 ")", said, answer);
  free(unread);
  return is_untold(answer) ? program_untold : 0;
}

/* ---- what is offered */

/* Writes the fingerprint of a key; false where it has none. */
static bool write_key(FILE *to, const uint8_t *key, size_t length) {
  uint8_t text[RAF_FINGERPRINT_TEXT] = {0};
  raf_sha256 digest = {{0}};
  if (raf_fingerprint(key, length, &digest) != RAF_DONE ||
      raf_fingerprint_text(&digest, text, sizeof text) != RAF_DONE)
    return false;
  fprintf(to, "%.*s", (int)sizeof text, (const char *)text);
  return true;
}

static bool write_certificate(FILE *to, raf_blob certificate) {
  const uint8_t *bytes = certificate.bytes;
  raf_fields fields;
  raf_parts parts;
  memset(&fields, 0, sizeof fields);
  memset(&parts, 0, sizeof parts);
  if (raf_certificate_fields(bytes, certificate.length, &fields) != RAF_DONE ||
      raf_certificate_parts(bytes, certificate.length, &parts) != RAF_DONE)
    return false;
  fputs("certificate \"", to);
  write_escaped(to, bytes + parts.key_id.start, parts.key_id.length);
  fprintf(to, "\", serial %" PRIu64 ", authority ", fields.serial);
  return write_key(to, bytes + parts.authority.start, parts.authority.length);
}

void login_note(login_request *asked, raf_blob offered, bool is_certificate) {
  char *text = NULL;
  size_t length = 0;
  if (asked->is_quiet) return;
  FILE *to = open_memstream(&text, &length);
  if (!to) return;
  bool is_known = true;
  if (is_certificate) {
    is_known = write_certificate(to, offered);
  } else {
    fputs("key ", to);
    is_known = write_key(to, offered.bytes, offered.length);
  }
  if (fclose(to) == 0 && is_known)
    asked->offered = text;
  else
    free(text);
}
