/* Which option keeps sshd from reading a line that has the key: raf_verify_offer is asked about the
 * line anew, with each option alone. */
#include <stdio.h>
#include <stdlib.h>
#include <string.h>
#include <strings.h>

#include "check.h"
#include "verdict.h"

static const char authority[] = "cert-authority";

/* What is asked of lines, one at a time. */
typedef struct {
  const raf_login *login;
  bool is_certificate; /* is offered, and no key */
  report *of; /* is told of the first line that is found */
} asked_lines;

/* Writes a line with those options, and of an authority where the login has a certificate; null
 * where there is no memory. */
static char *write_line(const asked_lines *asked, raf_span options, raf_span key, size_t *length) {
  char *line = NULL;
  FILE *to = open_memstream(&line, length);
  if (!to) return NULL;
  fwrite(options.bytes, 1, options.length, to);
  if (asked->is_certificate)
    fprintf(to, "%s%s", options.length ? "," : "", authority);
  fputc(' ', to);
  fwrite(key.bytes, 1, key.length, to);
  if (fclose(to) == 0) return line;
  free(line);
  return NULL;
}

/* What is said of the login by that line: RAF_USER_NOT_LISTED where it is none for the key, or is
 * not read. */
static uint32_t ask_line(const asked_lines *asked, raf_span options, raf_span key) {
  size_t length = 0;
  char *line = write_line(asked, options, key, &length);
  raf_text text = {{(const uint8_t *)line, length}, 1};
  raf_login login = *asked->login;
  if (!line) return RAF_MEMORY;
  login.trusted.authorized_keys = (raf_texts){&text, 1};
  login.trusted.authorities.count = 0;
  login.trusted.command_keys.count = 0;
  uint32_t answer = raf_verify_offer(&login);
  free(line);
  return answer;
}

/* The name with which the option begins, or else its first byte. */
static raf_span name_of(raf_span option) {
  size_t length = 0;
  while (length < option.length && !strchr("=,\" \t", option.bytes[length])) length++;
  return (raf_span){option.bytes, length || !option.length ? length : 1};
}

static bool is_authority(raf_span name) {
  return name.length == sizeof authority - 1 &&
         !strncasecmp((const char *)name.bytes, authority, name.length);
}

/* The option that is not read with that key, or all where they are not read together; of no bytes
 * where they are, or the line is an authority's and a key is shown. */
static raf_span find_unread(const asked_lines *asked, raf_span options, raf_span key) {
  uint8_t *buffer = calloc(1, options.length + 1);
  raf_line_option_parts parts = {{0, 0}, {0, 0}, 0, 0, 0};
  raf_span found = options;
  if (ask_line(asked, options, key) != RAF_USER_NOT_LISTED) found.length = 0;
  for (size_t place = 0; buffer && place < found.length; place = parts.next) {
    uint32_t answer = raf_next_line_option(options.bytes, options.length, place, buffer,
                                           options.length, &parts);
    if (answer != RAF_DONE) parts.next = options.length;
    if (place) place++; /* the comma before it */
    raf_span option = {options.bytes + place, parts.next - place}, name = name_of(option);
    bool is_of_others = !asked->is_certificate && is_authority(name);
    if (!is_of_others && answer == RAF_DONE &&
        ask_line(asked, option, key) != RAF_USER_NOT_LISTED)
      continue;
    if (is_of_others) name.length = 0;
    found = name;
    break;
  }
  free(buffer);
  return found;
}

/* Tells the report of a line that has the key, and options that are not read. */
static uint32_t look_at_line(const char *line, size_t length, size_t number, void *given) {
  const asked_lines *asked = given;
  const raf_span none = {(const uint8_t *)"", 0};
  raf_entry entry;
  memset(&entry, 0, sizeof entry);
  uint8_t *buffer = calloc(1, length);
  if (!buffer) return RAF_MEMORY;
  const uint8_t *bytes = (const uint8_t *)line;
  uint32_t answer = raf_authorized_entry(bytes, length, buffer, length, &entry);
  free(buffer);
  raf_span options = {bytes, entry.front.length};
  raf_span key = {bytes + options.length, length - options.length};
  if (answer != RAF_DONE || !options.length ||
      ask_line(asked, none, key) == RAF_USER_NOT_LISTED)
    return answer == RAF_MEMORY ? answer : (uint32_t)RAF_DONE;
  asked->of->option = find_unread(asked, options, key);
  if (!asked->of->option.length) return RAF_DONE;
  asked->of->by_line = number;
  return RAF_END;
}

bool check_find_option(raf_span text, const raf_login *login, report *of) {
  size_t number;
  asked_lines asked = {login, of->certificate.length > 0, of};
  /* program_each_line writes nothing */
  raf_blob listing = {(uint8_t *)text.bytes, text.length};
  return text.bytes && program_each_line(listing, look_at_line, &asked, &number) == RAF_END;
}
