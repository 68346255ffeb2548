#include "report.h"

#include <inttypes.h>
#include <stdio.h>
#include <stdlib.h>
#include <string.h>

#include "certificate.h"
#include "program.h"
#include "show.h"
#include "text.h"

/* of the words that say why something is refused */
#define WORDS 512

/* ---- why it is refused */

/* Writes that a key is no certificate, and what the file of the key's certificate is called. */
static bool write_name(const report *of, char *buffer) {
  const char *slash = strrchr(of->path, '/'), *name = slash ? slash + 1 : of->path;
  const char *ending = strrchr(name, '.'), *said = "a key, and no certificate";
  size_t length = ending && !strcmp(ending, ".pub") ? (size_t)(ending - name) : 0;
  if (length && length < WORDS / 2)
    snprintf(buffer, WORDS, "%s (its name is %.*s-cert.pub)", said, (int)length, name);
  else
    snprintf(buffer, WORDS, "%s", said);
  return true;
}

/* Writes those words, and the name of an option, which may have any bytes. */
static bool write_option(const char *said, raf_span option, char *buffer) {
  char name[65];
  size_t length = option.length < sizeof name ? option.length : sizeof name - 1;
  for (size_t at = 0; at < length; at++) {
    uint8_t byte = option.bytes[at];
    name[at] = byte >= ' ' && byte < 0x7f ? (char)byte : '?';
  }
  name[length] = 0;
  snprintf(buffer, WORDS, "%s: %s", said, name);
  return true;
}

/* What the certificate is whose readable one is shown; null where that is its own. */
static const unread_certificate *unread_of(const report *of) {
  return of->unread.bytes.length ? &of->unread : NULL;
}

/* Writes which option keeps a certificate from being read, if one does. */
static bool write_unread(const report *of, char *buffer) {
  const unread_certificate *it = unread_of(of);
  bool is_twice = false;
  if (!it) return false;
  raf_span option = unread_option(text_part(it->bytes.bytes, it->critical_options), &is_twice);
  if (!option.length)
    option = unread_option(text_part(it->bytes.bytes, it->extensions), &is_twice);
  return option.length && write_option(is_twice ? "an option that stands there twice"
                                                : "an option out of order", option, buffer);
}

/* Writes why it is refused, in words: more than the answer means, where more is known. */
static void write_words(const report *of, uint32_t answer, char *buffer) {
  bool is_written = false;
  if (answer == RAF_OUT_OF_WINDOW)
    is_written = certificate_write_window(of->certificate, of->unix_timestamp, buffer, WORDS);
  if ((answer == RAF_LABEL || answer == RAF_USER_NOT_LISTED) && of->is_key)
    is_written = write_name(of, buffer);
  if (answer == RAF_USER_NOT_LISTED && of->option.length)
    is_written = write_option("it has the key, and an option that sshd does not read",
                              of->option, buffer);
  if (answer == RAF_FORMAT) is_written = write_unread(of, buffer);
  if (is_written) return;
  snprintf(buffer, WORDS, "%s", of->words ? of->words : raf_status_meaning(answer));
}

void report_complain(const report *of, uint32_t answer) {
  char words[WORDS];
  size_t number = of->by_path ? of->by_line : of->line;
  write_words(of, answer, words);
  const char *path = of->by_path ? of->by_path : of->path;
  if (number)
    program_complain("%s:%zu: %s (%" PRIu32 ")", path, number, words, answer);
  else
    program_complain("%s: %s (%" PRIu32 ")", path, words, answer);
}

/* ---- lists in objects */

/* Separates what stands in a list, which begins. */
static void separate(bool *is_first) {
  if (!*is_first) putchar(',');
  *is_first = false;
}

/* Prints a list of strings, one after the other. */
static void print_strings(const char *name, raf_span list) {
  raf_part part = {0, 0};
  bool is_first = true;
  json_name(name);
  putchar('[');
  for (size_t place = 0;
       raf_next_string(list.bytes, list.length, place, &part) == RAF_DONE;
       place = part.start + part.length) {
    separate(&is_first);
    json_string(text_part(list.bytes, part));
  }
  putchar(']');
}

/* Prints options of a certificate: null is the value of one that holds nothing. */
static void print_options(const char *name, raf_span list) {
  raf_certificate_option_parts option;
  bool is_first = true;
  memset(&option, 0, sizeof option);
  json_name(name);
  putchar('[');
  while (raf_next_certificate_option(list.bytes, list.length, option.next, &option) == RAF_DONE) {
    separate(&is_first);
    printf("{\"name\":");
    json_string(text_part(list.bytes, option.name));
    /* after the length of four bytes what the option holds */
    if (option.name.start + option.name.length + 4 == option.next)
      json_null("value");
    else
      json_text("value", text_part(list.bytes, option.value));
    putchar('}');
  }
  putchar(']');
}

static void print_permissions(uint32_t permits) {
  bool is_first = true;
  json_name("permits");
  putchar('[');
  for (const show_permission *at = show_permissions; at->words; at++) {
    if (!(permits & at->bit)) continue;
    separate(&is_first);
    json_string(raf_text_span(at->words));
  }
  putchar(']');
}

/* Prints places to which, or at which, ports may be forwarded. */
static void print_places(const char *name, raf_span list) {
  raf_part host = {0, 0}, port = {0, 0};
  bool is_first = true;
  json_name(name);
  putchar('[');
  for (size_t place = 0;
       raf_next_string(list.bytes, list.length, place, &host) == RAF_DONE &&
       raf_next_string(list.bytes, list.length, host.start + host.length, &port) == RAF_DONE;
       place = port.start + port.length) {
    const uint8_t *number = list.bytes + port.start;
    separate(&is_first);
    printf("{\"host\":");
    json_string(text_part(list.bytes, host));
    if (port.length)
      json_number("port", (uint64_t)number[0] << 8 | number[1]);
    else
      json_null("port");
    putchar('}');
  }
  putchar(']');
}

/* ---- members of objects */

static void print_second(const char *name, uint64_t second) {
  if (second == UINT64_MAX)
    json_null(name);
  else
    json_number(name, second);
}

/* Prints the fingerprint of a key, where it has one. */
static void print_fingerprint(const char *name, raf_span key) {
  show_fingerprint fingerprint;
  if (show_read_fingerprint(key, &fingerprint) == RAF_DONE)
    json_text(name, show_fingerprint_of(&fingerprint));
  else
    json_null(name);
}

/* Begins an object with what it is about. */
static void begin(const report *of, const char *verdict) {
  json_begin(of->path);
  if (of->line) json_number("line", of->line);
  if (of->message) json_words("message", of->message);
  json_words("verdict", verdict);
}

/* The name of what lets in or refuses. */
static const char *source_name(uint32_t source) {
  return source == RAF_SOURCE_AUTHORIZED_KEYS ? "authorized_keys"
         : source == RAF_SOURCE_AUTHORITY     ? "authority"
         : source == RAF_SOURCE_PRINCIPALS    ? "principals"
                                              : "command";
}

/* The same of a verdict, with why it is, and by which line. */
static void begin_verdict(const report *of, uint32_t answer) {
  char words[WORDS];
  write_words(of, answer, words);
  begin(of, answer == RAF_DONE ? "valid" : "refused");
  json_number("status", answer);
  json_words("name", raf_status_name(answer));
  json_words("meaning", words);
  if (of->source) json_words("source", source_name(of->source));
  if (!of->by_line) return;
  json_words("by_file", of->by_path);
  json_number("by_line", of->by_line);
}

/* Prints which certificate it is, if there is one. */
static void print_identity(const report *of) {
  raf_blob certificate = of->certificate;
  raf_fields fields;
  raf_parts parts;
  memset(&fields, 0, sizeof fields);
  memset(&parts, 0, sizeof parts);
  const uint8_t *bytes = raf_bytes(certificate.bytes);
  if (raf_certificate_fields(bytes, certificate.length, &fields) != RAF_DONE ||
      raf_certificate_parts(bytes, certificate.length, &parts) != RAF_DONE)
    return;
  json_text("key_id", text_part(bytes, parts.key_id));
  json_number("serial", fields.serial);
  print_fingerprint("authority", text_part(bytes, parts.authority));
  const unread_certificate *own = unread_of(of);
  json_number("valid_after", own ? own->valid_after : fields.valid_after);
  print_second("valid_before", own ? own->valid_before : fields.valid_before);
}

/* Prints what a login may do by a certificate or a line. */
static void print_permitted(const raf_grant *grant, const uint8_t *buffer) {
  if (grant->permits & RAF_PERMIT_ANY_COMMAND)
    json_null("command");
  else
    json_text("command", text_part(buffer, grant->force_command));
  print_permissions(grant->permits);
  json_flag("touch_required", !(grant->permits & RAF_PERMIT_NO_TOUCH));
  json_flag("verification_required", !(grant->permits & RAF_PERMIT_NO_VERIFICATION));
}

/* Prints which device of tun(4) may be had: none without the permission. */
static void print_tunnel(const raf_grant *grant) {
  char number[16];
  uint32_t permits = grant->permits;
  snprintf(number, sizeof number, "%" PRIu32, grant->tunnel);
  if (!(permits & RAF_PERMIT_TUNNELS))
    json_null("tunnel");
  else if (permits & RAF_PERMIT_ANY_TUNNEL || grant->tunnel == SHOW_ANY_DEVICE)
    json_words("tunnel", "any");
  else
    json_words("tunnel", number);
}

/* ---- answers */

void report_valid(const report *of) {
  bool is_by_key = of->known_by == RAF_BY_CERTIFIED_KEY;
  if (of->is_json) {
    begin_verdict(of, RAF_DONE);
    if (of->known_by) json_words("known_by", is_by_key ? "certified key" : "authority");
    print_identity(of);
    json_end();
  } else {
    puts(is_by_key ? "valid by the certified key" : "valid");
  }
}

/* Prints what else the line of a grant says. */
static void print_line(const raf_grant *grant, const uint8_t *buffer) {
  print_places("forwards_to", text_part(buffer, grant->permit_open));
  print_places("listens_at", text_part(buffer, grant->permit_listen));
  print_tunnel(grant);
  print_strings("environment", text_part(buffer, grant->environment));
  print_second("expires", grant->expires.first);
  print_second("expires_latest", grant->expires.last);
}

void report_grant(report *of, const raf_grant *grant, const uint8_t *buffer) {
  /* nobody has asked for the client's signature */
  of->words = "valid, if the client signs";
  if (!of->is_json) {
    puts(of->words);
    show_grant(grant, buffer, of->by_path, of->certificate.length > 0);
    return;
  }
  begin_verdict(of, RAF_DONE);
  print_identity(of);
  print_permitted(grant, buffer);
  if (grant->line) print_line(grant, buffer);
  json_end();
}

void report_refused(const report *of, uint32_t answer) {
  if (of->is_json) {
    begin_verdict(of, answer);
    print_identity(of);
    json_end();
  } else if (of->is_verdict) {
    puts("refused");
  }
  report_complain(of, answer);
}

/* ---- what is shown */

/* Prints the path and the number of a line, as ssh-keygen does. */
static void print_heading(const report *of) {
  if (of->line == 1 && strcmp(of->path, REPORT_INPUT))
    printf("%s:\n", of->path);
  else
    printf("%s:%zu:\n", of->path, of->line);
}

uint32_t report_certificate(const report *of, uint32_t said) {
  raf_blob certificate = of->certificate, key = {NULL, 0};
  const char *signed_by = said == RAF_RSA_SHA1 ? "ssh-rsa" : NULL;
  raf_fields fields;
  raf_parts parts;
  memset(&fields, 0, sizeof fields);
  memset(&parts, 0, sizeof parts);
  if (!of->is_json) {
    print_heading(of);
    return show_certificate(certificate, signed_by, unread_of(of));
  }
  const uint8_t *bytes = certificate.bytes;
  uint32_t answer = raf_certificate_fields(bytes, certificate.length, &fields);
  if (answer == RAF_DONE) answer = raf_certificate_parts(bytes, certificate.length, &parts);
  if (answer == RAF_DONE) answer = certificate_read_key(certificate, &key);
  if (answer != RAF_DONE) return answer;
  if (said == RAF_DONE)
    begin(of, "shown");
  else
    begin_verdict(of, said);
  print_identity(of);
  json_text("type", text_first_string(raf_blob_span(certificate)));
  json_words("certificate_type", fields.certificate_type == RAF_USER ? "user" : "host");
  print_fingerprint("public_key", raf_blob_span(key));
  if (signed_by)
    json_words("signed_by", signed_by);
  else
    json_text("signed_by", show_algorithm(certificate, &parts));
  print_strings("principals", text_part(bytes, parts.principals));
  const unread_certificate *own = unread_of(of);
  print_options("critical_options", own ? text_part(own->bytes.bytes, own->critical_options)
                                        : text_part(bytes, parts.critical_options));
  print_options("extensions", own ? text_part(own->bytes.bytes, own->extensions)
                                  : text_part(bytes, parts.extensions));
  json_end();
  free(key.bytes);
  return RAF_DONE;
}

/* Shows the random art of a key, where it is asked for. */
static uint32_t show_drawn(const report *of, raf_span key) {
  show_art art;
  if (!of->has_art) return RAF_DONE;
  uint32_t answer = show_read_art(key, of->certificate.length > 0, &art);
  if (answer != RAF_DONE) return answer;
  if (of->is_json)
    json_text("random_art", (raf_span){art.text, art.length});
  else
    printf("%.*s\n", (int)art.length, (const char *)art.text);
  return answer;
}

uint32_t report_key(const report *of, raf_span key, raf_span comment) {
  show_fingerprint fingerprint;
  uint32_t answer = of->is_json ? show_read_fingerprint(key, &fingerprint)
                                : show_key(key, of->certificate.length > 0, comment);
  if (answer != RAF_DONE || !of->is_json) return answer == RAF_DONE ? show_drawn(of, key) : answer;
  begin(of, "shown");
  json_text("type", text_first_string(of->certificate.length ? raf_blob_span(of->certificate) : key));
  json_text("public_key", show_fingerprint_of(&fingerprint));
  json_text("comment", comment);
  answer = show_drawn(of, key);
  json_end();
  return answer;
}
