#include "show.h"

#include <inttypes.h>
#include <stdio.h>
#include <stdlib.h>
#include <string.h>

#include "certificate.h"
#include "text.h"

#define INDENT "                "

/* ---- keys */

/* What ssh-keygen calls a key that begins with that name, and how many bits it has: always so many,
 * or those of its string of that number. */
typedef struct {
  const char *name, *shown;
  size_t bits;
  int counted;
} key_kind;

/* The kind of a key; null for one under a name of its own. */
static const key_kind *kind_of(raf_span key) {
  static const key_kind kinds[] = {{"ssh-ed25519", "ED25519", 256, 0},
                                   {"ssh-rsa", "RSA", 0, 2},
                                   {"rsa-sha2-256", "RSA", 0, 2},
                                   {"rsa-sha2-512", "RSA", 0, 2},
                                   {"ssh-dss", "DSA", 0, 1},
                                   {"ecdsa-sha2-nistp256", "ECDSA", 256, 0},
                                   {"ecdsa-sha2-nistp384", "ECDSA", 384, 0},
                                   {"ecdsa-sha2-nistp521", "ECDSA", 521, 0},
                                   {"sk-ssh-ed25519@openssh.com", "ED25519-SK", 256, 0},
                                   {"sk-ecdsa-sha2-nistp256@openssh.com", "ECDSA-SK", 256, 0}};
  raf_span name = text_first_string(key);
  size_t at = 0, count = sizeof kinds / sizeof *kinds;
  while (at < count && !text_is(name, kinds[at].name)) at++;
  return at < count ? &kinds[at] : NULL;
}

/* How many bits a key of that kind has. */
static size_t bits_of(raf_span key, const key_kind *kind) {
  raf_part part = {0, 0};
  if (kind->bits) return kind->bits;
  for (int at = 0; at <= kind->counted; at++)
    if (raf_next_string(key.bytes, key.length, part.start + part.length, &part) != RAF_DONE)
      return 0;
  const uint8_t *bytes = key.bytes + part.start, *end = bytes + part.length;
  while (bytes < end && !*bytes) bytes++;
  size_t bits = 8 * (size_t)(end - bytes);
  for (unsigned first = bits ? *bytes : 0x80; first < 0x80; first <<= 1) bits--;
  return bits;
}

/* Prints the kind of a key, as ssh-keygen names it. */
static void print_kind(raf_span key) {
  const key_kind *kind = kind_of(key);
  if (kind)
    printf("%s", kind->shown);
  else
    text_print(text_first_string(key));
}

uint32_t show_read_fingerprint(raf_span key, show_fingerprint *answer) {
  raf_sha256 digest = {{0}};
  uint32_t status = raf_fingerprint(key.bytes, key.length, &digest);
  memset(answer, 0, sizeof *answer);
  if (status != RAF_DONE) return status;
  return raf_fingerprint_text(&digest, answer->text, sizeof answer->text);
}

uint32_t show_named_key(raf_span key, const char *ending) {
  show_fingerprint fingerprint;
  uint32_t answer = show_read_fingerprint(key, &fingerprint);
  if (answer != RAF_DONE) return answer;
  print_kind(key);
  printf("%s ", ending);
  text_print(show_fingerprint_of(&fingerprint));
  return RAF_DONE;
}

uint32_t show_key(raf_span key, bool is_certified, raf_span comment) {
  show_fingerprint fingerprint;
  const key_kind *kind = kind_of(key);
  uint32_t answer = show_read_fingerprint(key, &fingerprint);
  if (answer != RAF_DONE) return answer;
  if (kind) printf("%zu ", bits_of(key, kind));
  text_print(show_fingerprint_of(&fingerprint));
  putchar(' ');
  if (comment.length)
    text_print(comment);
  else
    printf("no comment");
  printf(" (");
  print_kind(key);
  puts(is_certified ? "-CERT)" : ")");
  return RAF_DONE;
}

uint32_t show_read_art(raf_span key, bool is_certified, show_art *answer) {
  raf_sha256 digest = {{0}};
  const key_kind *kind = kind_of(key);
  const char *shown = kind ? kind->shown : "", *ending = is_certified ? "-CERT" : "";
  char header[SHOW_ART_HEADER + 1];
  memset(answer, 0, sizeof *answer);
  uint32_t status = raf_fingerprint(key.bytes, key.length, &digest);
  if (status != RAF_DONE) return status;
  /* as ssh-keygen: one that is much too long has no number, and one that is a little is cut off */
  int length = snprintf(header, sizeof header, "[%s%s %zu]", shown, ending,
                        kind ? bits_of(key, kind) : 0);
  if (!kind || length > SHOW_ART_HEADER + 1)
    snprintf(header, sizeof header, "[%s%s]", shown, ending);
  return raf_random_art(&digest, (const uint8_t *)header, strlen(header), answer->text,
                        sizeof answer->text, &answer->length);
}

/* The key that is certified, which does not stand whole in the certificate. */
static uint32_t print_certified_key(raf_blob certificate) {
  raf_blob key = {NULL, 0};
  uint32_t answer = certificate_read_key(certificate, &key);
  if (answer == RAF_DONE) answer = show_named_key(raf_blob_span(key), "-CERT");
  free(key.bytes);
  return answer;
}

/* ---- window */

static void print_time(uint64_t second) {
  char text[64];
  struct tm parts;
  time_t when = second > INT64_MAX ? INT64_MAX : (time_t)second;
  if (localtime_r(&when, &parts) && strftime(text, sizeof text, "%Y-%m-%dT%H:%M:%S", &parts))
    printf("%s", text);
  else
    printf("second %" PRIu64, second);
}

static void print_window(const raf_fields *fields) {
  bool begins = fields->valid_after != 0, ends = fields->valid_before != RAF_FOREVER;
  const char *one = begins ? "after " : ends ? "before " : "forever";
  printf("        Valid: %s", begins && ends ? "from " : one);
  if (begins) print_time(fields->valid_after);
  if (begins && ends) printf(" to ");
  if (ends) print_time(fields->valid_before);
  putchar('\n');
}

/* ---- lists */

static void print_principals(raf_span list) {
  raf_part name = {0, 0};
  printf("        Principals: %s\n", list.length ? "" : "(none)");
  for (size_t place = 0;
       raf_next_string(list.bytes, list.length, place, &name) == RAF_DONE;
       place = name.start + name.length) {
    printf(INDENT);
    text_print(text_part(list.bytes, name));
    putchar('\n');
  }
}

/* Whether the option is one of those that ssh-keygen knows, with a value or without. */
static bool is_known(bool is_critical, bool has_value, raf_span name) {
  static const char *const flags[] = {"permit-X11-forwarding",  "permit-agent-forwarding",
                                      "permit-port-forwarding", "permit-pty",
                                      "permit-user-rc",         "no-touch-required"};
  if (is_critical && !has_value) return text_is(name, "verify-required");
  if (is_critical) return text_is(name, "force-command") || text_is(name, "source-address");
  for (size_t at = 0; !has_value && at < sizeof flags / sizeof *flags; at++)
    if (text_is(name, flags[at])) return true;
  return false;
}

static void print_options(const char *title, bool is_critical, raf_span list) {
  raf_certificate_option_parts option;
  memset(&option, 0, sizeof option);
  printf("        %s: %s\n", title, list.length ? "" : "(none)");
  while (raf_next_certificate_option(list.bytes, list.length, option.next, &option) == RAF_DONE) {
    raf_span name = text_part(list.bytes, option.name);
    /* after the length of four bytes what the option holds, in which the value stands */
    size_t held = option.name.start + option.name.length + 4;
    printf(INDENT);
    text_print(name);
    if (is_known(is_critical, option.value.length > 0, name)) {
      if (option.value.length) putchar(' ');
      text_print(text_part(list.bytes, option.value));
    } else if (held == option.next) {
      printf(" UNKNOWN FLAG OPTION");
    } else {
      printf(" UNKNOWN OPTION: ");
      for (size_t at = held; at < option.next; at++) printf("%02x", list.bytes[at]);
      printf(" (len %zu)", option.next - held);
    }
    putchar('\n');
  }
}

/* ---- all of it */

raf_span show_algorithm(raf_blob certificate, const raf_parts *parts) {
  size_t place = parts->authority.start + parts->authority.length;
  raf_span rest = {certificate.bytes + place, certificate.length - place};
  return text_first_string(text_first_string(rest));
}

uint32_t show_certificate(raf_blob certificate, const char *signed_by,
                          const unread_certificate *own) {
  const uint8_t *bytes = certificate.bytes;
  raf_fields fields;
  raf_parts parts;
  memset(&fields, 0, sizeof fields);
  memset(&parts, 0, sizeof parts);
  uint32_t answer = raf_certificate_fields(bytes, certificate.length, &fields);
  if (answer == RAF_DONE) answer = raf_certificate_parts(bytes, certificate.length, &parts);
  if (answer != RAF_DONE) return answer;
  printf("        Type: ");
  text_print(text_first_string((raf_span){bytes, certificate.length}));
  const char *whose = fields.certificate_type == RAF_USER ? "user" : "host";
  printf(" %s certificate\n        Public key: ", whose);
  answer = print_certified_key(certificate);
  if (answer != RAF_DONE) return answer;
  printf("\n        Signing CA: ");
  answer = show_named_key(text_part(bytes, parts.authority), "");
  if (answer != RAF_DONE) return answer;
  printf(" (using ");
  if (signed_by)
    printf("%s", signed_by);
  else
    text_print(show_algorithm(certificate, &parts));
  printf(")\n        Key ID: \"");
  text_print(text_part(bytes, parts.key_id));
  printf("\"\n        Serial: %" PRIu64 "\n", fields.serial);
  if (own) fields.valid_after = own->valid_after, fields.valid_before = own->valid_before;
  print_window(&fields);
  print_principals(text_part(bytes, parts.principals));
  const uint8_t *from = own ? own->bytes.bytes : bytes;
  raf_part critical = own ? own->critical_options : parts.critical_options;
  print_options("Critical Options", true, text_part(from, critical));
  print_options("Extensions", false, text_part(from, own ? own->extensions : parts.extensions));
  return RAF_DONE;
}

/* ---- grants */

const show_permission show_permissions[] = {{"any command", RAF_PERMIT_ANY_COMMAND},
                                            {"pty", RAF_PERMIT_PTY},
                                            {"port forwarding", RAF_PERMIT_PORT_FORWARDING},
                                            {"agent forwarding", RAF_PERMIT_AGENT_FORWARDING},
                                            {"X11 forwarding", RAF_PERMIT_X11_FORWARDING},
                                            {"user rc", RAF_PERMIT_USER_RC},
                                            {"tunnels", RAF_PERMIT_TUNNELS},
                                            {NULL, 0}};

static void print_permissions(uint32_t permits) {
  const char *before = "        Permits: ";
  for (const show_permission *at = show_permissions; at->words; at++) {
    if (!(permits & at->bit)) continue;
    printf("%s%s", before, at->words);
    before = ", ";
  }
  puts(*before == ',' ? "" : "        Permits: (nothing)");
}

/* Prints a host, in brackets where a colon stands in it. */
static void print_host(raf_span host) {
  bool is_bare = !host.length || !memchr(host.bytes, ':', host.length);
  if (!is_bare) putchar('[');
  text_print(host);
  if (!is_bare) putchar(']');
}

/* Prints where ports may be forwarded: each host and its port, which is two bytes, or none for any.
 * Of anywhere the permission tells. */
static void print_ports(const char *title, raf_span list) {
  static const uint8_t anywhere[] = "\0\0\0\1*\0\0\0"; /* that host, at any port */
  raf_part host = {0, 0}, port = {0, 0};
  if (list.length == sizeof anywhere && !memcmp(list.bytes, anywhere, sizeof anywhere)) return;
  for (size_t place = 0;
       raf_next_string(list.bytes, list.length, place, &host) == RAF_DONE &&
       raf_next_string(list.bytes, list.length, host.start + host.length, &port) == RAF_DONE;
       place = port.start + port.length) {
    const uint8_t *number = list.bytes + port.start;
    printf("        %s: ", title);
    print_host(text_part(list.bytes, host));
    if (port.length)
      printf(":%d\n", number[0] << 8 | number[1]);
    else
      puts(":*");
  }
}

static void print_strings(const char *title, raf_span list) {
  raf_part part = {0, 0};
  for (size_t place = 0;
       raf_next_string(list.bytes, list.length, place, &part) == RAF_DONE;
       place = part.start + part.length) {
    printf("        %s: ", title);
    text_print(text_part(list.bytes, part));
    putchar('\n');
  }
}

/* The last second, or the first and the last that it may be. */
static void print_expiry(raf_time_span expires) {
  if (expires.first == UINT64_MAX) return;
  printf("        Valid until: ");
  print_time(expires.first);
  if (expires.first != expires.last) {
    printf(", or as late as ");
    print_time(expires.last);
  }
  putchar('\n');
}

/* The command that alone may run, and what is permitted. */
static void print_permitted(const raf_grant *grant, const uint8_t *buffer) {
  if (!(grant->permits & RAF_PERMIT_ANY_COMMAND)) {
    printf("        Command: ");
    text_print(text_part(buffer, grant->force_command));
    putchar('\n');
  }
  print_permissions(grant->permits);
}

/* What a security key's signature may lack, and what it may not. */
static void print_flags(uint32_t permits) {
  if (permits & RAF_PERMIT_NO_TOUCH) puts("        Touch: not required");
  if (!(permits & RAF_PERMIT_NO_VERIFICATION)) puts("        Verification: required");
}

static void print_certificate(const raf_grant *grant, const uint8_t *buffer) {
  uint8_t text[RAF_FINGERPRINT_TEXT] = {0};
  printf("        Key ID: \"");
  text_print(text_part(buffer, grant->key_id));
  printf("\"\n        Serial: %" PRIu64 "\n", grant->serial);
  if (raf_fingerprint_text(&grant->authority, text, sizeof text) == RAF_DONE)
    printf("        Signing CA: %.*s\n", (int)sizeof text, (const char *)text);
}

/* The only device of tun(4) that may be had, where it is not any. */
static void print_tunnel(const raf_grant *grant) {
  if (!(grant->permits & RAF_PERMIT_TUNNELS) || grant->permits & RAF_PERMIT_ANY_TUNNEL) return;
  if (grant->tunnel == SHOW_ANY_DEVICE)
    puts("        Tunnel: any");
  else
    printf("        Tunnel: %" PRIu32 "\n", grant->tunnel);
}

void show_grant(const raf_grant *grant, const uint8_t *buffer, const char *path,
                bool is_certified) {
  if (grant->line) {
    printf("        Line: ");
    text_print((raf_span){raf_bytes(path), path ? strlen(path) : 0});
    printf(":%zu\n", grant->line);
  }
  print_permitted(grant, buffer);
  print_ports("Forwards to", text_part(buffer, grant->permit_open));
  print_ports("Listens at", text_part(buffer, grant->permit_listen));
  print_tunnel(grant);
  print_strings("Environment", text_part(buffer, grant->environment));
  print_flags(grant->permits);
  print_expiry(grant->expires);
  if (is_certified) print_certificate(grant, buffer);
}
