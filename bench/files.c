/* Makes a call of the library for C about a file so many times, for bench/files and bench/memory:
 *
 *     files KIND CALLS FILE SECOND
 *
 * FILE is what grows. SECOND is the key, the certificate or the SSH signature that is asked about.
 * It prints what the last call answered, and on standard error by how many bytes the peak of its
 * memory grew meanwhile. */
#include <stdio.h>
#include <stdlib.h>
#include <string.h>

#include "reading.h"

#define AT 2000000000
#define WORDS(text) (const uint8_t *)(text), sizeof(text) - 1

static uint8_t buffer[1 << 20];
#define ROOM buffer, sizeof buffer
static const uint8_t address[4] = {192, 0, 2, 1};

static uint32_t find_lines(raf_blob file) {
  raf_part line = {0, 0};
  uint32_t answer = RAF_DONE;
  while (answer == RAF_DONE)
    answer = raf_next_line(file.bytes, file.length, line.start + line.length, &line);
  return answer;
}

/* Each entry of a text. */
static uint32_t read_entries(raf_blob file) {
  raf_part line = {0, 0};
  raf_entry entry;
  uint32_t answer = RAF_DONE;
  memset(&entry, 0, sizeof entry);
  while (answer == RAF_DONE &&
         raf_next_line(file.bytes, file.length, line.start + line.length, &line) == RAF_DONE)
    answer = raf_authorized_entry(file.bytes + line.start, line.length, ROOM, &entry);
  return answer;
}

/* Each option of an entry. */
static uint32_t read_options(raf_blob file) {
  raf_line_option_parts option;
  uint32_t answer = RAF_DONE;
  memset(&option, 0, sizeof option);
  while (answer == RAF_DONE)
    answer = raf_next_line_option(file.bytes, file.length, option.next, ROOM, &option);
  return answer;
}

static uint32_t check_host(raf_blob file, raf_blob key) {
  raf_span texts[] = {raf_blob_span(file)};
  raf_host_login login = {{texts, 1}, raf_text_span("host.example.com"), RAF_NO_REVOCATIONS, AT,
                          2048, 22};
  return raf_check_host_key(&login, key.bytes, key.length);
}

/* The same by a text that is held: its places are written before the first call. */
static uint32_t check_held_host(raf_blob file, raf_blob key) {
  static raf_line_place *places;
  static size_t count;
  raf_line_place none = {0, 0};
  if (!places) {
    raf_place_hosts(file.bytes, file.length, &none, 0, &count);
    places = calloc(count + 1, sizeof *places);
    if (!places || raf_place_hosts(file.bytes, file.length, places, count, &count) != RAF_DONE)
      exit(3);
  }
  raf_host_login login = {{NULL, 0}, raf_text_span("host.example.com"), RAF_NO_REVOCATIONS, AT,
                          2048, 22};
  login.known_hosts.items = login.revoked.items;
  return raf_check_held_host_key(&login, file.bytes, file.length, places, count, key.bytes,
                                 key.length);
}

/* A login by these texts of authorized_keys, or of principals by the authority that signed what is
 * offered. */
static uint32_t check_login(raf_blob offered, raf_texts keys, raf_texts principals) {
  raf_span empty = raf_text_span(""), client = {address, sizeof address};
  raf_sha256 by = {{0}}, ticket = {{0}};
  raf_parts parts;
  raf_texts none = {keys.items, 0};
  raf_grant grant;
  memset(&parts, 0, sizeof parts);
  memset(&grant, 0, sizeof grant);
  if (raf_certificate_parts(offered.bytes, offered.length, &parts) == RAF_DONE)
    raf_fingerprint(offered.bytes + parts.authority.start, parts.authority.length, &by);
  raf_login login = {{raf_text_span("user"), empty, raf_blob_span(offered)},
                     {empty, empty, empty, RAF_SIGNED_BY_SSHD, 0, 0},
                     {keys, {&by, 1}, principals, none, RAF_NO_REVOCATIONS,
                      RAF_PRINCIPALS_IN_FILES, 0, 0, 0},
                     {client, empty, AT, 0}};
  return raf_log_in(&login, &ticket, 0, ROOM, &grant);
}

static uint32_t check_user(raf_blob file, raf_blob key) {
  raf_text text = {raf_blob_span(file), 1};
  return check_login(key, (raf_texts){&text, 1}, (raf_texts){&text, 0});
}

static uint32_t check_principals(raf_blob file, raf_blob certificate) {
  raf_text text = {raf_blob_span(file), 1};
  return check_login(certificate, (raf_texts){&text, 0}, (raf_texts){&text, 1});
}

/* Each line is a text of its own. */
static uint32_t check_texts(raf_blob file, raf_blob key) {
  size_t count = 0;
  for (size_t at = 0; at < file.length; at++) count += file.bytes[at] == '\n';
  raf_text *texts = calloc(count + 1, sizeof *texts);
  raf_part line = {0, 0};
  if (!texts) exit(3);
  for (size_t at = 0; at < count; at++) {
    if (raf_next_line(file.bytes, file.length, line.start + line.length, &line) != RAF_DONE) break;
    texts[at] = (raf_text){{file.bytes + line.start, line.length}, 1};
  }
  uint32_t answer = check_login(key, (raf_texts){texts, count}, (raf_texts){texts, 0});
  free(texts);
  return answer;
}

static uint32_t call(const char *kind, raf_blob file, raf_blob second) {
  raf_span revoked[] = {raf_blob_span(file)};
  if (!strcmp(kind, "lines")) return find_lines(file);
  if (!strcmp(kind, "entries")) return read_entries(file);
  if (!strcmp(kind, "options")) return read_options(file);
  if (!strcmp(kind, "addresses"))
    return raf_check_source_address(file.bytes, file.length, address, sizeof address);
  if (!strcmp(kind, "hosts")) return check_host(file, second);
  if (!strcmp(kind, "held-hosts")) return check_held_host(file, second);
  if (!strcmp(kind, "users")) return check_user(file, second);
  if (!strcmp(kind, "texts")) return check_texts(file, second);
  if (!strcmp(kind, "principals")) return check_principals(file, second);
  if (!strcmp(kind, "unrevoked-key"))
    return raf_check_unrevoked_key(revoked, 1, second.bytes, second.length);
  if (!strcmp(kind, "unrevoked-certificate"))
    return raf_check_unrevoked_certificate(revoked, 1, second.bytes, second.length);
  raf_spans none = RAF_NO_REVOCATIONS;
  return raf_check_signer(file.bytes, file.length, WORDS("user@example.com"), WORDS("file"),
                          second.bytes, second.length, AT, none.items, none.count, 0);
}

/* The peak of this process's memory in bytes. */
static long peak(void) {
  char line[128];
  long kibibytes = 0;
  FILE *status = fopen("/proc/self/status", "r");
  while (status && fgets(line, sizeof line, status)) sscanf(line, "VmHWM: %ld", &kibibytes);
  if (status) fclose(status);
  return kibibytes * 1024;
}

int main(int count, char **words) {
  raf_blob file = {NULL, 0}, second = {NULL, 0};
  if (count != 5 || !raf_read_file(words[3], &file) || !raf_read_file(words[4], &second))
    return 2;
  volatile uint32_t last = 0;
  long before = peak();
  for (long calls = strtol(words[2], NULL, 10); calls; calls--) last = call(words[1], file, second);
  printf("%u\n", last);
  fprintf(stderr, "%ld\n", peak() - before);
  free(file.bytes);
  free(second.bytes);
  return 0;
}
