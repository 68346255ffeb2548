/* Makes a call of the library for C so many times, for bench/peers:
 *
 *     peers log-in|authorized_keys|known_hosts|held-known_hosts CALLS FILE SECOND
 *
 * FILE is the key of an authority, or a file of that name, which each call reads anew, unless it is
 * held. SECOND is the key or the certificate that is asked about. It prints nanoseconds of
 * processor time a call, and what the last one answered. */
#include <stdio.h>
#include <stdlib.h>
#include <string.h>
#include <time.h>

#include "reading.h"
#include "verdict.h"
#include "verify.h"

#define AT 2000000000

static raf_sha256 authority;
static raf_blob held_file;
static raf_line_place *places;
static size_t places_count;

/* In place of libcrypto's, which is not measured here: each signature is believed. */
bool raf_is_signature(const raf_question *question, const uint8_t *buffer) {
  return question && buffer;
}

/* A login where the SSH library verifies the client's signature. */
static uint32_t log_in(raf_blob offered, raf_texts keys, raf_digests authorities) {
  static uint8_t buffer[4096];
  static const uint8_t address[4] = {192, 0, 2, 1};
  raf_span empty = raf_text_span(""), client = {address, sizeof address};
  raf_texts none = {NULL, 0};
  raf_grant grant;
  raf_login login = {{raf_text_span("user"), empty, raf_blob_span(offered)},
                     {empty, empty, empty, RAF_SIGNED_BY_TRANSPORT, 0, 0},
                     {keys, authorities, none, none, RAF_NO_REVOCATIONS,
                      RAF_PRINCIPALS_IN_CERTIFICATE, 0, 0, 0},
                     {client, empty, AT, 0}};
  return raf_verify_login(&login, buffer, sizeof buffer, &grant);
}

static uint32_t log_in_by_keys(raf_blob file, raf_blob key) {
  raf_text text = {raf_blob_span(file), 1};
  return log_in(key, (raf_texts){&text, 1}, (raf_digests){NULL, 0});
}

static raf_host_login host_login(raf_spans texts) {
  return (raf_host_login){texts, raf_text_span("host.example.com"), RAF_NO_REVOCATIONS, AT, 0, 22};
}

static uint32_t check_host(raf_blob file, raf_blob key) {
  raf_span texts[] = {raf_blob_span(file)};
  raf_host_login login = host_login((raf_spans){texts, 1});
  return raf_check_host_key(&login, key.bytes, key.length);
}

static uint32_t check_held_host(raf_blob key) {
  raf_span nothing = raf_text_span("");
  raf_host_login login = host_login((raf_spans){&nothing, 0});
  return raf_check_held_host_key(&login, held_file.bytes, held_file.length, places, places_count,
                                 key.bytes, key.length);
}

/* Reads what is not read in each call. */
static bool prepare(const char *kind, const char *path) {
  raf_line_place none = {0, 0};
  bool is_held = !strcmp(kind, "held-known_hosts");
  if (!is_held && strcmp(kind, "log-in")) return true;
  if (!raf_read_file(path, &held_file)) return false;
  if (!is_held)
    return raf_fingerprint(held_file.bytes, held_file.length, &authority) == RAF_DONE;
  raf_place_hosts(held_file.bytes, held_file.length, &none, 0, &places_count);
  places = calloc(places_count + 1, sizeof *places);
  return places && raf_place_hosts(held_file.bytes, held_file.length, places, places_count,
                                   &places_count) == RAF_DONE;
}

static uint32_t call(const char *kind, const char *path, raf_blob second) {
  raf_blob file;
  if (!strcmp(kind, "log-in"))
    return log_in(second, (raf_texts){NULL, 0}, (raf_digests){&authority, 1});
  if (!strcmp(kind, "held-known_hosts")) return check_held_host(second);
  if (!raf_read_file(path, &file)) exit(2);
  bool is_user = !strcmp(kind, "authorized_keys");
  uint32_t answer = is_user ? log_in_by_keys(file, second) : check_host(file, second);
  free(file.bytes);
  return answer;
}

int main(int count, char **words) {
  raf_blob second;
  if (count != 5 || !raf_read_file(words[4], &second) || !prepare(words[1], words[3])) return 2;
  long calls = strtol(words[2], NULL, 10);
  uint32_t last = 0;
  clock_t began = clock();
  for (long at = 0; at < calls; at++) last = call(words[1], words[3], second);
  double took = (double)(clock() - began) / CLOCKS_PER_SEC;
  printf("%.0f %s\n", took / (double)calls * 1e9, last == RAF_DONE ? "valid" : "refused");
  free(second.bytes);
  free(held_file.bytes);
  free(places);
  return 0;
}
