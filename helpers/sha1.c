#include "sha1.h"

#include <stdlib.h>
#include <string.h>

/* ---- Base64 */

/* The digit in Base64, or -1. */
static int digit_of(uint8_t letter) {
  static const char digits[] =
      "ABCDEFGHIJKLMNOPQRSTUVWXYZabcdefghijklmnopqrstuvwxyz0123456789+/";
  const char *found = letter ? strchr(digits, letter) : NULL;
  return found ? (int)(found - digits) : -1;
}

/* Whether that many digits and padding are a whole text, and the bits that are left are 0. */
static bool is_end(size_t digits, size_t padding, uint32_t bits) {
  if (digits % 4 == 2) return padding == 2 && !(bits & 15);
  if (digits % 4 == 3) return padding == 1 && !(bits & 3);
  return digits % 4 == 0 && padding == 0;
}

size_t raf_decode_base64(uint8_t *bytes, size_t length) {
  size_t digits = 0, padding = 0, decoded = 0;
  uint32_t bits = 0;
  for (size_t at = 0; at < length; at++) {
    if (bytes[at] && strchr(" \t\n\v\f\r", bytes[at])) continue;
    int digit = digit_of(bytes[at]);
    if (bytes[at] == '=') padding++;
    if (bytes[at] == '=') continue;
    if (digit < 0 || padding) return SIZE_MAX;
    bits = bits << 6 | (uint32_t)digit;
    /* each digit but the first of four ends a byte */
    if (digits % 4) bytes[decoded++] = (uint8_t)(bits >> (2 * (3 - digits % 4)));
    digits++;
  }
  return is_end(digits, padding, bits) ? decoded : SIZE_MAX;
}

raf_blob raf_decode_second_word(const char *line, size_t length, size_t room) {
  raf_blob word = {calloc(1, length + room + 1), 0};
  const char *front = memchr(line, ' ', length);
  if (!word.bytes || !front) return word;
  size_t left = length - (size_t)(++front - line);
  const char *end = memchr(front, ' ', left);
  word.length = end ? (size_t)(end - front) : left;
  memcpy(word.bytes, front, word.length);
  size_t decoded = raf_decode_base64(word.bytes, word.length);
  word.length = decoded == SIZE_MAX ? 0 : decoded;
  return word;
}

/* ---- certificates */

static const char sha1[] = "\0\0\0\7ssh-rsa", sha256[] = "\0\0\0\14rsa-sha2-256";
enum { SHA1 = sizeof sha1 - 1, SHA256 = sizeof sha256 - 1, MOST_PARTS = 4 };

/* The place after that many strings, from that place on; SIZE_MAX where they are none. */
static size_t skip(raf_blob bytes, size_t place, size_t strings) {
  raf_part part = {0, 0};
  for (; strings && place <= bytes.length; strings--) {
    if (raf_next_string(bytes.bytes, bytes.length, place, &part) != RAF_DONE)
      return SIZE_MAX;
    place = part.start + part.length;
  }
  return strings ? SIZE_MAX : place;
}

/* Where the signature of a certificate begins whose key has so many parts, if its last string is
 * one by SHA-1; else SIZE_MAX (PROTOCOL.certkeys). */
static size_t signature_in(raf_blob bytes, size_t parts) {
  /* type, nonce and key; serial number and type; key id and principals; the window; critical
   * options, extensions, a reserved string and the authority */
  size_t place = skip(bytes, 0, 2 + parts);
  if (place != SIZE_MAX) place = skip(bytes, place + 12, 2);
  if (place != SIZE_MAX) place = skip(bytes, place + 16, 4);
  if (place == SIZE_MAX || skip(bytes, place, 1) != bytes.length) return SIZE_MAX;
  bool is_sha1 = bytes.length - place >= 4 + SHA1 && !memcmp(bytes.bytes + place + 4, sha1, SHA1);
  return is_sha1 ? place : SIZE_MAX;
}

/* Names another hash in the signature, for which there has to be buffer after the bytes. */
static raf_blob renamed(raf_blob bytes, size_t place) {
  size_t length = bytes.length - place - 4 + SHA256 - SHA1;
  uint8_t *signature = bytes.bytes + place + 4;
  memmove(signature + SHA256, signature + SHA1, bytes.length - place - 4 - SHA1);
  memcpy(signature, sha256, SHA256);
  for (size_t at = 0; at < 4; at++)
    bytes.bytes[place + at] = (uint8_t)(length >> (8 * (3 - at)));
  return (raf_blob){bytes.bytes, bytes.length + SHA256 - SHA1};
}

uint32_t raf_read_sha1_line(const char *line, size_t length, raf_blob *answer) {
  raf_fields fields;
  memset(&fields, 0, sizeof fields);
  raf_blob found = raf_decode_second_word(line, length, SHA256);
  if (!found.bytes) return RAF_MEMORY;
  size_t place = SIZE_MAX;
  for (size_t parts = 1; parts <= MOST_PARTS && place == SIZE_MAX; parts++)
    place = signature_in(found, parts);
  if (place != SIZE_MAX) found = renamed(found, place);
  if (place == SIZE_MAX ||
      raf_certificate_fields(found.bytes, found.length, &fields) != RAF_DONE) {
    free(found.bytes);
    return RAF_LENGTH;
  }
  *answer = found;
  return RAF_RSA_SHA1;
}
