#include "text.h"

#include <inttypes.h>
#include <stdio.h>
#include <string.h>

raf_span text_part(const uint8_t *bytes, raf_part part) {
  return (raf_span){bytes + part.start, part.length};
}

raf_span text_first_string(raf_span bytes) {
  raf_part part = {0, 0};
  uint32_t answer = raf_next_string(bytes.bytes, bytes.length, 0, &part);
  return answer == RAF_DONE ? text_part(bytes.bytes, part) : (raf_span){bytes.bytes, 0};
}

bool text_is(raf_span it, const char *text) {
  return it.length == strlen(text) && !memcmp(it.bytes, text, it.length);
}

/* ---- characters */

/* How many bytes the character has that the text begins with; 0 where it begins with none. */
static size_t read_character(raf_span text, uint32_t *character) {
  static const uint32_t least[] = {0, 0, 0x80, 0x800, 0x10000}; /* of that many bytes */
  uint8_t first = text.bytes[0];
  size_t length = first < 0x80   ? 1
                  : first < 0xc0 ? 0
                  : first < 0xe0 ? 2
                  : first < 0xf0 ? 3
                  : first < 0xf8 ? 4
                                 : 0;
  if (!length || length > text.length) return 0;
  uint32_t value = length == 1 ? first : first & (0x7fu >> length);
  for (size_t at = 1; at < length; at++) {
    if ((text.bytes[at] & 0xc0) != 0x80) return 0;
    value = value << 6 | (text.bytes[at] & 0x3f);
  }
  *character = value;
  bool is_surrogate = value >= 0xd800 && value < 0xe000;
  return value < least[length] || value > 0x10ffff || is_surrogate ? 0 : length;
}

/* Whether a line may not have it: it moves, turns or breaks what stands around it. */
static bool is_mark(uint32_t character) {
  static const uint32_t spans[][2] = {
      {0, 0x1f}, {0x7f, 0x9f}, {0x200e, 0x200f}, {0x2028, 0x202e}, {0x2066, 0x2069}};
  for (size_t at = 0; at < sizeof spans / sizeof *spans; at++)
    if (character >= spans[at][0] && character <= spans[at][1]) return true;
  return false;
}

static raf_span after(raf_span text, size_t length) {
  return (raf_span){text.bytes + length, text.length - length};
}

/* Writes a text with three octal digits for each byte of what may not stand in a line, and of that
 * other character. */
static void write_text(FILE *to, raf_span text, uint32_t other) {
  while (text.length) {
    uint32_t character = 0;
    size_t length = read_character(text, &character), printed = length ? length : 1;
    bool is_plain = length && !is_mark(character) && character != other;
    for (size_t at = 0; at < printed; at++)
      if (is_plain)
        putc(text.bytes[at], to);
      else
        fprintf(to, "\\%03o", text.bytes[at]);
    text = after(text, printed);
  }
}

void text_print(raf_span text) {
  write_text(stdout, text, '\\');
}

void text_complain(raf_span text) {
  write_text(stderr, text, 0);
}

/* ---- JSON */

static bool is_utf8(raf_span text) {
  for (size_t length = 1; text.length && length; text = after(text, length)) {
    uint32_t character;
    length = read_character(text, &character);
  }
  return !text.length;
}

void json_string(raf_span text) {
  putchar('"');
  while (text.length) {
    uint32_t character = 0xfffd;
    size_t length = read_character(text, &character);
    if (!length)
      printf("\\ufffd");
    else if (is_mark(character))
      printf("\\u%04" PRIx32, character);
    else if (character == '"' || character == '\\')
      printf("\\%c", (char)character);
    else
      fwrite(text.bytes, 1, length, stdout);
    text = after(text, length ? length : 1);
  }
  putchar('"');
}

static void print_base64(raf_span bytes) {
  static const char digits[] = "ABCDEFGHIJKLMNOPQRSTUVWXYZabcdefghijklmnopqrstuvwxyz0123456789+/";
  for (size_t at = 0; at < bytes.length; at += 3) {
    size_t left = bytes.length - at;
    uint32_t three = (uint32_t)bytes.bytes[at] << 16;
    if (left > 1) three |= (uint32_t)bytes.bytes[at + 1] << 8;
    if (left > 2) three |= bytes.bytes[at + 2];
    putchar(digits[three >> 18]);
    putchar(digits[three >> 12 & 63]);
    putchar(left > 1 ? digits[three >> 6 & 63] : '=');
    putchar(left > 2 ? digits[three & 63] : '=');
  }
}

void json_name(const char *name) {
  printf(",\"%s\":", name);
}

/* Prints the value of the member of that name, which is printed, and what stands beside it. */
static void print_value(const char *name, raf_span text) {
  json_string(text);
  if (is_utf8(text)) return;
  printf(",\"%s_base64\":\"", name);
  print_base64(text);
  putchar('"');
}

void json_begin(const char *path) {
  printf("{\"file\":");
  print_value("file", (raf_span){(const uint8_t *)path, strlen(path)});
}

void json_end(void) {
  printf("}\n");
}

void json_text(const char *name, raf_span text) {
  json_name(name);
  print_value(name, text);
}

void json_words(const char *name, const char *words) {
  json_text(name, (raf_span){(const uint8_t *)words, strlen(words)});
}

void json_number(const char *name, uint64_t number) {
  json_name(name);
  printf("%" PRIu64, number);
}

void json_flag(const char *name, bool flag) {
  json_name(name);
  printf("%s", flag ? "true" : "false");
}

void json_null(const char *name) {
  json_name(name);
  printf("null");
}
