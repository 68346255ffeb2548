#include "unread.h"

#include <stdlib.h>
#include <string.h>

#include "sha1.h"
#include "text.h"

enum { MOST_PARTS = 4, SERIAL_AND_TYPE = 12, WINDOW = 16, NO_LISTS = 8 };

/* The bytes of the second word of a line; none where there is none. */
static raf_blob word_of(const char *line, size_t length) {
  raf_blob word = {calloc(1, length + 1), 0};
  const char *front = memchr(line, ' ', length);
  if (!word.bytes || !front) return word;
  size_t left = length - (size_t)(++front - line);
  const char *end = memchr(front, ' ', left);
  word.length = end ? (size_t)(end - front) : left;
  memcpy(word.bytes, front, word.length);
  size_t decoded = raf_decode_base64(word.bytes, word.length);
  word.length = decoded == SIZE_MAX ? 0 : decoded;
  return word;
}

/* Passes over that many strings, of which the last is the answer; false where they are none. */
static bool skip(raf_blob bytes, size_t *place, size_t strings, raf_part *last) {
  for (; strings; strings--) {
    if (*place > bytes.length ||
        raf_next_string(bytes.bytes, bytes.length, *place, last) != RAF_DONE)
      return false;
    *place = last->start + last->length;
  }
  return true;
}

static uint64_t number_at(const uint8_t *bytes) {
  uint64_t number = 0;
  for (size_t at = 0; at < 8; at++) number = number << 8 | bytes[at];
  return number;
}

/* Whether the list is one of options, whatever they are. */
static bool is_list(raf_span list) {
  raf_certificate_option_parts option;
  uint32_t answer;
  memset(&option, 0, sizeof option);
  while ((answer = raf_next_certificate_option(list.bytes, list.length, option.next, &option)) ==
         RAF_DONE)
    ;
  return answer == RAF_END;
}

/* Makes the certificate that is read of one whose window begins there and whose options end there:
 * RAF_DONE, or why that is none. */
static uint32_t make_readable(raf_blob bytes, size_t window, size_t end, raf_blob *answer) {
  raf_fields fields;
  raf_blob made = {calloc(1, bytes.length + 1), window + WINDOW + NO_LISTS};
  memset(&fields, 0, sizeof fields);
  if (!made.bytes) return RAF_MEMORY;
  memcpy(made.bytes, bytes.bytes, window);
  memset(made.bytes + window + WINDOW / 2, 0xff, WINDOW / 2);
  memcpy(made.bytes + made.length, bytes.bytes + end, bytes.length - end);
  made.length += bytes.length - end;
  uint32_t status = raf_certificate_fields(made.bytes, made.length, &fields);
  if (status == RAF_DONE)
    *answer = made;
  else
    free(made.bytes);
  return status;
}

/* Finds the fields of one whose key has so many parts, if it is one (PROTOCOL.certkeys): RAF_DONE,
 * or why it is none. */
static uint32_t find_fields(unread_certificate *it, size_t parts, raf_blob *readable) {
  raf_part last = {0, 0};
  size_t place = 0, window, end;
  /* type, nonce and key; serial number and type; key id and principals; the window; critical
   * options; extensions; a reserved string, the authority and the signature */
  if (!skip(it->bytes, &place, 2 + parts, &last)) return RAF_FORMAT;
  place += SERIAL_AND_TYPE;
  if (!skip(it->bytes, &place, 2, &last)) return RAF_FORMAT;
  window = place;
  place += WINDOW;
  if (!skip(it->bytes, &place, 1, &it->critical_options)) return RAF_FORMAT;
  if (!skip(it->bytes, &place, 1, &it->extensions)) return RAF_FORMAT;
  end = place;
  if (!skip(it->bytes, &place, 3, &last) || place != it->bytes.length) return RAF_FORMAT;
  it->valid_after = number_at(it->bytes.bytes + window);
  it->valid_before = number_at(it->bytes.bytes + window + WINDOW / 2);
  if (!is_list(text_part(it->bytes.bytes, it->critical_options)) ||
      !is_list(text_part(it->bytes.bytes, it->extensions)))
    return RAF_FORMAT;
  return make_readable(it->bytes, window, end, readable);
}

uint32_t unread_read_line(const char *line, size_t length, unread_certificate *answer,
                          raf_blob *readable) {
  unread_certificate it;
  memset(&it, 0, sizeof it);
  it.bytes = word_of(line, length);
  uint32_t status = it.bytes.bytes ? RAF_FORMAT : RAF_MEMORY;
  for (size_t parts = 1; parts <= MOST_PARTS && status != RAF_DONE && status != RAF_MEMORY; parts++)
    status = find_fields(&it, parts, readable);
  if (status == RAF_DONE)
    *answer = it;
  else
    free(it.bytes.bytes);
  return status == RAF_DONE || status == RAF_MEMORY ? status : (uint32_t)RAF_FORMAT;
}

raf_span unread_option(raf_span list, bool *is_twice) {
  raf_certificate_option_parts option;
  raf_span before = {list.bytes, 0};
  bool is_first = true;
  memset(&option, 0, sizeof option);
  while (raf_next_certificate_option(list.bytes, list.length, option.next, &option) == RAF_DONE) {
    raf_span name = text_part(list.bytes, option.name);
    size_t least = name.length < before.length ? name.length : before.length;
    int order = memcmp(before.bytes, name.bytes, least);
    *is_twice = !order && before.length == name.length;
    if (!is_first && (*is_twice || order > 0 || (!order && before.length > name.length)))
      return name;
    before = name;
    is_first = false;
  }
  return (raf_span){list.bytes, 0};
}
