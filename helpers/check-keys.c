/* The fingerprints that sshkey-check shows. */
#include <stdlib.h>
#include <string.h>

#include "certificate.h"
#include "check.h"

/* What stands in a line, of malloc but for the comment: a key, and the certificate that has it. */
typedef struct {
  raf_blob key, certificate;
  raf_span comment;
  uint8_t *buffer; /* in which the comment may lie */
} shown_key;

static bool is_blank(uint8_t byte) {
  return byte == ' ' || byte == '\t';
}

/* The word in front of the text, which it takes away. */
static raf_span take_word(raf_span *text) {
  while (text->length && is_blank(*text->bytes)) text->bytes++, text->length--;
  raf_span word = {text->bytes, 0};
  while (text->length && !is_blank(*text->bytes)) text->bytes++, text->length--, word.length++;
  return word;
}

/* Reads a line that begins with a key or a certificate, whatever bytes the comment has. */
static uint32_t read_plain(raf_span line, shown_key *answer) {
  raf_span type = take_word(&line), base64 = take_word(&line);
  char *words = malloc(type.length + 1 + base64.length + 1);
  raf_blob shown = {NULL, 0};
  bool is_certificate;
  if (!words) return RAF_MEMORY;
  memcpy(words, type.bytes, type.length);
  words[type.length] = ' ';
  memcpy(words + type.length + 1, base64.bytes, base64.length);
  uint32_t status =
      check_read_shown(words, type.length + 1 + base64.length, &shown, &is_certificate);
  free(words);
  *(is_certificate ? &answer->certificate : &answer->key) = shown;
  if (status == RAF_DONE && is_certificate) status = certificate_read_key(shown, &answer->key);
  while (line.length && is_blank(*line.bytes)) line.bytes++, line.length--;
  answer->comment = line;
  return status;
}

/* Reads a line of authorized_keys or of known_hosts; what stands before its key is the comment
 * where it has no other. */
static uint32_t read_entry(raf_span line, shown_key *answer) {
  raf_entry entry;
  memset(&entry, 0, sizeof entry);
  answer->buffer = calloc(1, line.length + 1);
  if (!answer->buffer) return RAF_MEMORY;
  uint32_t status =
      raf_authorized_entry(line.bytes, line.length, answer->buffer, line.length, &entry);
  if (status != RAF_DONE && status != RAF_MEMORY)
    status = raf_known_host(line.bytes, line.length, answer->buffer, line.length, &entry);
  if (status != RAF_DONE) return status;
  answer->key.bytes = malloc(entry.key.length);
  if (!answer->key.bytes) return RAF_MEMORY;
  answer->key.length = entry.key.length;
  memcpy(answer->key.bytes, answer->buffer + entry.key.start, entry.key.length);
  raf_part comment = entry.comment.length ? entry.comment : entry.front;
  answer->comment = (raf_span){answer->buffer + comment.start, comment.length};
  return status;
}

uint32_t check_fingerprint(const char *line, size_t length, size_t number, void *given) {
  check_request *asked = given;
  raf_span text = {(const uint8_t *)line, length};
  report of = check_report(asked, number);
  shown_key found;
  memset(&found, 0, sizeof found);
  uint32_t answer = read_plain(text, &found), other = answer;
  if (answer != RAF_DONE && answer != RAF_MEMORY) other = read_entry(text, &found);
  if (other == RAF_DONE || other == RAF_MEMORY) answer = other;
  else if (raf_is_later_key_line(text.bytes, text.length) == RAF_DONE)
    answer = RAF_LATER_KEY;
  of.certificate = found.certificate;
  if (answer == RAF_DONE) answer = report_key(&of, raf_blob_span(found.key), found.comment);
  asked->count++;
  if (answer != RAF_DONE && !check_can_not_tell(answer)) {
    asked->is_valid = false;
    report_refused(&of, answer);
    answer = RAF_DONE;
  }
  free(found.key.bytes);
  free(found.certificate.bytes);
  free(found.buffer);
  return answer;
}
