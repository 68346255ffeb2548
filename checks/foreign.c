/* Asks the library that include/rafendilo.h declares, for checks/foreign: a line of the input is a
 * question, and has a line of the answer. It answers those of asked/answers.py that the header has
 * calls for, and these. SPAN.. are 14 words of bytes, or of several byte strings with commas
 * between, and NUMBER.. 10 numbers, as asked/calls.h passes them to the call of that name. A call
 * that takes a ticket gets that of its questions, if its word has no bytes:
 *
 *     call CALL SPAN.. NUMBER..           the number that it answers
 *     rooms CALL SPAN.. NUMBER..          how many rooms, from none on, are too short and stay as
 *                                         they were, what the next one is answered, and how many
 *                                         bytes each is told to take
 *     ticket CALL SPAN.. NUMBER..         the ticket that the call of that name is given
 *     memory CALL SPAN.. NUMBER.. ROOM | authority LINE            asked/memory_calls.h
 *     string-places BYTES | option-places BYTES
 *                                         what is found from each place, and after the end
 *     names                               version and ABI of the header and of the library, and
 *                                         numbers of answers with their names
 *     meanings                            the words of reading.h for each of these numbers
 * */
#include <inttypes.h>
#include <stdio.h>
#include <stdlib.h>
#include <string.h>

#include "reading.h"
#include "rafendilo.h"
#include "sshsig.h"
#include "verdict.h"
#include "verify.h"

/* of words in a line */
#define MOST 32
#define FILLED 0xa5

static raf_blob made(size_t length) {
  raf_blob it = {malloc(length ? length : 1), length};
  if (!it.bytes) exit(3);
  memset(it.bytes, FILLED, length ? length : 1);
  return it;
}

static unsigned digit(char letter) {
  return (unsigned)(letter <= '9' ? letter - '0' : letter - 'a' + 10);
}

/* The bytes of a word, or of its part before a comma; `-`, `none` and `?` have no bytes. */
static raf_blob bytes_of(const char *word) {
  size_t digits = strcspn(word, ",");
  raf_blob it = made(strchr("-n?", *word) ? 0 : digits / 2);
  for (size_t at = 0; at < it.length; at++)
    it.bytes[at] = (uint8_t)(digit(word[2 * at]) << 4 | digit(word[2 * at + 1]));
  return it;
}

/* A sum of the bytes (FNV-1a). */
static uint32_t sum_of(const uint8_t *bytes, size_t length) {
  uint32_t sum = 0x811c9dc5;
  for (size_t at = 0; at < length; at++) sum = (sum ^ bytes[at]) * 0x01000193;
  return sum;
}

/* Whether each byte is that one. */
static bool is_each(const void *bytes, size_t length, uint8_t one) {
  const uint8_t *byte = bytes;
  for (size_t at = 0; at < length; at++)
    if (byte[at] != one) return false;
  return true;
}

/* Whether no byte of what a call may write is another than 0. */
static bool is_zero(const void *bytes, size_t length) { return is_each(bytes, length, 0); }

/* Whether it stayed as it was before the call. */
static bool is_kept(const void *bytes, size_t length) { return is_each(bytes, length, FILLED); }

static bool is_filled(raf_blob room, size_t from) {
  return is_kept(room.bytes + from, from < room.length ? room.length - from : 0);
}

#include "asked/calls.h"
#include "asked/memory_calls.h"

/* ---- what is given */

/* The byte strings of a word: `none` has none of them. */
static given_spans several_of(const char *word) {
  size_t count = *word != 'n';
  for (const char *at = word; *at; at++) count += *at == ',';
  given_spans it = {calloc(count + 1, sizeof(raf_span)), count};
  if (!it.items) exit(3);
  for (size_t at = 0; at < count; at++, word += strcspn(word, ",") + 1)
    it.items[at] = raf_blob_span(bytes_of(word));
  return it;
}

/* The same as texts: `?` is one that could not be read, with the number that says so after it, or
 * 0. */
static given_texts texts_of(const char *word, given_spans of) {
  given_texts it = {calloc(of.count + 1, sizeof(raf_text)), of.count};
  if (!it.items) exit(3);
  for (size_t at = 0; at < of.count; at++, word += strcspn(word, ",") + 1)
    it.items[at] = (raf_text){
        of.items[at], *word == '?' ? (uint32_t)strtoul(word + 1, NULL, 10) : 1};
  return it;
}

static given_call given_by(char **words, int spans) {
  given_call it;
  memset(&it, 0, sizeof it);
  for (int at = 0; at < SPANS; at++) {
    const char *word = at < spans ? words[at] : "-";
    it.spans[at] = bytes_of(word);
    it.several[at] = several_of(word);
    it.texts[at] = texts_of(word, it.several[at]);
  }
  for (int at = 0; at < NUMBERS; at++) it.numbers[at] = strtoull(words[spans + at], NULL, 10);
  return it;
}

static void let_go(given_call *it) {
  for (int at = 0; at < SPANS; at++) {
    free(it->spans[at].bytes);
    for (size_t of = 0; of < it->several[at].count; of++)
      free((void *)it->several[at].items[of].bytes);
    free(it->several[at].items);
    free(it->texts[at].items);
  }
  free(it->room.bytes);
}

/* ---- what is said */

static void say_word(const uint8_t *bytes, size_t length) {
  if (!length) putchar('-');
  for (size_t at = 0; at < length; at++) printf("%02x", bytes[at]);
}

static void say_part(const char *front, raf_blob of, raf_part part) {
  printf("%s", front);
  if (part.start > of.length || part.length > of.length - part.start)
    printf("outside");
  else
    say_word(of.bytes + part.start, part.length);
}

static bool is_done(uint32_t answer) {
  printf("%" PRIu32, answer);
  return answer == RAF_DONE;
}

/* Makes the call of that name in a room that is long enough. Nothing may be written after the
 * length that it tells, if it tells one. */
static uint32_t ask(given_call *it, const char *name, const size_t *length) {
  size_t enough = 4608;
  for (int at = 0; at < SPANS; at++) enough += 2 * it->spans[at].length;
  free(it->room.bytes);
  it->room = made(enough);
  it->name = name;
  uint32_t answer = called(it, FILLED);
  if (length && answer == RAF_DONE && !is_filled(it->room, *length)) printf("more is written ");
  return answer;
}

static void ask_question(given_call *it, const char *name) {
  if (!is_done(ask(it, name, &it->question.length))) return;
  printf(" %" PRIu32, it->question.algorithm);
  say_part(" ", it->room, it->question.key);
  say_part(" ", it->room, it->question.message);
  say_part(" ", it->room, it->question.signature);
  if (strncmp(name, "sshsig", 6)) return;
  putchar(' ');
  say_word(it->sha256.bytes, sizeof it->sha256.bytes);
}

static void ask_is_signature(given_call *it, const char *name) {
  if (is_done(ask(it, name, &it->question.length)))
    printf(" %d", raf_is_signature(&it->question, it->room.bytes));
}

static void ask_written(given_call *it, const char *name) {
  if (is_done(ask(it, name, &it->length))) say_part(" ", it->room, (raf_part){0, it->length});
}

static void ask_fields(given_call *it, const char *name) {
  if (!is_done(ask(it, name, NULL))) return;
  const raf_fields *of = &it->fields;
  printf(" %" PRIu64 " %" PRIu64 " %" PRIu64, of->serial, of->valid_after, of->valid_before);
  printf(" %" PRIu32 " %" PRIu32 " %" PRIu32, of->certificate_type, of->lists_principals,
         of->has_critical_options);
}

static void ask_line(given_call *it, const char *name) {
  if (!is_done(ask(it, name, &it->line.length))) return;
  printf(" %" PRIu32, it->line.kind - RAF_LINE_KEY);
  say_part(" ", it->room, it->line.blob);
  say_part(" ", it->room, it->line.comment);
}

static void ask_entry(given_call *it, const char *name) {
  if (!is_done(ask(it, name, &it->entry.length))) return;
  printf(" %" PRIu32, it->entry.marker);
  say_part(" ", it->room, it->entry.front);
  say_part(" ", it->room, it->entry.key);
  say_part(" ", it->room, it->entry.comment);
}

static void ask_options(given_call *it, const char *name) {
  uint32_t answer = ask(it, name, &it->entry_option.length);
  for (; answer == RAF_DONE; answer = ask(it, name, &it->entry_option.length))
    it->numbers[0] = it->entry_option.next;
  it->numbers[0] = 0;
  if (!is_done(answer == RAF_END ? RAF_DONE : answer)) return;
  while (ask(it, name, &it->entry_option.length) == RAF_DONE) {
    say_part(" ", it->room, it->entry_option.name);
    if (it->entry_option.has_value) say_part("=", it->room, it->entry_option.value);
    it->numbers[0] = it->entry_option.next;
  }
}

static void ask_counted(given_call *it, const char *name) {
  if (is_done(ask(it, name, NULL))) printf(" %zu", it->length);
}

static void ask_time(given_call *it, const char *name) {
  if (is_done(ask(it, name, NULL))) printf(" %" PRIu64 " %" PRIu64, it->time.first, it->time.last);
}

static void ask_host_and_port(given_call *it, const char *name) {
  if (!is_done(ask(it, name, NULL))) return;
  say_part(" ", it->spans[0], it->destination.host);
  printf(" %d", it->destination.port);
}

static void ask_addresses(given_call *it, const char *name) {
  printf("%" PRIu32 " ", ask(it, name, NULL));
  printf("%" PRIu32, ask(it, "check_from", NULL));
}

static void ask_number(given_call *it, const char *name) {
  printf("%" PRIu32, ask(it, name, NULL));
}

static void ask_digest(given_call *it, const char *name) {
  if (!is_done(ask(it, name, NULL))) return;
  putchar(' ');
  say_word(it->sha256.bytes, sizeof it->sha256.bytes);
}

static void ask_key(given_call *it, const char *name) {
  uint8_t text[RAF_FINGERPRINT_TEXT], longer[RAF_FINGERPRINT_SHA512_TEXT];
  if (!is_done(ask(it, name, NULL))) return;
  raf_sha256 digest = it->sha256;
  uint32_t others = raf_fingerprint_text(&digest, text, sizeof text);
  others |= ask(it, "fingerprint_sha512", NULL);
  others |= raf_fingerprint_sha512_text(&it->sha512, longer, sizeof longer);
  if (others != RAF_DONE) printf(" and another call not");
  putchar(' ');
  say_word(digest.bytes, sizeof digest.bytes);
  printf(" %.*s ", (int)sizeof text, (const char *)text);
  say_word(it->sha512.bytes, sizeof it->sha512.bytes);
  printf(" %.*s", (int)sizeof longer, (const char *)longer);
}

/* ---- what is listed */

static void say_principals(raf_blob list) {
  raf_part part = {0, 0};
  uint32_t answer;
  while ((answer = raf_next_string(list.bytes, list.length, part.start + part.length, &part))
         == RAF_DONE)
    say_part(" principal=", list, part);
  if (answer != RAF_END) printf(" no string");
}

static void say_options(const char *front, raf_blob list) {
  raf_certificate_option_parts it = {{0, 0}, {0, 0}, 0};
  uint32_t answer;
  while ((answer = raf_next_certificate_option(list.bytes, list.length, it.next, &it)) ==
         RAF_DONE) {
    say_part(front, list, it.name);
    say_part("=", list, it.value);
  }
  if (answer != RAF_END) printf(" no option");
}

static raf_blob list_of(raf_blob certificate, raf_part part) {
  return (raf_blob){certificate.bytes + part.start, part.length};
}

static void ask_lists(given_call *it, const char *name) {
  raf_blob certificate = it->spans[0];
  raf_parts parts;
  uint32_t of_key = ask(it, name, &it->length);
  uint32_t answer = raf_certificate_parts(certificate.bytes, certificate.length, &parts);
  if (of_key != answer) printf("the key is answered %" PRIu32 " ", of_key);
  if (!is_done(answer)) return;
  say_part(" ", certificate, parts.key_id);
  say_part(" ", it->room, (raf_part){0, it->length});
  say_part(" ", certificate, parts.authority);
  say_principals(list_of(certificate, parts.principals));
  say_options(" critical=", list_of(certificate, parts.critical_options));
  say_options(" extension=", list_of(certificate, parts.extensions));
}

static void ask_lines(given_call *it, const char *name) {
  raf_blob text = it->spans[0];
  size_t place = 0;
  (void)name;
  putchar('0');
  for (raf_part part; raf_next_line(text.bytes, text.length, place, &part) == RAF_DONE;
       place = part.start + part.length)
    say_part(" ", text, part);
  size_t ends[] = {place, text.length, text.length + 1, SIZE_MAX};
  for (size_t at = 0; at < sizeof ends / sizeof *ends; at++) {
    raf_part part;
    if (raf_next_line(text.bytes, text.length, ends[at], &part) != RAF_END)
      printf(" no end at %zu", ends[at]);
  }
}

static void ask_places(given_call *it, const char *name) {
  size_t length = it->spans[0].length;
  size_t after[] = {length + 1, length + 4, SIZE_MAX - 4, SIZE_MAX};
  for (size_t at = 0; at <= length + 4; at++) {
    it->numbers[0] = at <= length ? at : after[at - length - 1];
    if (at) putchar(' ');
    if (!is_done(ask(it, name, NULL))) continue;
    const raf_certificate_option_parts *of = &it->certificate_option;
    if (!strcmp(name, "next_string"))
      printf(":%zu:%zu", it->part.start, it->part.length);
    else
      printf(":%zu:%zu:%zu:%zu:%zu", of->name.start, of->name.length, of->value.start,
             of->value.length, of->next);
  }
}

#include "asked/helper_calls.h"
#include "asked/login_calls.h"

/* ---- questions about any call */

/* How many bytes of the room a call tells that it takes: one of these is not 0. */
static size_t told(const given_call *it) {
  return it->length + it->question.length + it->line.length + it->entry.length
         + it->entry_option.length + it->questions.length + it->grant.length;
}

static void ask_rooms(given_call *it) {
  size_t length = 0, needed = 0;
  uint32_t answer = RAF_SHORT_BUFFER;
  for (bool is_kept = true; is_kept; length += is_kept) {
    free(it->room.bytes);
    it->room = made(length);
    answer = called(it, 0);
    is_kept = answer == RAF_SHORT_BUFFER && is_filled(it->room, 0) &&
              (!length || told(it) == needed);
    needed = told(it);
    it->grant.length = 0;
    if (answer == RAF_SHORT_BUFFER && !is_zero(&it->grant, sizeof it->grant))
      printf("and a grant ");
  }
  printf("%" PRIu32 " %zu %zu", answer, length, needed);
}

/* ---- which question it is */

/* By a question's word: who answers it, by which call, and how many of its words are bytes, after
 * which numbers follow. */
static const struct {
  const char *what;
  void (*answer)(given_call *it, const char *name);
  const char *name;
  int spans;
} questions[] = {
    {"certificate", ask_question, "certificate_question", 1},
    {"signature", ask_question, "signature_question", 3},
    {"sshsig", ask_question, "sshsig_question", 3},
    {"sshsig-of-digest", ask_question, "sshsig_question_of_digest", 3},
    {"is-signature", ask_is_signature, "signature_question", 3},
    {"fields", ask_fields, "certificate_fields", 1},
    {"lists", ask_lists, "certificate_key", 1},
    {"key", ask_key, "fingerprint", 1},
    {"line", ask_line, "read_line", 1},
    {"draft", ask_written, "certificate_to_be_signed", 7},
    {"join", ask_written, "certificate_make", 2},
    {"lines", ask_lines, "next_line", 1},
    {"entry", ask_entry, "authorized_entry", 1},
    {"host", ask_entry, "known_host", 1},
    {"options", ask_options, "next_line_option", 1},
    {"host-key", ask_host_key, "check_host_key", 4},
    {"host-certificate", ask_host_certificate, "check_host_certificate", 4},
    {"unreadable-line", ask_counted, "unreadable_host_line", 2},
    {"other-key-line", ask_number, "is_later_key_line", 1},
    {"later-kind", ask_number, "names_later_kind", 1},
    {"line-authority", ask_digest, "authority", 1},
    {"user-authority", ask_digest, "user_authority", 2},
    {"for-key", ask_number, "line_may_name_key", 2},
    {"for-certificate", ask_number, "line_may_name_authority", 2},
    {"may-verify", ask_number, "may_verify", 1},
    {"safe-mode", ask_number, "check_safe_mode", 0},
    {"addresses", ask_addresses, "check_source_address", 3},
    {"time", ask_time, "read_time", 1},
    {"host-and-port", ask_host_and_port, "host_and_port", 1},
    {"armour", ask_written, "read_armour", 1},
    {"random-art", ask_written, "random_art", 2},
    {"signer", ask_number, "check_signer", 5},
    {"unrevoked-key-by-krl", ask_number, "check_unrevoked_key_by_krl", 2},
    {"unrevoked-certificate-by-krl", ask_number, "check_unrevoked_certificate_by_krl", 2},
    {"unrevoked-key", ask_number, "check_unrevoked_key", 2},
    {"unrevoked-certificate", ask_number, "check_unrevoked_certificate", 2},
    {"string-places", ask_places, "next_string", 1},
    {"option-places", ask_places, "next_certificate_option", 1},
};

/* Answers a question whose first word after the question's is a call, or the kind of one. */
static void answer_of_call(char **words) {
  given_call it = given_by(words + 2, SPANS);
  char name[32];
  add_ticket(&it, words[1]);
  add_places(&it, words[1]);
  it.name = words[1];
  if (!strcmp(words[0], "call")) {
    printf("%" PRIu32, ask(&it, words[1], NULL));
  } else if (!strcmp(words[0], "ticket")) {
    say_word(it.spans[TICKET].bytes, it.spans[TICKET].length);
  } else if (!strcmp(words[0], "rooms")) {
    ask_rooms(&it);
  } else if (!strcmp(words[0], "memory")) {
    ask_memory(&it, words[2 + SPANS + NUMBERS]);
  } else if (!strcmp(words[0], "normal")) {
    snprintf(name, sizeof name, "%s_normal", words[1]);
    ask_written(&it, name);
  }
  let_go(&it);
}

static void answer(char **words) {
  if (has_answered_helper(words) || has_answered_login(words)) return;
  for (size_t at = 0; at < sizeof questions / sizeof *questions; at++) {
    if (strcmp(words[0], questions[at].what)) continue;
    given_call it = given_by(words + 1, questions[at].spans);
    questions[at].answer(&it, questions[at].name);
    let_go(&it);
    return;
  }
  answer_of_call(words);
}

int main(void) {
  static char none[] = "-";
  char *line = NULL, *words[MOST];
  size_t room = 0;
  while (getline(&line, &room, stdin) >= 0) {
    size_t count = 0;
    for (char *word = strtok(line, " \n"); word && count < MOST; word = strtok(NULL, " \n"))
      words[count++] = word;
    for (size_t at = count; at < MOST; at++) words[at] = none;
    answer(words);
    putchar('\n');
  }
  free(line);
  return 0;
}
