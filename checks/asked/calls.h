/* Each call of rafendilo.h by its name, with what it is given and what it writes, for
 * checks/foreign.c. All memory that a call gets is as long as is said, of malloc. */
#ifndef CALLS_H
#define CALLS_H

#define SPANS 14
#define NUMBERS 10
/* of a login: the ticket among the spans, and the answers among the numbers */
enum { TICKET = 13, ANSWERS = 9 };
/* of a host by a held text: that text, and the places of its lines */
enum { HELD = 4, PLACES = 5 };

/* Byte strings, each in memory of its own. */
typedef struct {
  raf_span *items;
  size_t count;
} given_spans;

/* Texts, of which each may be one that could not be read. */
typedef struct {
  raf_text *items;
  size_t count;
} given_texts;

/* What a call is given, each span also as the several and as the texts that its word may tell, and,
 * from `length` on, what it writes. */
typedef struct {
  const char *name;
  raf_blob spans[SPANS];
  given_spans several[SPANS];
  given_texts texts[SPANS];
  uint64_t numbers[NUMBERS];
  raf_blob room;
  size_t length;
  raf_part part;
  raf_sha256 sha256;
  raf_sha512 sha512;
  raf_question question;
  raf_line line;
  raf_fields fields;
  raf_parts parts;
  raf_certificate_option_parts certificate_option;
  raf_entry entry;
  raf_line_option_parts entry_option;
  raf_login_questions questions;
  raf_grant grant;
  raf_time_span time;
  raf_destination destination;
  uint32_t known_by;
} given_call;

/* The structs that calls are given. */
typedef struct {
  raf_draft draft;
  raf_login login;
  raf_host_login host;
  raf_grant grant;
  const raf_sha256 *ticket;
} given_structs;

#define BYTES(at) it->spans[at].bytes, it->spans[at].length
#define ROOM it->room.bytes, it->room.length
#define DRAWN(at) {it->spans[at].bytes, it->spans[at].length}
#define SEVERAL(at) it->several[at].items, it->several[at].count
#define TEXTS(at) {it->texts[at].items, it->texts[at].count}
#define PORT (uint16_t)it->numbers[0]
#define HELD_LINES                                                                               \
  BYTES(HELD), (const raf_line_place *)it->spans[PLACES].bytes,                                  \
      it->spans[PLACES].length / sizeof(raf_line_place)
#define BY (const raf_sha256 *)it->spans[2].bytes, it->spans[2].length / sizeof(raf_sha256)
#define CALLS                                                                                    \
  CALL(version, )                                                                                \
  CALL(abi, )                                                                                    \
  CALL(certificate_question, BYTES(0), ROOM, &it->question)                                      \
  CALL(check_certificate, BYTES(0), it->numbers[0], BY, (uint32_t)it->numbers[1])                \
  CALL(check_certificate_for, BYTES(0), it->numbers[0], BYTES(1), BY,                            \
       (uint32_t)it->numbers[1])                                                                 \
  CALL(certificate_fields, BYTES(0), &it->fields)                                                \
  CALL(certificate_parts, BYTES(0), &it->parts)                                                  \
  CALL(next_certificate_option, BYTES(0), it->numbers[0], &it->certificate_option)               \
  CALL(certificate_key, BYTES(0), ROOM, &it->length)                                             \
  CALL(certificate_to_be_signed, &given->draft, ROOM, &it->length)                               \
  CALL(certificate_make, BYTES(0), BYTES(1), ROOM, &it->length)                                  \
  CALL(read_line, BYTES(0), ROOM, &it->line)                                                     \
  CALL(fingerprint, BYTES(0), &it->sha256)                                                       \
  CALL(fingerprint_text, (const raf_sha256 *)it->spans[0].bytes, ROOM)                           \
  CALL(fingerprint_sha512, BYTES(0), &it->sha512)                                                \
  CALL(fingerprint_sha512_text, (const raf_sha512 *)it->spans[0].bytes, ROOM)                    \
  CALL(signature_question, BYTES(0), BYTES(1), BYTES(2), ROOM, &it->question)                    \
  CALL(sshsig_question, BYTES(0), BYTES(1), BYTES(2), ROOM, &it->question, &it->sha256)          \
  CALL(sshsig_question_of_digest, BYTES(0), BYTES(1), BYTES(2), ROOM, &it->question,             \
       &it->sha256)                                                                              \
  CALL(check_sshsig, BYTES(0), BYTES(1), BY, (uint32_t)it->numbers[0])                           \
  CALL(check_signer, BYTES(0), BYTES(1), BYTES(2), BYTES(3), it->numbers[0], SEVERAL(4),         \
       (uint32_t)it->numbers[1])                                                                 \
  CALL(key_normal, BYTES(0), ROOM, &it->length)                                                  \
  CALL(certificate_normal, BYTES(0), ROOM, &it->length)                                          \
  CALL(sshsig_normal, BYTES(0), ROOM, &it->length)                                               \
  CALL(signature_normal, BYTES(0), ROOM, &it->length)                                            \
  CALL(next_string, BYTES(0), it->numbers[0], &it->part)                                         \
  CALL(check_unrevoked_key_by_krl, BYTES(0), BYTES(1))                                           \
  CALL(check_unrevoked_certificate_by_krl, BYTES(0), BYTES(1))                                   \
  CALL(check_unrevoked_key, SEVERAL(0), BYTES(1))                                                \
  CALL(check_unrevoked_certificate, SEVERAL(0), BYTES(1))                                        \
  CALL(next_line, BYTES(0), it->numbers[0], &it->part)                                           \
  CALL(authorized_entry, BYTES(0), ROOM, &it->entry)                                             \
  CALL(known_host, BYTES(0), ROOM, &it->entry)                                                   \
  CALL(next_line_option, BYTES(0), it->numbers[0], ROOM, &it->entry_option)                      \
  CALL(log_in_questions, &given->login, ROOM, &it->questions)                                    \
  CALL(log_in, &given->login, given->ticket, (uint32_t)it->numbers[ANSWERS], ROOM, &it->grant)   \
  CALL(may_offer_questions, &given->login, ROOM, &it->questions)                                 \
  CALL(may_offer, &given->login, given->ticket, (uint32_t)it->numbers[ANSWERS])                  \
  CALL(may_open, &given->grant, BYTES(0), BYTES(1), (uint32_t)it->numbers[0])                    \
  CALL(may_listen, &given->grant, BYTES(0), BYTES(1), (uint32_t)it->numbers[0])                  \
  CALL(runs, &given->grant, BYTES(0), BYTES(1), (uint32_t)it->numbers[0], ROOM, &it->length)     \
  CALL(check_host_key, &given->host, BYTES(2))                                                   \
  CALL(check_host_certificate, &given->host, BYTES(2), (uint32_t)it->numbers[3], &it->known_by)  \
  CALL(place_hosts, BYTES(0), (raf_line_place *)it->room.bytes,                                  \
       it->room.length / sizeof(raf_line_place), &it->length)                                    \
  CALL(check_held_host_key, &given->host, HELD_LINES, BYTES(2))                                  \
  CALL(check_held_host_certificate, &given->host, HELD_LINES, BYTES(2),                          \
       (uint32_t)it->numbers[3], &it->known_by)                                                  \
  CALL(unreadable_host_line, BYTES(0), BYTES(1), PORT, &it->length)                              \
  CALL(is_later_key_line, BYTES(0))                                                              \
  CALL(names_later_kind, BYTES(0))                                                               \
  CALL(authority, BYTES(0), &it->sha256)                                                         \
  CALL(user_authority, BYTES(0), BYTES(1), &it->sha256)                                          \
  CALL(line_may_name_key, BYTES(0), BYTES(1))                                                    \
  CALL(line_may_name_authority, BYTES(0), BYTES(1))                                              \
  CALL(may_verify, BYTES(0))                                                                     \
  CALL(check_safe_mode, it->numbers[0], it->numbers[1], (uint32_t)it->numbers[2])                \
  CALL(check_source_address, BYTES(0), BYTES(1))                                                 \
  CALL(check_from, BYTES(0), BYTES(2), BYTES(1))                                                 \
  CALL(read_time, BYTES(0), &it->time)                                                           \
  CALL(host_and_port, BYTES(0), &it->destination)                                                \
  CALL(read_armour, BYTES(0), ROOM, &it->length)                                                 \
  CALL(random_art, (const raf_sha256 *)it->spans[0].bytes, BYTES(1), ROOM, &it->length)

static uint32_t call_by_name(given_call *it, const given_structs *given) {
#define CALL(call, ...)                                                                          \
  if (!strcmp(it->name, #call)) return raf_##call(__VA_ARGS__);
  CALLS
#undef CALL
  return UINT32_MAX;
}

/* A login of these words, in the order of the structs: first all bytes, then all numbers. */
static raf_login login_of(const given_call *it) {
  const uint64_t *numbers = it->numbers;
  const raf_blob *by = &it->spans[7];
  return (raf_login){
      {DRAWN(0), DRAWN(1), DRAWN(2)},
      {DRAWN(3), DRAWN(4), DRAWN(5), (uint32_t)numbers[0], (uint32_t)numbers[1],
       (uint8_t)numbers[2]},
      {TEXTS(6), {(const raf_sha256 *)by->bytes, by->length / sizeof(raf_sha256)}, TEXTS(8),
       TEXTS(9), {SEVERAL(10)}, (uint32_t)numbers[3], (uint32_t)numbers[4],
       (uint32_t)numbers[5], (uint32_t)numbers[6]},
      {DRAWN(11), DRAWN(12), numbers[7], (uint32_t)numbers[8]}};
}

/* Makes the call; what it writes to is filled beforehand, the room with FILLED. */
static uint32_t called(given_call *it, int filling) {
  const uint64_t *numbers = it->numbers;
  given_structs given = {
      {DRAWN(0), DRAWN(1), DRAWN(2), DRAWN(3), DRAWN(4), DRAWN(5), DRAWN(6), numbers[0],
       numbers[1], numbers[2], (uint32_t)numbers[3], (uint32_t)numbers[4]},
      login_of(it),
      {{SEVERAL(0)}, DRAWN(1), {SEVERAL(3)}, numbers[2], (uint32_t)numbers[1], PORT},
      {.force_command = {numbers[2], it->spans[0].length}, .permit_open = {0, it->spans[0].length},
       .permit_listen = {0, it->spans[0].length}, .permits = (uint32_t)numbers[1]},
      (const raf_sha256 *)it->spans[TICKET].bytes};
  size_t from = offsetof(given_call, length);
  memset((char *)it + from, filling, sizeof *it - from);
  if (it->room.length) memset(it->room.bytes, FILLED, it->room.length);
  return call_by_name(it, &given);
}

#undef BYTES
#undef ROOM
#undef DRAWN
#undef SEVERAL
#undef TEXTS
#undef PORT
#undef BY
#undef CALLS

#endif
