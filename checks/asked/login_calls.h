/* Asks who logs in by public key, for checks/foreign.c: the questions, the verifier and the verdict. */
#ifndef LOGIN_CALLS_H
#define LOGIN_CALLS_H

/* Where the words of `log-in` stand among spans and, after these, numbers. */
static const int login_places[] = {
    0, 1, 2, 3, 4, 5, SPANS, SPANS + 1, SPANS + 2, 6, 7, 8, 9, 10, SPANS + 3, SPANS + 4, SPANS + 5,
    SPANS + 6, 11, 12, SPANS + 7, SPANS + 8};
/* the words of `may-offer` lack those between */
enum { SIGNED_FROM = 3, SIGNED_TO = 9, LOGIN_WORDS = sizeof login_places / sizeof *login_places };

static given_call given_login(char **words, bool is_signed) {
  static char none[] = "-";
  char *ordered[SPANS + NUMBERS];
  for (int at = 0; at < SPANS + NUMBERS; at++) ordered[at] = none;
  for (int at = 0; at < LOGIN_WORDS; at++) {
    bool is_left_out = !is_signed && SIGNED_FROM <= at && at < SIGNED_TO;
    if (!is_left_out) ordered[login_places[at]] = *words++;
  }
  return given_by(ordered, SPANS);
}

/* Has the call be given that ticket. */
static void give_ticket(given_call *it, raf_sha256 ticket) {
  free(it->spans[TICKET].bytes);
  it->spans[TICKET] = made(sizeof ticket);
  memcpy(it->spans[TICKET].bytes, &ticket, sizeof ticket);
}

/* Has a call that takes a ticket be given that of its questions, if it is given none: of zeros where
 * they are refused. */
static void add_ticket(given_call *it, const char *name) {
  raf_sha256 none = {{0}};
  if (it->spans[TICKET].length || (strcmp(name, "log_in") && strcmp(name, "may_offer"))) return;
  const char *asks = strcmp(name, "log_in") ? "may_offer_questions" : "log_in_questions";
  give_ticket(it, ask(it, asks, NULL) == RAF_DONE ? it->questions.ticket : none);
}

static void say_question(const given_call *it, const raf_question *of) {
  printf(" %" PRIu32, of->algorithm);
  say_part(" ", it->room, of->key);
  say_part(" ", it->room, of->message);
  say_part(" ", it->room, of->signature);
}

/* Asks for the questions, and verifies each until one is answered no; `is_told` says them and takes
 * yes for the answer. Then the call is given ticket and answers. */
static uint32_t ask_questions(given_call *it, const char *name, bool is_told) {
  uint32_t answer = ask(it, name, &it->questions.length);
  raf_login_questions asked = it->questions;
  const raf_question *both[] = {&asked.authority, &asked.client};
  raf_sha256 none = {{0}};
  bool is_yes = answer == RAF_DONE;
  verifications = it->numbers[ANSWERS] = 0;
  for (uint32_t at = 0; at < 2 && is_yes; at++) {
    if (!(asked.asked & (1u << at))) {
      if (!is_zero(both[at], sizeof *both[at])) printf("a question that is not asked ");
      continue;
    }
    if (is_told) say_question(it, both[at]);
    is_yes = is_told || raf_is_signature(both[at], it->room.bytes);
    if (is_yes) it->numbers[ANSWERS] |= 1u << at;
  }
  give_ticket(it, answer == RAF_DONE ? asked.ticket : none);
  if (answer != RAF_DONE && !(is_filled(it->room, 0) && is_kept(&asked, sizeof asked)))
    printf("and questions ");
  return answer;
}

/* The verdict once the questions are answered: what is refused without them is refused alike. */
static uint32_t decide_login(given_call *it, const char *asks, const char *name) {
  uint32_t asked = ask_questions(it, asks, false), answer = ask(it, name, NULL);
  if (asked != RAF_DONE && asked != answer) printf("%" PRIu32 " and then ", asked);
  return answer;
}

/* The helper's function of both calls says the same, after as many verifications. */
static void check_verified_login(const given_call *it, uint32_t answer) {
  raf_login login = login_of(it);
  raf_blob room = made(it->room.length);
  raf_grant grant;
  size_t asked = verifications;
  verifications = 0;
  uint32_t said = raf_verify_login(&login, room.bytes, room.length, &grant);
  if (said != answer || verifications != asked || memcmp(&grant, &it->grant, sizeof grant) ||
      memcmp(room.bytes, it->room.bytes, room.length))
    printf("%" PRIu32 " after %zu verifications, and else ", said, verifications);
  free(room.bytes);
}

static void ask_log_in(given_call *it, const char *name) {
  uint32_t answer = decide_login(it, "log_in_questions", name);
  raf_grant *of = &it->grant;
  check_verified_login(it, answer);
  printf("%" PRIu32 " %zu %" PRIu32 " %zu %zu", answer, verifications, of->source, of->text,
         of->line);
  if (answer != RAF_DONE) {
    of->source = 0;
    of->text = of->line = 0;
    if (!is_zero(of, sizeof *of) || !is_filled(it->room, 0)) printf(" and a grant");
    return;
  }
  if (!is_filled(it->room, of->length)) printf(" more is written");
  raf_part parts[] = {of->force_command, of->key_id, of->permit_open, of->permit_listen,
                      of->environment};
  for (size_t at = 0; at < sizeof parts / sizeof *parts; at++) say_part(" ", it->room, parts[at]);
  printf(" %" PRIu64 " %" PRIu64 " %" PRIu64 " ", of->serial, of->expires.first,
         of->expires.last);
  say_word(of->authority.bytes, sizeof of->authority.bytes);
  putchar(' ');
  say_word(of->key.bytes, sizeof of->key.bytes);
  printf(" %" PRIu32 " %" PRIu32, of->permits, of->tunnel);
}

/* Says also the questions, to which the answer is yes. */
static void ask_log_in_questions(given_call *it, const char *name) {
  uint32_t asked = ask(it, "log_in_questions", NULL);
  printf("%" PRIu32, asked);
  if (ask_questions(it, "log_in_questions", true) != RAF_DONE) return;
  uint32_t answer = ask(it, name, NULL);
  if (answer != asked) printf(" and then %" PRIu32, answer);
}

static void ask_may_offer(given_call *it, const char *name) {
  uint32_t answer = decide_login(it, "may_offer_questions", name);
  raf_login login = login_of(it);
  size_t asked = verifications;
  verifications = 0;
  if (raf_verify_offer(&login) != answer || verifications != asked) printf("otherwise ");
  printf("%" PRIu32 " %zu", answer, verifications);
}

/* Whether the grant lets ports be forwarded there. */
static void ask_forwards(given_call *it, raf_span host, uint32_t port) {
  if (!is_done(decide_login(it, "log_in_questions", "log_in"))) return;
  const uint8_t *room = it->room.bytes;
  size_t length = it->grant.length;
  uint32_t opened = raf_may_open(&it->grant, room, length, host.bytes, host.length, port);
  uint32_t listened = raf_may_listen(&it->grant, room, length, host.bytes, host.length, port);
  printf(" %d %d", opened == RAF_DONE, listened == RAF_DONE);
}

/* What runs by the grant: a command, or a shell. */
static void ask_runs(given_call *it, raf_span asked, uint32_t asks_command) {
  uint32_t answer = decide_login(it, "log_in_questions", "log_in");
  raf_blob room = made(it->grant.length + asked.length);
  size_t length = 0;
  if (answer == RAF_DONE)
    answer = raf_runs(&it->grant, it->room.bytes, it->grant.length, asked.bytes, asked.length,
                      asks_command, room.bytes, room.length, &length);
  if (is_done(answer)) say_part(" ", room, (raf_part){0, length});
  free(room.bytes);
}

/* Answers a question about a login; false where it is none. */
static bool has_answered_login(char **words) {
  const char *what = words[0];
  bool is_forwards = !strcmp(what, "forwards"), is_runs = !strcmp(what, "runs");
  bool is_offer = !strcmp(what, "may-offer"), is_asked = !strcmp(what, "log-in-questions");
  bool is_granted = is_forwards || is_runs;
  if (!is_granted && !is_offer && !is_asked && strcmp(what, "log-in")) return false;
  given_call it = given_login(words + (is_granted ? 3 : 1), !is_offer);
  raf_blob asked = bytes_of(is_granted ? words[1] : "-");
  uint32_t number = is_granted ? (uint32_t)strtoull(words[2], NULL, 10) : 0;
  if (is_forwards)
    ask_forwards(&it, raf_blob_span(asked), number);
  else if (is_runs)
    ask_runs(&it, raf_blob_span(asked), number);
  else if (is_offer)
    ask_may_offer(&it, "may_offer");
  else if (is_asked)
    ask_log_in_questions(&it, "log_in");
  else
    ask_log_in(&it, "log_in");
  free(asked.bytes);
  let_go(&it);
  return true;
}

#endif
