/* Shows certificates, and says whether certificates and SSH signatures are valid, and who may log
 * in. See sshkey-check(1). */
#include <arpa/inet.h>
#include <errno.h>
#include <stdlib.h>
#include <string.h>

#include "check.h"

const char program_name[] = "sshkey-check";
const int program_untold = UNTOLD;

/* ---- keys that count */

/* Whether the line begins with users, as those of sshkey-principals do. */
static bool has_users(const char *line, size_t length) {
  size_t name = 0;
  raf_sha256 found = {{0}};
  const uint8_t *bytes = (const uint8_t *)line;
  while (name < length && !strchr(" \t,", line[name])) name++;
  uint32_t answer = raf_user_authority(bytes, length, bytes, name, &found);
  return answer == RAF_DONE || answer == RAF_LATER_KEY;
}

/* A file of keys that is read. */
typedef struct {
  check_request *asked;
  const char *path;
  bool has_users; /* before the keys, as those of sshkey-principals */
  size_t without; /* the first line that has none; 0 for no line */
} key_file;

/* Adds the key of a line to those that count, or says that it has none, or a later one. */
static uint32_t read_key(const char *line, size_t length, size_t number, void *given) {
  key_file *of = given;
  raf_authorities *to = &of->asked->by;
  uint32_t answer = of->has_users ? raf_add_user_authority(to, line, length, of->asked->user)
                                  : raf_add_authority(to, line, length);
  if (answer == RAF_DONE || answer == RAF_MEMORY) return answer;
  /* another user's line */
  if (of->has_users && answer == RAF_END) {
    if (!of->without && program_has_no_users(line, length)) of->without = number;
    return RAF_DONE;
  }
  bool is_later = answer == RAF_LATER_KEY;
  if (!is_later) of->asked->is_untold = true;
  if (!is_later && !of->has_users && has_users(line, length))
    program_complain("%s:%zu: no key: the line begins with users, as for sshkey-principals",
                     of->path, number);
  else
    program_complain("%s:%zu: %s%s", of->path, number, is_later ? "" : "no key: ",
                     raf_status_meaning(answer));
  return RAF_DONE;
}

/* ---- what is asked */

/* Reads the file where one is named; false, with a word to standard error, where it can't. */
static bool read_named(const char *path, raf_blob *answer) {
  if (!path || raf_read_file(path, answer)) return true;
  program_complain("%s: %s", path, strerror(errno));
  return false;
}

/* Says that a file has no line, where it has none: nobody is let in by it. */
static void tell_empty(const char *path, raf_blob text) {
  raf_part line = {0, 0};
  if (raf_next_line(raf_bytes(text.bytes), text.length, 0, &line) == RAF_END)
    program_complain("%s: it has no line", path);
}

/* Whether it is a private key, which is said: its public one stands in another file. */
static bool is_private(const char *path, raf_blob text) {
  static const char front[] = "-----BEGIN ", end[] = " PRIVATE KEY-----";
  size_t length = 0, least = sizeof front - 1 + sizeof end - 1;
  while (length < text.length && !strchr("\r\n", text.bytes[length])) length++;
  if (length < least || memcmp(text.bytes, front, sizeof front - 1) ||
      memcmp(text.bytes + length - (sizeof end - 1), end, sizeof end - 1))
    return false;
  program_complain("%s: a private key (the public one is in %s.pub)", path, path);
  return true;
}

/* Reads the file of keys of an option where one is named, likewise, and where a line is none. */
static bool read_keys(check_option option, check_request *asked) {
  const char *path = asked->given[option];
  key_file of = {asked, path, option == CHECK_USER_AUTHORITIES, 0};
  raf_blob text = {NULL, 0};
  size_t number;
  if (!path) return true;
  if (!read_named(path, &text)) return false;
  tell_empty(path, text);
  asked->is_untold = is_private(path, text);
  uint32_t answer = asked->is_untold ? (uint32_t)RAF_DONE
                                     : program_each_line(text, read_key, &of, &number);
  if (answer != RAF_DONE) program_complain("%s:%zu: %s", path, number, raf_status_meaning(answer));
  bool is_nobodys = of.has_users && answer == RAF_DONE && !asked->is_untold && !asked->by.count;
  if (is_nobodys && of.without)
    program_complain(PROGRAM_NO_USERS, path, of.without);
  else if (is_nobodys)
    program_complain("%s: no line has a key for %s", path, asked->user);
  free(text.bytes);
  return answer == RAF_DONE && !asked->is_untold;
}

/* Reads files of which there may be several, likewise. */
static bool read_files(program_files *files, bool may_be_empty) {
  for (size_t at = 0; at < files->count; at++) {
    raf_blob text = {NULL, 0};
    if (!read_named(files->paths[at], &text)) return false;
    if (!may_be_empty) tell_empty(files->paths[at], text);
    files->texts[at] = raf_blob_span(text);
  }
  return true;
}

/* Reads texts of a login: of one that is not there no bytes, if it need not be there, and none of
 * one that can't be read, which is said; false where memory runs out. */
static bool read_texts(program_files *files, bool may_be_missing) {
  for (size_t at = 0; at < files->count; at++) {
    raf_blob text = {NULL, 0};
    const char *path = files->paths[at];
    errno = 0;
    if (raf_read_file(path, &text)) {
      tell_empty(path, text);
    } else {
      program_complain("%s: %s", path, strerror(errno));
      if (errno == ENOMEM) return false;
      if (errno == ENOENT && may_be_missing) text.bytes = calloc(1, 1);
    }
    files->texts[at] = (raf_span){text.bytes, text.length};
  }
  return true;
}

/* Reads what may let somebody in, likewise. */
static bool read_sources(check_request *asked) {
  return read_keys(CHECK_CA, asked) && read_keys(CHECK_AUTHORITIES, asked) &&
         read_keys(CHECK_USER_AUTHORITIES, asked) && read_texts(&asked->authorized_keys, true) &&
         read_texts(&asked->principals, true) && read_texts(&asked->command_keys, false);
}

/* The second at which a clock of the machine's zone shows the date of digits; false where it does
 * never, or twice. */
static bool read_local(const char *word, uint64_t *answer) {
  time_t found = -1;
  int count = 0;
  for (int is_summer = 0; is_summer < 2; is_summer++) {
    struct tm date = {.tm_isdst = is_summer}, shown;
    sscanf(word, "%4d%2d%2d%2d%2d%2d", &date.tm_year, &date.tm_mon, &date.tm_mday, &date.tm_hour,
           &date.tm_min, &date.tm_sec);
    date.tm_year -= 1900, date.tm_mon--;
    int day = date.tm_mday, hour = date.tm_hour, minute = date.tm_min;
    time_t second = mktime(&date);
    bool is_shown = second >= 0 && localtime_r(&second, &shown) && shown.tm_mday == day &&
                    shown.tm_hour == hour && shown.tm_min == minute;
    if (is_shown && second != found) count++, found = second;
  }
  *answer = (uint64_t)found;
  return count == 1;
}

/* Reads a second since 1970, or a date of one second, likewise: without Z one of the machine's zone
 * as git writes it, if `is_local`. ssh-keygen takes 12 and 14 digits for a date. */
static bool read_second(const char *word, bool is_local, uint64_t *answer) {
  raf_time_span span = {0, 0};
  size_t length = strlen(word);
  bool has_length = length == 8 || length == 12 || length == 14; /* of a date */
  if (!has_length && program_read_number(word, answer)) return true;
  bool is_date = raf_read_time((const uint8_t *)word, length, &span) == RAF_DONE;
  *answer = span.first;
  if (is_date && span.first == span.last) return true;
  if (is_date && is_local && read_local(word, answer)) return true;
  program_complain(is_date ? "%s has no zone: write a Z after it" : "%s is no time", word);
  return false;
}

/* Reads an option of ssh-keygen -Y, likewise: verify-time, and no other. */
static bool read_verify_time(const char *word, uint64_t *answer) {
  static const char name[] = "verify-time=";
  if (!strncmp(word, name, sizeof name - 1))
    return read_second(word + sizeof name - 1, true, answer);
  program_complain("-O takes verify-time=TIME alone");
  return false;
}

/* Reads the address of the client, likewise. */
static bool read_address(const char *word, check_request *asked) {
  bool is_short = inet_pton(AF_INET, word, asked->address) == 1;
  asked->address_length = is_short ? 4 : 16;
  if (is_short || inet_pton(AF_INET6, word, asked->address) == 1) return true;
  program_complain("%s is no address", word);
  return false;
}

/* Reads the numbers of the words; false, with a word to standard error, where one is none. */
static bool read_numbers(check_request *asked) {
  const char *at = asked->given[CHECK_AT], *from = asked->given[CHECK_FROM];
  const char *port = asked->given[CHECK_PORT], *time = asked->given[CHECK_TIME];
  asked->port_number = 22;
  if (at && !read_second(at, false, &asked->second)) return false;
  if (time && !read_verify_time(time, &asked->second)) return false;
  if (from && !read_address(from, asked)) return false;
  if (!port) return true;
  if (program_read_number(port, &asked->port_number) && asked->port_number <= UINT16_MAX)
    return true;
  program_complain("%s is no port", port);
  return false;
}

/* Reads the files by which is checked, likewise. */
static bool read_others(check_request *asked) {
  const char *signers = asked->given[CHECK_SIGNERS];
  if (!read_keys(CHECK_KEYS, asked) || !read_sources(asked) ||
      !read_files(&asked->revoked, true) || !read_files(&asked->known_hosts, false) ||
      !read_named(signers, &asked->allowed.text))
    return false;
  if (signers) tell_empty(signers, asked->allowed.text);
  asked->allowed.identity = asked->given[CHECK_IDENTITY];
  asked->allowed.unix_timestamp = asked->second;
  asked->allowed.revoked = program_revocations(&asked->revoked);
  return true;
}

/* Says whether what is revoked can be read, and returns the status. */
static int answer_revocations(raf_blob text, const check_request *asked) {
  report of = check_report(asked, 0);
  raf_span read = raf_blob_span(text);
  program_files one = {&of.path, &read, 1};
  uint32_t answer = program_check_revocations(read);
  if (answer == RAF_DONE)
    report_valid(&of);
  else if (!check_name_unread(&one, answer))
    report_complain(&of, answer);
  return program_is_written() && answer == RAF_DONE ? VALID : UNTOLD;
}

/* Answers about the file of the path, and returns the status. */
static int answer_file(check_request *asked) {
  raf_blob text = {NULL, 0};
  bool is_signature = asked->given[CHECK_SIGNATURE] != NULL;
  const char *path = asked->path ? asked->path : REPORT_INPUT;
  const char *read = is_signature ? asked->given[CHECK_SIGNATURE] : path;
  FILE *file = asked->path ? fopen(asked->path, "rb") : stdin;
  int status = UNTOLD;
  if (!file)
    program_complain("%s: %s", path, strerror(errno));
  else if (!(is_signature ? raf_read_file(read, &text) : raf_read_stream(file, &text)))
    program_complain("%s: %s", read, strerror(errno));
  else if (is_signature)
    status = check_signature(text, file, asked);
  else if (asked->mode == CHECK_REVOCATIONS)
    status = answer_revocations(text, asked);
  else if (!is_private(path, text))
    status = check_text(text, asked);
  free(text.bytes);
  if (asked->path && file) fclose(file);
  return status;
}

static int answer_request(check_request *asked) {
  int worst = VALID;
  if (!read_numbers(asked) || !read_others(asked)) return UNTOLD;
  if (!asked->path_count) return answer_file(asked);
  for (int at = 0; at < asked->path_count; at++) {
    asked->path = strcmp(asked->paths[at], "-") ? asked->paths[at] : NULL;
    int status = answer_file(asked);
    if (status > worst) worst = status;
  }
  return worst;
}

int main(int count, char **words) {
  check_request asked;
  program_start_libcrypto();
  memset(&asked, 0, sizeof asked);
  asked.second = (uint64_t)time(NULL);
  asked.is_valid = true;
  int shown = program_show(count, words, check_help);
  if (shown >= 0) return shown ? UNTOLD : VALID;
  int status = check_read_words(count, words, &asked) ? answer_request(&asked) : UNTOLD;
  free(asked.by.keys);
  free(asked.allowed.text.bytes);
  program_forget(&asked.authorized_keys);
  program_forget(&asked.principals);
  program_forget(&asked.command_keys);
  program_forget(&asked.known_hosts);
  program_forget(&asked.revoked);
  return status;
}
