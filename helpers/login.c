/* for realpath */
#define _XOPEN_SOURCE 700
#include "login.h"

#include <errno.h>
#include <fcntl.h>
#include <getopt.h>
#include <limits.h>
#include <pwd.h>
#include <stdio.h>
#include <stdlib.h>
#include <string.h>
#include <sys/stat.h>
#include <unistd.h>

#include "text.h"

/* the user id that Linux itself gives for one that has none here */
#define NOBODY 65534

/* ---- words */

/* Whether it is a name that can't lead out of a folder, nor to what is hidden in it. */
static bool is_user(const char *name) {
  return name[0] && name[0] != '.' && !strchr(name, '/');
}

/* Takes an option of the words; null, or what is wrong with it. */
static const char *take_option(int letter, login_request *asked) {
  uint64_t bits;
  switch (letter) {
  case 'r': return program_add_path(&asked->revoked, optarg) ? NULL : "no memory";
  case 's': return NULL; /* what it asked for is done without it */
  case 'q':
    asked->is_quiet = true;
    return NULL;
  case 'm':
    asked->is_insecure = true;
    return NULL;
  case 'c':
    asked->is_check = true;
    return NULL;
  case 'C':
    asked->client = optarg;
    return NULL;
  case LOGIN_FILE:
    if (asked->is_file) return "is a second path";
    asked->path = optarg;
    asked->is_file = true;
    return NULL;
  case LOGIN_BITS:
    if (!program_read_number(optarg, &bits) || bits > UINT32_MAX) return "is no number";
    asked->least_rsa_bits = (uint32_t)bits;
    return NULL;
  case ':': return "wants a word after it";
  default: return "is no option";
  }
}

/* Reads the options of the words; false, which is said, where they are none. */
static bool read_options(int count, char **words, login_option own, login_request *asked) {
  const struct option options[] = {
      {"revoked", required_argument, NULL, 'r'},
      {"syslog", no_argument, NULL, 's'},
      {"quiet", no_argument, NULL, 'q'},
      {"insecure-modes", no_argument, NULL, 'm'},
      {"check", no_argument, NULL, 'c'},
      {"client", required_argument, NULL, 'C'},
      {own == LOGIN_FILE ? "file" : "least-rsa-bits", required_argument, NULL, own},
      {NULL, 0, NULL, 0}};
  opterr = 0;
  /* those after the first word that is no option are the client's */
  for (int letter; (letter = getopt_long(count, words, "+:", options, NULL)) != -1;) {
    const char *wrong = take_option(letter, asked);
    if (!wrong) continue;
    login_complain(asked, "%s %s", words[optind - 1], wrong);
    return false;
  }
  return true;
}

bool login_read_words(int count, char **words, login_option own, const char *usage,
                      login_request *asked) {
  memset(asked, 0, sizeof *asked);
  bool is_read = read_options(count, words, own, asked);
  /* a login has three words after the path, and of a user's file one is read with its user */
  int wanted = asked->is_check ? 1 : asked->is_file ? 3 : 4;
  if (is_read && count - optind != wanted) {
    login_complain(asked, "%d words in place of %d", count - optind, wanted);
    is_read = false;
  }
  if (!is_read) {
    fprintf(stderr, "usage: %s\n", usage);
    return false;
  }
  if (!asked->is_file) asked->path = words[optind++];
  if (asked->is_file || !asked->is_check) asked->user = words[optind];
  if (asked->is_check) return true;
  asked->type = words[optind + 1];
  asked->base64 = words[optind + 2];
  return true;
}

void login_forget(login_request *asked) {
  program_forget(&asked->revoked);
  free(asked->offered);
}

/* ---- who may run it */

static bool runs_as(uid_t user) {
  return user == getuid() || user == geteuid();
}

bool login_may_run(const login_request *asked) {
  const struct passwd *nobody = getpwnam("nobody");
  /* or no such name is found */
  if (runs_as(NOBODY) || (nobody && runs_as(nobody->pw_uid))) {
    login_complain(asked, "it does not run as nobody, but as a user that nothing else runs as");
    return false;
  }
  if (!asked->user || is_user(asked->user)) return true;
  login_complain(asked, "no name of a user");
  return false;
}

/* ---- which files it believes */

static bool is_safe(const struct stat *it, uid_t owner) {
  return raf_check_safe_mode(it->st_uid, owner, it->st_mode) == RAF_DONE;
}

/* Whether a file is believed that is open, or whether another one has its name by now. */
typedef enum { BELIEVED, DISBELIEVED, REPLACED } belief;

/* The path of the file that is open, without links, of malloc; null where the name is another's. */
static char *path_of(const char *path, const struct stat *opened) {
  struct stat it;
  char *at = realpath(path, NULL);
  if (at && lstat(at, &it) == 0 && it.st_dev == opened->st_dev && it.st_ino == opened->st_ino)
    return at;
  free(at);
  return NULL;
}

/* Whether each folder above the file is safe, up to that home or else to the root. */
static belief has_safe_folders(const login_request *asked, const char *path,
                               const struct stat *opened, uid_t owner, const char *home) {
  char *at = path_of(path, opened), *last = home ? realpath(home, NULL) : NULL;
  bool good = at != NULL, is_last = false;
  while (good && !is_last) {
    struct stat it;
    char *slash = strrchr(at, '/');
    slash[slash == at] = 0;
    good = stat(at, &it) == 0 && is_safe(&it, owner);
    is_last = slash == at || (last && !strcmp(at, last));
  }
  belief found = good ? BELIEVED : at ? DISBELIEVED : REPLACED;
  if (found == DISBELIEVED) login_complain(asked, "%s: others may write in %s", path, at);
  free(at);
  free(last);
  return found;
}

/* Whether the file that is open may be believed. */
static belief check_file(const login_request *asked, FILE *file, const char *path,
                         const char *owner) {
  const struct passwd *user = owner ? getpwnam(owner) : NULL;
  uid_t uid = user ? user->pw_uid : 0;
  struct stat it;
  if (fstat(fileno(file), &it) || !S_ISREG(it.st_mode)) {
    login_complain(asked, "%s: no regular file", path);
    return DISBELIEVED;
  }
  if (asked->is_insecure) return BELIEVED;
  if (is_safe(&it, uid))
    return has_safe_folders(asked, path, &it, uid, user ? user->pw_dir : NULL);
  login_complain(asked, "%s: %s", path, raf_status_meaning(RAF_UNSAFE_MODE));
  return DISBELIEVED;
}

/* Opens the file; says why where it can't, but for a file of an owner that is missing. */
static login_reading open_file(const login_request *asked, const char *path, const char *owner,
                               FILE **file) {
  /* a FIFO or a device would keep it waiting */
  int opened = open(path, O_RDONLY | O_NONBLOCK | O_NOCTTY | O_CLOEXEC);
  *file = opened < 0 ? NULL : fdopen(opened, "rb");
  if (*file) return LOGIN_READ;
  bool is_missing = opened < 0 && errno == ENOENT;
  if (!is_missing || !owner) login_complain(asked, "%s: %s", path, strerror(errno));
  if (opened >= 0) close(opened);
  return is_missing ? LOGIN_MISSING : LOGIN_UNTOLD;
}

/* Opens the file of the path, if it may be believed, likewise. */
static login_reading open_believed(const login_request *asked, const char *path, const char *owner,
                                   FILE **file) {
  /* who replaces a file by rename may do so while it is checked */
  for (int tries = 2; tries; tries--) {
    login_reading reading = open_file(asked, path, owner, file);
    if (reading != LOGIN_READ) return reading;
    belief found = check_file(asked, *file, path, owner);
    if (found == BELIEVED) return LOGIN_READ;
    fclose(*file);
    if (found == DISBELIEVED) return LOGIN_UNTOLD;
  }
  login_complain(asked, "%s: it was replaced twice while it was checked", path);
  return LOGIN_UNTOLD;
}

/* ---- what it reads */

/* Gives each line of the file, likewise: RAF_DONE, or what `each` says. */
static uint32_t read_lines(FILE *file, program_line *each, void *given, size_t *number) {
  char *line = NULL;
  size_t buffer = 0;
  ssize_t length;
  uint32_t answer = RAF_DONE;
  *number = 0;
  while (answer == RAF_DONE && (length = getline(&line, &buffer, file)) >= 0) {
    raf_part part = {0, 0};
    ++*number;
    if (raf_next_line((const uint8_t *)line, (size_t)length, 0, &part) == RAF_DONE)
      answer = each(line + part.start, part.length, *number, given);
  }
  free(line);
  return answer;
}

login_reading login_each_line(const login_request *asked, const char *path, const char *owner,
                              program_line *each, void *given) {
  FILE *file;
  size_t number;
  login_reading reading = open_believed(asked, path, owner, &file);
  if (reading != LOGIN_READ) return reading;
  uint32_t answer = read_lines(file, each, given, &number);
  if (answer != RAF_DONE)
    login_complain(asked, "%s:%zu: %s", path, number, raf_status_meaning(answer));
  else if (!feof(file))
    login_complain(asked, "%s: %s", path, strerror(errno));
  bool is_read = answer == RAF_DONE && feof(file);
  fclose(file);
  return is_read ? LOGIN_READ : LOGIN_UNTOLD;
}

bool login_read_revoked(login_request *asked) {
  for (size_t at = 0; at < asked->revoked.count; at++) {
    const char *path = asked->revoked.paths[at];
    raf_blob text = {NULL, 0};
    FILE *file;
    if (open_believed(asked, path, NULL, &file) != LOGIN_READ) return false;
    bool is_read = raf_read_stream(file, &text);
    if (!is_read) login_complain(asked, "%s: %s", path, strerror(errno));
    fclose(file);
    if (!is_read) return false;
    asked->revoked.texts[at] = raf_blob_span(text);
  }
  return true;
}

/* ---- what is checked before a login is */

bool login_check_revoked(const login_request *asked) {
  bool is_read = true;
  for (size_t at = 0; at < asked->revoked.count; at++) {
    uint32_t answer = program_check_revocations(asked->revoked.texts[at]);
    if (answer == RAF_DONE) continue;
    program_files one = {&asked->revoked.paths[at], &asked->revoked.texts[at], 1};
    char *words = program_unread_revocations(&one, answer);
    login_complain(asked, "%s", words ? words : raf_status_meaning(answer));
    free(words);
    is_read = false;
  }
  return is_read;
}

void login_print_line(const char *path, size_t number, raf_span users,
                      const raf_sha256 *key) {
  uint8_t text[RAF_FINGERPRINT_TEXT] = {0};
  printf("%s:%zu: ", path, number);
  text_print(users);
  if (raf_fingerprint_text(key, text, sizeof text) == RAF_DONE)
    printf(" by %.*s\n", (int)sizeof text, (const char *)text);
}
