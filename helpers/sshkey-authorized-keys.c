/* Says by which lines of a file in the form of authorized_keys sshd may let a user in by a key. See
 * sshkey-authorized-keys(8). */
#include <dirent.h>
#include <errno.h>
#include <stdbool.h>
#include <stdio.h>
#include <stdlib.h>
#include <string.h>

#include "reading.h"
#include "login.h"
#include "program.h"

const char program_name[] = "sshkey-authorized-keys";
const int program_untold = 1;
#define USAGE                                                                             \
  "sshkey-authorized-keys [--revoked FILE].. [--client WORDS] [--quiet] [--insecure-modes] " \
  "FOLDER USER TYPE KEY"
static const char help[] =
    "usage: " USAGE "\n"
    "       sshkey-authorized-keys [--revoked FILE].. [--client WORDS] [--quiet] "
    "[--insecure-modes] --file PATH USER TYPE KEY\n"
    "       sshkey-authorized-keys --check [--revoked FILE].. [--insecure-modes] FOLDER\n"
    "       sshkey-authorized-keys --check [--revoked FILE].. [--insecure-modes] --file PATH USER\n"
    "\n"
    "sshd_config: AuthorizedKeysCommand PATH/sshkey-authorized-keys /etc/ssh/keys %u %t %k\n"
    "             AuthorizedKeysCommandUser sshkey\n"
    "Prints the lines of the file FOLDER/USER, in the form of authorized_keys, that have the key\n"
    "which the client offers, or may have it; none if a FILE, as sshd's RevokedKeys, revokes it.\n"
    "A PATH has to name the user, by %u or %h. The system's log is told why none is printed, with\n"
    "WORDS. With --check it reads all files, and says who may be let in by which key, and what\n"
    "can't be read. It does not run as nobody.\n"
    "Status 0: all are printed, or there is none; 1: it can't tell, as standard error says.\n";

/* What the client offers. */
typedef struct {
  raf_blob blob; /* of malloc */
  bool is_certificate;
  size_t printed; /* how many lines are */
} offered;

static uint32_t read_offered(const login_request *asked, offered *answer) {
  uint32_t status = raf_read_words_blob(asked->type, asked->base64, RAF_LINE_KEY, &answer->blob);
  answer->is_certificate = status != RAF_DONE;
  return answer->is_certificate ? raf_read_words_blob(asked->type, asked->base64,
                                                      RAF_LINE_CERTIFICATE, &answer->blob)
                                : status;
}

/* RAF_END where the line is surely not one for what is offered. Any other is sshd's to check, also
 * one that is no entry here. */
static uint32_t check_line(const uint8_t *line, size_t length, const offered *wanted) {
  raf_blob blob = wanted->blob;
  return wanted->is_certificate
             ? raf_line_may_name_authority(line, length, blob.bytes, blob.length)
             : raf_line_may_name_key(line, length, blob.bytes, blob.length);
}

/* Prints the line unless it is surely none for what is offered; why it can't tell else. */
static uint32_t print_line(const char *line, size_t length, size_t number, void *given) {
  offered *wanted = given;
  (void)number;
  uint32_t answer = check_line((const uint8_t *)line, length, wanted);
  if (answer == RAF_END) return RAF_DONE;
  if (answer != RAF_DONE) return answer;
  fwrite(line, 1, length, stdout);
  putchar('\n');
  wanted->printed++;
  return RAF_DONE;
}

/* The path of that user's file, of malloc. */
static char *path_of(const login_request *asked, const char *user) {
  size_t length = strlen(asked->path) + 1 + strlen(user) + 1;
  char *path = malloc(length);
  if (!path)
    login_complain(asked, "no memory");
  else if (asked->is_file)
    snprintf(path, length, "%s", asked->path);
  else
    snprintf(path, length, "%s/%s", asked->path, user);
  return path;
}

/* Answers about what is offered, which is not revoked. */
static int answer_offered(const login_request *asked, offered *wanted) {
  char *path = path_of(asked, asked->user);
  if (!path) return program_untold;
  login_reading reading = login_each_line(asked, path, asked->user, print_line, wanted);
  bool is_told = reading != LOGIN_UNTOLD;
  /* who has no file has no lines */
  if (reading == LOGIN_MISSING)
    login_tell(asked, "refused: %s: %s", path, strerror(ENOENT));
  else if (is_told && !wanted->printed)
    login_tell(asked, "refused: no line of %s is for it", path);
  free(path);
  return is_told && program_is_written() ? 0 : program_untold;
}

/* RAF_DONE where no revocation file revokes what is offered; else why it is refused. */
static uint32_t check_revoked(const login_request *asked, const offered *wanted) {
  raf_spans revoked = program_revocations(&asked->revoked);
  raf_blob blob = wanted->blob;
  return wanted->is_certificate
          ? raf_check_unrevoked_certificate(revoked.items, revoked.count, blob.bytes, blob.length)
          : raf_check_unrevoked_key(revoked.items, revoked.count, blob.bytes, blob.length);
}

static int answer_login(login_request *asked) {
  offered wanted;
  int status = program_untold;
  memset(&wanted, 0, sizeof wanted);
  uint32_t answer = read_offered(asked, &wanted);
  if (answer != RAF_DONE) {
    login_complain(asked, "what is offered is no key: %s", raf_status_meaning(answer));
  } else {
    login_note(asked, wanted.blob, wanted.is_certificate);
    if (login_read_revoked(asked)) {
      answer = check_revoked(asked, &wanted);
      status = answer == RAF_DONE ? answer_offered(asked, &wanted)
                                     : login_refuse(asked, answer, NULL);
    }
  }
  free(wanted.blob.bytes);
  return status;
}

/* ---- the files alone */

/* Whose file is read, and whether each of its lines is an entry. */
typedef struct {
  const login_request *asked;
  const char *path, *user;
  bool is_whole;
} checked;

/* Prints that the user may be let in by the key of a line, or says that the line is no entry: sshd
 * may read it otherwise. */
static uint32_t print_checked(const char *line, size_t length, size_t number, void *given) {
  checked *of = given;
  raf_sha256 digest = {{0}};
  raf_entry entry;
  memset(&entry, 0, sizeof entry);
  /* a buffer of the line's length is enough */
  uint8_t *buffer = calloc(1, length);
  if (!buffer) return RAF_MEMORY;
  uint32_t answer =
      raf_authorized_entry((const uint8_t *)line, length, buffer, length, &entry);
  if (answer == RAF_DONE)
    answer = raf_fingerprint(buffer + entry.key.start, entry.key.length, &digest);
  free(buffer);
  if (answer == RAF_MEMORY) return answer;
  if (answer == RAF_DONE) {
    login_print_line(of->path, number, raf_text_span(of->user), &digest);
  } else {
    login_complain(of->asked, "%s:%zu: no entry: %s", of->path, number, raf_status_meaning(answer));
    of->is_whole = false;
  }
  return RAF_DONE;
}

/* Whether that user's file can be read, and each of its lines. */
static bool check_user(const login_request *asked, const char *user) {
  char *path = path_of(asked, user);
  checked of = {asked, path, user, true};
  if (!path) return false;
  login_reading reading = login_each_line(asked, path, user, print_checked, &of);
  if (reading == LOGIN_MISSING) login_complain(asked, "%s: %s", path, strerror(ENOENT));
  free(path);
  return reading == LOGIN_READ && of.is_whole;
}

/* Whether each file of the folder can be read, of which each is a user's. */
static bool check_folder(const login_request *asked) {
  DIR *folder = opendir(asked->path);
  bool is_read = folder != NULL;
  if (!folder) login_complain(asked, "%s: %s", asked->path, strerror(errno));
  for (struct dirent *it; folder && (it = readdir(folder)) != NULL;)
    if (it->d_name[0] != '.' && !check_user(asked, it->d_name)) is_read = false;
  if (folder) closedir(folder);
  return is_read;
}

static int check_files(login_request *asked) {
  bool is_read = login_read_revoked(asked) && login_check_revoked(asked);
  bool has_files = asked->is_file ? check_user(asked, asked->user) : check_folder(asked);
  return is_read && has_files && program_is_written() ? 0 : program_untold;
}

int main(int count, char **words) {
  login_request asked;
  int status = program_show(count, words, help);
  if (status >= 0) return status;
  status = program_untold;
  if (login_read_words(count, words, LOGIN_FILE, USAGE, &asked) && login_may_run(&asked))
    status = asked.is_check ? check_files(&asked) : answer_login(&asked);
  login_forget(&asked);
  return status;
}
