/* What the programs share that sshd asks at a login: their words, the files that they believe, and
 * what they log. */
#ifndef LOGIN_H
#define LOGIN_H
#include <stdbool.h>
#include "program.h"

/* What is asked. */
typedef struct {
  const char *path; /* of a file or a folder, as the program says */
  const char *user; /* whom the client wants to be */
  const char *type; /* the two words of what the client offers */
  const char *base64;
  const char *client; /* where it is, for the log; null where that is not told */
  program_files revoked;
  uint32_t least_rsa_bits; /* by --least-rsa-bits; 0 where it is not given */
  bool is_file;            /* by --file the path is that of this user's file */
  bool is_insecure;        /* by --insecure-modes nobody asks who may write files */
  bool is_check;           /* by --check only the files are read, and no login is asked about */
  bool is_quiet;           /* by --quiet the system's log is not told what is wrong */
  char *offered;           /* for the log what is offered, of malloc; null till it is known */
} login_request;

/* Reads the words of a program, which has one option of its own: LOGIN_FILE or LOGIN_BITS. False,
 * which is said with that line of usage, where they ask nothing. */
typedef enum { LOGIN_FILE = 'f', LOGIN_BITS = 'b' } login_option;
bool login_read_words(int count, char **words, login_option own, const char *usage,
                      login_request *asked);

/* Gives the memory of the request back. */
void login_forget(login_request *asked);

/* Says on standard error, and in the log, why it can't tell; and what else is wrong, as a refusal,
 * to which the log gives less weight. */
void login_complain(const login_request *asked, const char *format, ...)
    __attribute__((format(printf, 2, 3)));
void login_tell(const login_request *asked, const char *format, ...)
    __attribute__((format(printf, 2, 3)));

/* Says why the client is refused, in these words, or else in those of the answer, and returns the
 * status of the program: 0, which is a no, or 1 where the answer is that it can't tell. */
int login_refuse(const login_request *asked, uint32_t answer, const char *words);

/* The text in quotes, as the log has it, of malloc; null where there is no memory. */
char *login_quoted(const char *text);

/* Has the log name what is offered: a key, or a certificate by its id, number and authority. */
void login_note(login_request *asked, raf_blob offered, bool is_certificate);

/* Whether the program may run at all: not as `nobody`, who runs other things too. Any process of
 * the same user can write to sshd in place of the program. Says so where it may not. */
bool login_may_run(const login_request *asked);

typedef enum { LOGIN_READ, LOGIN_MISSING, LOGIN_UNTOLD } login_reading;

/* Gives each line of the file of the path that is neither empty nor a comment, as long as that is
 * RAF_DONE, and holds one line at a time. The file has to be a regular one, and as sshd's
 * StrictModes has it: it and each folder above are root's or the owner's, and nobody else may write
 * there. The owner is the user of that name, in whose home the folders end; null is root alone. Of
 * what is not read it says why, but for a missing file of an owner. */
login_reading login_each_line(const login_request *asked, const char *path, const char *owner,
                              program_line *each, void *given);

/* Reads the revocation files of the request; false where one is not read, which is said. */
bool login_read_revoked(login_request *asked);

/* Whether each of these files can be read by what is asked about revocations, or else says which
 * can't. */
bool login_check_revoked(const login_request *asked);

/* Prints that a user of the line may be let in by the key of that fingerprint. */
void login_print_line(const char *path, size_t number, raf_span users,
                      const raf_sha256 *key);

#endif
