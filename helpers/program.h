/* What the programs here share: what they say of themselves, and how they go over lines. */
#ifndef PROGRAM_H
#define PROGRAM_H
#include <stdbool.h>
#include <stddef.h>
#include <stdint.h>
#include "reading.h"

/* The name of the program, as it is installed, and the status by which it says that it can't tell.
 * Each has its own. */
extern const char program_name[];
extern const int program_untold;

/* Says on standard error, after the name, what is wrong. */
void program_complain(const char *format, ...) __attribute__((format(printf, 1, 2)));

/* Whether all that was printed is written; else it says why not. */
bool program_is_written(void);

/* Prints the version of the library. */
void program_show_version(void);

/* Prints the help where that or the version is all that the words ask for: 0, or program_untold
 * where it can't be written. Else -1. */
int program_show(int count, char **words, const char *help);

/* Has the program end with program_untold as soon as libcrypto is refused memory, which itself
 * answers then as if a signature were wrong. Starts libcrypto without what nobody asks for here: the
 * texts of its errors, the names of older ciphers and digests, and its putting away at the end,
 * which would ask for memory after the answer is printed. Its configuration, where administrators
 * set FIPS, is read with the first key as ever. To be called before libcrypto is, once. */
void program_start_libcrypto(void);

/* What is done with a line and its number: RAF_DONE, or why no further one is to be given. */
typedef uint32_t program_line(const char *line, size_t length, size_t number, void *given);

/* Gives each line of the text that is neither empty nor a comment, as long as that is RAF_DONE;
 * else it is the answer, and `number` that of the line. */
uint32_t program_each_line(raf_blob text, program_line *each, void *given, size_t *number);

/* What is said of a path and the number of a line that begins with its key, where users stand before
 * it, as in the files of sshkey-principals; and whether one does. */
#define PROGRAM_NO_USERS "%s:%zu: no users before the key: a line is NAME[,NAME..] KEY"
bool program_has_no_users(const char *line, size_t length);

/* Files of which a word may name several: what they hold, once they are read, as calls take it, and
 * of malloc. */
typedef struct {
  const char **paths;
  raf_span *texts;
  size_t count;
} program_files;

/* Adds a path, whose text is not read yet; false, which is said, where there is no memory. */
bool program_add_path(program_files *to, const char *path);

/* What they hold, of which all are read; and the same of revocation files, where nothing is revoked
 * if there are none. */
raf_spans program_texts(const program_files *files);
raf_spans program_revocations(const program_files *files);

/* Whether what is asked about revocations can read what a file has: RAF_DONE, or why not. */
uint32_t program_check_revocations(raf_span text);

/* Which of these files can't be read by what is asked about revocations, where that is the answer:
 * the path of the first, the number of its first such line unless it is a list, and what the answer
 * means, of malloc. Null where the answer is another, or there is no memory. */
char *program_unread_revocations(const program_files *files, uint32_t answer);

/* Gives their memory back. */
void program_forget(program_files *files);

/* The number of decimal digits; false where there is another character, none, or too many. */
bool program_read_number(const char *word, uint64_t *answer);

#endif
