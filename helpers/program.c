#include "program.h"

#include <errno.h>
#include <inttypes.h>
#include <stdarg.h>
#include <stdio.h>
#include <stdlib.h>
#include <string.h>

#include "text.h"

/* of what is said; paths are shorter */
#define WORDS 8192

void program_complain(const char *format, ...) {
  char said[WORDS];
  va_list words;
  va_start(words, format);
  vsnprintf(said, sizeof said, format, words);
  va_end(words);
  fprintf(stderr, "%s: ", program_name);
  /* paths and names are those of others, too */
  text_complain((raf_span){(const uint8_t *)said, strlen(said)});
  fputc('\n', stderr);
}

bool program_is_written(void) {
  if (fflush(stdout) == 0 && !ferror(stdout)) return true;
  program_complain("standard output: %s", strerror(errno));
  return false;
}

void program_show_version(void) {
  uint32_t version = raf_version();
  printf("%s %" PRIu32 ".%" PRIu32 ".%" PRIu32 "\n", program_name, version / 10000,
         version / 100 % 100, version % 100);
}

int program_show(int count, char **words, const char *help) {
  if (count != 2) return -1;
  if (!strcmp(words[1], "--help"))
    fputs(help, stdout);
  else if (!strcmp(words[1], "--version"))
    program_show_version();
  else
    return -1;
  return program_is_written() ? 0 : program_untold;
}

uint32_t program_each_line(raf_blob text, program_line *each, void *given, size_t *number) {
  raf_part line = {0, 0};
  uint32_t answer = RAF_DONE;
  size_t place = 0, counted = 0;
  *number = 1;
  while (answer == RAF_DONE &&
         raf_next_line(text.bytes, text.length, place, &line) == RAF_DONE) {
    for (; counted < line.start; counted++) *number += text.bytes[counted] == '\n';
    answer = each((const char *)text.bytes + line.start, line.length, *number, given);
    place = line.start + line.length;
  }
  return answer;
}

bool program_has_no_users(const char *line, size_t length) {
  raf_authorities found = {NULL, 0};
  uint32_t answer = raf_add_authority(&found, line, length);
  free(found.keys);
  return answer == RAF_DONE;
}

/* ---- files of which there may be several */

bool program_add_path(program_files *to, const char *path) {
  size_t count = to->count + 1;
  const char **paths = realloc(to->paths, count * sizeof *paths);
  if (paths) to->paths = paths;
  raf_span *texts = paths ? realloc(to->texts, count * sizeof *texts) : NULL;
  if (!texts) {
    program_complain("no memory");
    return false;
  }
  to->texts = texts;
  to->paths[to->count] = path;
  to->texts[to->count] = (raf_span){NULL, 0};
  to->count = count;
  return true;
}

raf_spans program_texts(const program_files *files) {
  return (raf_spans){files->texts, files->count};
}

raf_spans program_revocations(const program_files *files) {
  return files->count ? program_texts(files) : RAF_NO_REVOCATIONS;
}

uint32_t program_check_revocations(raf_span text) {
  /* some key: nothing is asked but whether the text can be read */
  static const uint8_t key[51] = "\0\0\0\13ssh-ed25519\0\0\0\40";
  uint32_t answer = raf_check_unrevoked_key(&text, 1, key, sizeof key);
  return answer == RAF_REVOKED ? (uint32_t)RAF_DONE : answer;
}

/* The number of the first line that can't be read alone; 0 where none is found, and of a list
 * (PROTOCOL.krl), which has no lines. */
static size_t find_unread_line(raf_span text) {
  static const uint8_t front[8] = "SSHKRL\n";
  bool is_list = text.length >= sizeof front && !memcmp(text.bytes, front, sizeof front);
  uint32_t answer = RAF_DONE;
  size_t number = 0;
  for (; !is_list && text.length && answer == RAF_DONE; number++) {
    const uint8_t *end = memchr(text.bytes, '\n', text.length);
    size_t length = end ? (size_t)(end - text.bytes) + 1 : text.length;
    answer = program_check_revocations((raf_span){text.bytes, length});
    text.bytes += length, text.length -= length;
  }
  return answer == RAF_UNREADABLE_REVOCATIONS ? number : 0;
}

char *program_unread_revocations(const program_files *files, uint32_t answer) {
  size_t at = 0;
  if (answer != RAF_UNREADABLE_REVOCATIONS) return NULL;
  while (at < files->count && program_check_revocations(files->texts[at]) != answer) at++;
  if (at == files->count) return NULL;
  const char *path = files->paths[at], *said = raf_status_meaning(answer);
  size_t number = find_unread_line(files->texts[at]), length = strlen(path) + strlen(said) + 32;
  char *words = malloc(length);
  if (words && number)
    snprintf(words, length, "%s:%zu: %s", path, number, said);
  else if (words)
    snprintf(words, length, "%s: %s", path, said);
  return words;
}

void program_forget(program_files *files) {
  for (size_t at = 0; at < files->count; at++) free((void *)files->texts[at].bytes);
  free(files->texts);
  free(files->paths);
}

bool program_read_number(const char *word, uint64_t *answer) {
  char *end = NULL;
  errno = 0;
  *answer = strtoull(word, &end, 10);
  return word[0] >= '0' && word[0] <= '9' && *end == 0 && errno == 0;
}
