/* In front of the C library's functions of these names, for checks/asked/checker.py: the request for
 * memory of the number in REFUSED is refused, and each after it where a plus follows the number. */
#include <stddef.h>
#include <stdlib.h>
#include <string.h>

void *__libc_malloc(size_t length);
void *__libc_calloc(size_t count, size_t length);
void *__libc_realloc(void *old, size_t length);

static int is_refused(void) {
  static long asked;
  const char *word = getenv("REFUSED");
  long number = word ? atol(word) : 0;
  asked++;
  return number && (asked == number || (asked > number && strchr(word, '+')));
}

void *malloc(size_t length) { return is_refused() ? NULL : __libc_malloc(length); }

void *calloc(size_t count, size_t length) {
  return is_refused() ? NULL : __libc_calloc(count, length);
}

void *realloc(void *old, size_t length) {
  return is_refused() ? NULL : __libc_realloc(old, length);
}
