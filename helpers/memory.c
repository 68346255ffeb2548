#include <openssl/crypto.h>
#include <stdio.h>
#include <stdlib.h>
#include <unistd.h>

#include "program.h"

/* Says that there is no memory, and ends: libcrypto can't be asked further, nor put away. */
static void *end(void) {
  program_complain("no memory");
  fflush(stdout);
  _exit(program_untold);
}

static void *allocated(size_t length, const char *file, int line) {
  void *made = malloc(length);
  (void)file;
  (void)line;
  return made || !length ? made : end();
}

static void released(void *old, const char *file, int line) {
  (void)file;
  (void)line;
  free(old);
}

static void *reallocated(void *old, size_t length, const char *file, int line) {
  if (length) {
    void *made = realloc(old, length);
    return made ? made : end();
  }
  released(old, file, line);
  return NULL;
}

void program_start_libcrypto(void) {
  const uint64_t without = OPENSSL_INIT_NO_LOAD_CRYPTO_STRINGS | OPENSSL_INIT_NO_ADD_ALL_CIPHERS |
                           OPENSSL_INIT_NO_ADD_ALL_DIGESTS | OPENSSL_INIT_NO_ATEXIT;
  if (CRYPTO_set_mem_functions(allocated, reallocated, released) != 1) abort();
  if (OPENSSL_init_crypto(without, NULL) != 1) end();
}
