/* Holds the calls of bindings/go/rafendilo/heap.c to what the toolchain's library libc assumes of
 * them (src/heap.rt, src/types.rt), for checks/text: it is linked with --wrap of malloc and
 * realloc. Each line tells what does not hold; a block that is not freed is what its sanitizer
 * tells of. */
#include <stdbool.h>
#include <stddef.h>
#include <stdint.h>
#include <stdio.h>
#include <string.h>

typedef struct {
  bool is_there;
  uint8_t *block;
} tried;

tried rattle_alloc(size_t length, size_t alignment);
tried rattle_realloc(uint8_t *block, size_t kept, size_t length, size_t alignment);
void rattle_dealloc(uint8_t *block);

void *__real_malloc(size_t length);
void *__real_realloc(void *block, size_t length);

/* Requests: how many were made, and the number of the one that is refused. One for no bytes is
 * refused too, as a C library may do. */
static struct {
  size_t made, refused;
} requests;

static bool is_refused(size_t length) { return ++requests.made == requests.refused || !length; }

void *__wrap_malloc(size_t length) { return is_refused(length) ? NULL : __real_malloc(length); }

void *__wrap_realloc(void *block, size_t length) {
  return is_refused(length) ? NULL : __real_realloc(block, length);
}

static int failed;

static void check(bool holds, const char *what, size_t length, size_t alignment) {
  if (holds) return;
  printf("%zu bytes at a multiple of %zu: %s\n", length, alignment, what);
  failed = 1;
}

/* Writes 0, 1, .. to a block; and whether they stand there, as far as that length. */
static void count_up(uint8_t *block, size_t length) {
  for (size_t at = 0; at < length; at++)
    block[at] = (uint8_t)at;
}

static bool is_counted(const uint8_t *block, size_t length) {
  for (size_t at = 0; at < length; at++)
    if (block[at] != (uint8_t)at) return false;
  return true;
}

/* A block is asked for, made longer, shorter and empty, and freed; the request of that number, if
 * it is one of these, is refused. Returns how many were made. */
static size_t ask(size_t length, size_t alignment, size_t refused) {
  requests.made = 0;
  requests.refused = refused;
  tried now = rattle_alloc(length, alignment);
  check(now.is_there == (refused != 1), "whether there is a block", length, alignment);
  check(now.block != NULL, "null", length, alignment);
  if (!now.is_there) return requests.made;
  count_up(now.block, length);
  size_t kept = length, lengths[] = {3 * length + 1, length / 2, 0, length};
  for (size_t number = 0; number < sizeof lengths / sizeof *lengths; number++) {
    size_t next = lengths[number], common = kept < next ? kept : next;
    tried other = rattle_realloc(now.block, common, next, alignment);
    check(other.is_there == (refused != number + 2), "whether it is made another", next, alignment);
    check(other.block != NULL, "null for another", next, alignment);
    if (other.is_there) {
      now = other;
      kept = next;
    }
    check((uintptr_t)now.block % alignment == 0, "where it lies", kept, alignment);
    check(is_counted(now.block, other.is_there ? common : kept), "what it had", kept, alignment);
    count_up(now.block, kept);
  }
  rattle_dealloc(now.block);
  return requests.made;
}

int main(void) {
  static const size_t lengths[] = {0, 1, 15, 16, 17, 4096, 100000};
  for (size_t number = 0; number < sizeof lengths / sizeof *lengths; number++)
    for (size_t alignment = 1; alignment <= 16; alignment *= 2) {
      size_t made = ask(lengths[number], alignment, 0);
      check(made == 5, "how many requests were made", lengths[number], alignment);
      for (size_t refused = 1; refused <= made; refused++)
        ask(lengths[number], alignment, refused);
    }
  if (!failed) puts("done");
  return failed;
}
