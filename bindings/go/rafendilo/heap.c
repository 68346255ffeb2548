//go:build !rafendilo_installed

/* The three calls by which the proved crate asks for memory, over those of the C library. Their
 * contracts are assumed, and stand in the toolchain's library libc (src/heap.rt): an alignment is
 * at most that of malloc. checks/heap.c holds this file to them. */
#include <stdbool.h>
#include <stddef.h>
#include <stdlib.h>

/* What was tried: whether there is a block, and where. Where there is none, it is at a byte. */
typedef struct {
  bool is_there;
  void *block;
} rattle_tried;

rattle_tried rattle_alloc(size_t length, size_t alignment);
rattle_tried rattle_realloc(void *block, size_t kept, size_t length, size_t alignment);
void rattle_dealloc(void *block);

static rattle_tried tried(void *block) {
  static char nothing;
  return (rattle_tried){block != NULL, block ? block : &nothing};
}

rattle_tried rattle_alloc(size_t length, size_t alignment) {
  return tried(malloc(length ? length : alignment));
}

rattle_tried rattle_realloc(void *block, size_t kept, size_t length, size_t alignment) {
  (void)kept;
  return tried(realloc(block, length ? length : alignment));
}

void rattle_dealloc(void *block) { free(block); }
