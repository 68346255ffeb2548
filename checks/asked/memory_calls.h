/* Refuses memory to each call in turn, for checks/foreign.c, which is linked with --wrap of malloc,
 * realloc and free:
 *
 *     memory CALL SPAN.. NUMBER.. ROOM
 *
 * has the answer of a call with a room of that length, how many requests it makes, and how many
 * answers are RAF_MEMORY where one of them is refused, and where it and all after it are. A call
 * may do without a request, and then answers and writes what it does with all. What is wrong stands
 * first: another answer, memory that is kept, and a call that answers otherwise after a refusal.
 *
 *     authority LINE
 *
 * has the answer of raf_add_authority of helpers/reading.h, and its answers where each of its
 * requests but those by calloc is refused. */
#ifndef MEMORY_CALLS_H
#define MEMORY_CALLS_H

/* Requests of a call: how many it made, which are refused, and how many blocks it holds. */
static struct {
  int is_on;
  size_t made, first_refused, last_refused, held;
} requests;

void *__real_malloc(size_t length);
void *__real_realloc(void *block, size_t length);
void __real_free(void *block);

static int is_refused(void) {
  if (!requests.is_on) return 0;
  requests.made++;
  return requests.first_refused <= requests.made && requests.made <= requests.last_refused;
}

void *__wrap_malloc(size_t length) {
  void *block = is_refused() ? NULL : __real_malloc(length);
  requests.held += requests.is_on && block;
  return block;
}

void *__wrap_realloc(void *block, size_t length) {
  if (is_refused()) return NULL;
  void *moved = __real_realloc(block, length);
  requests.held += requests.is_on && !block && moved;
  return moved;
}

void __wrap_free(void *block) {
  requests.held -= requests.is_on && block;
  __real_free(block);
}

/* Calls, where requests from the first to the last are refused, the first one of a call being 1. */
static uint32_t call_refusing(given_call *it, size_t first, size_t last) {
  requests.made = requests.held = 0;
  requests.first_refused = first;
  requests.last_refused = last;
  requests.is_on = 1;
  uint32_t answer = called(it, 0);
  requests.is_on = 0;
  if (requests.held) printf("%zu blocks are kept ", requests.held);
  if (answer == RAF_SHORT_BUFFER && !is_filled(it->room, 0)) printf("the room is written ");
  return answer;
}

/* The sum of what a call has written. */
static uint32_t sum_of_written(const given_call *it) {
  size_t from = offsetof(given_call, length);
  return sum_of(it->room.bytes, it->room.length) ^
         sum_of((const uint8_t *)it + from, sizeof *it - from);
}

/* How many answers are RAF_MEMORY where the request of each number is refused, and those after
 * it too where that is asked for. After each the call is made again, with memory. */
static size_t count_refusals(given_call *it, size_t made, int all, uint32_t answer, uint32_t sum) {
  size_t refused = 0;
  for (size_t number = 1; number <= made; number++) {
    uint32_t said = call_refusing(it, number, all ? SIZE_MAX : number);
    if (said == RAF_MEMORY)
      refused++;
    else if (said != answer || sum_of_written(it) != sum)
      printf("%" PRIu32 " where %zu is refused ", said, number);
    uint32_t again = call_refusing(it, 0, 0);
    if (again != answer || requests.made != made || sum_of_written(it) != sum)
      printf("another answer after it ");
  }
  return refused;
}

static void ask_memory(given_call *it, const char *room) {
  free(it->room.bytes);
  it->room = made(strtoull(room, NULL, 10));
  uint32_t answer = call_refusing(it, 0, 0), sum = sum_of_written(it);
  size_t made = requests.made;
  size_t once = count_refusals(it, made, 0, answer, sum);
  size_t all = count_refusals(it, made, 1, answer, sum);
  printf("%" PRIu32 " %zu %zu %zu", answer, made, once, all);
}

/* What raf_add_authority answers where the request of that number is refused; 0 for none. */
static uint32_t add_refusing(raf_blob line, size_t number) {
  raf_authorities to = {NULL, 0};
  requests.is_on = 1;
  requests.made = requests.held = 0;
  requests.first_refused = requests.last_refused = number;
  uint32_t answer = raf_add_authority(&to, (const char *)line.bytes, line.length);
  requests.is_on = 0;
  if (to.count != (answer == RAF_DONE)) printf("another number of authorities ");
  free(to.keys);
  return answer;
}

static void ask_authority(const char *word) {
  raf_blob line = bytes_of(word);
  printf("%" PRIu32, add_refusing(line, 0));
  size_t made = requests.made;
  for (size_t number = 1; number <= made; number++)
    printf(" %" PRIu32, add_refusing(line, number));
  free(line.bytes);
}

#endif
