/* Certificates that the calls of rafendilo.h do not read: an option in them stands twice or out of
 * order, or a time is above 2^63 - 1. They are there to be shown. */
#ifndef UNREAD_H
#define UNREAD_H
#include <stdbool.h>
#include "reading.h"

typedef struct {
  raf_blob bytes; /* of malloc */
  raf_part critical_options, extensions;
  uint64_t valid_after, valid_before;
} unread_certificate;

/* RAF_DONE where the line is that of such a certificate, as far as its fields tell: else
 * RAF_FORMAT, or RAF_MEMORY. `readable` is the same without options, and for any time, as these
 * calls read it: nobody signed that. */
uint32_t unread_read_line(const char *line, size_t length, unread_certificate *answer,
                          raf_blob *readable);

/* The name of the first option of a list that stands there twice, or behind one of a greater name;
 * of no bytes where there is none. */
raf_span unread_option(raf_span list, bool *is_twice);
#endif
