/* What the programs ask of a certificate that is offered, or lies in a file. */
#ifndef CERTIFICATE_H
#define CERTIFICATE_H
#include "reading.h"

/* The key that is certified: RAF_DONE, or why there is none. */
uint32_t certificate_read_key(raf_blob certificate, raf_blob *answer);

/* Writes when the window of a certificate begins that is not valid at that second, or when it was
 * over, with a zero after it; false where that can't be told, or the buffer is too short. */
bool certificate_write_window(raf_blob certificate, uint64_t unix_timestamp, char *buffer,
                              size_t length);

#endif
