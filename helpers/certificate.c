#include "certificate.h"

#include <stdlib.h>
#include <string.h>
#include <time.h>

uint32_t certificate_read_key(raf_blob certificate, raf_blob *answer) {
  /* a buffer as long as the certificate is enough */
  raf_blob key = {calloc(1, certificate.length), 0};
  if (!key.bytes) return RAF_MEMORY;
  uint32_t status = raf_certificate_key(certificate.bytes, certificate.length, key.bytes,
                                        certificate.length, &key.length);
  if (status == RAF_DONE)
    *answer = key;
  else
    free(key.bytes);
  return status;
}

bool certificate_write_window(raf_blob certificate, uint64_t unix_timestamp, char *buffer,
                              size_t length) {
  raf_fields fields;
  struct tm parts;
  memset(&fields, 0, sizeof fields);
  if (raf_certificate_fields(raf_bytes(certificate.bytes), certificate.length, &fields) !=
      RAF_DONE)
    return false;
  bool is_early = unix_timestamp < fields.valid_after;
  uint64_t second = is_early ? fields.valid_after : fields.valid_before;
  time_t when = (time_t)second;
  return second <= INT64_MAX && gmtime_r(&when, &parts) &&
         strftime(buffer, length, is_early ? "its time begins at %Y-%m-%dT%H:%M:%SZ"
                                         : "its time was over at %Y-%m-%dT%H:%M:%SZ", &parts);
}
