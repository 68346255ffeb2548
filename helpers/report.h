/* What sshkey-check answers about a line or a file: in words on standard output, or as an object of
 * JSON in one line; and on standard error why it is refused. */
#ifndef REPORT_H
#define REPORT_H
#include "reading.h"
#include "unread.h"

/* The path that stands for standard input. */
#define REPORT_INPUT "(stdin)"

typedef struct {
  const char *path;     /* of the file that is asked about */
  size_t line;          /* its number there, from 1; 0 where the whole file is asked about */
  const char *by_path;  /* of the file that lets in or refuses; null where none does */
  size_t by_line;       /* 0 where no line does */
  uint32_t source;      /* RAF_SOURCE_* of that file, or what lets in without one; 0 else */
  const char *words;    /* what is said of it, where more is known than the answer says; or null */
  raf_span option;      /* for which that line is not read, or of no bytes */
  const char *message;  /* the path of what an SSH signature is asked of, or null */
  raf_blob certificate; /* what is shown, or of no bytes */
  unread_certificate unread; /* of which that is the readable one, where it has bytes */
  uint64_t unix_timestamp;
  uint32_t known_by; /* RAF_BY_.., of a host that shows a certificate and is known */
  bool is_key;     /* a key stands there, where a certificate is wanted */
  bool is_verdict; /* `refused` is said of what is */
  bool has_art;    /* a key is drawn, too */
  bool is_json;
} report;

/* Says that it is valid; and to what a grant lets in, if the client signs. */
void report_valid(const report *of);
void report_grant(report *of, const raf_grant *grant, const uint8_t *buffer);

/* Says that it is refused, and why. */
void report_refused(const report *of, uint32_t answer);

/* Says why alone. */
void report_complain(const report *of, uint32_t answer);

/* Shows the certificate, with that answer, which tells how it is signed: RAF_DONE, or why it
 * can't be shown. */
uint32_t report_certificate(const report *of, uint32_t said);

/* Shows the key, as show_key: likewise. */
uint32_t report_key(const report *of, raf_span key, raf_span comment);

#endif
