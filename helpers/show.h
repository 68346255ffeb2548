/* What keys, certificates and grants say, as `ssh-keygen -l` and `-L` show it. Texts are printed by
 * text_print. */
#ifndef SHOW_H
#define SHOW_H
#include "reading.h"
#include "unread.h"

/* The device of tun(4) by which a grant is bound to no one device. */
#define SHOW_ANY_DEVICE 0x7fffffff

/* The text of a fingerprint; RAF_DONE, or why the bytes are no key. */
typedef struct {
  uint8_t text[RAF_FINGERPRINT_TEXT];
} show_fingerprint;
uint32_t show_read_fingerprint(raf_span key, show_fingerprint *answer);

static inline raf_span show_fingerprint_of(const show_fingerprint *it) {
  return (raf_span){it->text, sizeof it->text};
}

/* The random art of a key, likewise. Its header is ssh-keygen's, of at most so many characters. */
#define SHOW_ART_HEADER 16
typedef struct {
  uint8_t text[RAF_RANDOM_ART_TEXT + SHOW_ART_HEADER];
  size_t length;
} show_art;
uint32_t show_read_art(raf_span key, bool is_certified, show_art *answer);

/* Prints the kind of a key, that ending, and its fingerprint: likewise. */
uint32_t show_named_key(raf_span key, const char *ending);

/* Prints the bits and the fingerprint of a key, its comment and its kind, as one line: likewise. */
uint32_t show_key(raf_span key, bool is_certified, raf_span comment);

/* Prints what a certificate says, if it is one: RAF_DONE, or why it is none. It is shown as
 * signed by the algorithm of that name, or, where that is null, by the one in it. It may be the
 * readable one of another, which is shown, or of null. */
uint32_t show_certificate(raf_blob certificate, const char *signed_by,
                          const unread_certificate *own);

/* The name of the algorithm by which the certificate is signed: its last string begins with it. */
raf_span show_algorithm(raf_blob certificate, const raf_parts *parts);

/* What a grant may permit, in words; the last has none. */
typedef struct {
  const char *words;
  uint32_t bit;
} show_permission;
extern const show_permission show_permissions[];

/* Prints by which line of the file of that path a login is let in, if by one, what it may do, and,
 * where it is by a certificate, by which. */
void show_grant(const raf_grant *grant, const uint8_t *buffer, const char *path, bool is_certified);

#endif
