/* A login, as the programs ask about it. */
#ifndef GRANTED_H
#define GRANTED_H
#include "reading.h"

/* What a login is answered: a grant and its parts, or the line and the text for which it is
 * refused. */
typedef struct {
  raf_grant grant;
  uint8_t *buffer; /* of malloc */
} granted_login;

/* Whether somebody logs in: raf_verify_login, in a buffer that is long enough. */
uint32_t granted_ask(const raf_login *login, granted_login *answer);

/* Why nothing lets in what the login offers, where RAF_USER_NOT_LISTED is the answer, in words:
 * that its authority is another one, that it lists others or nobody, or that no line is for it;
 * null where more than one may be the reason. */
const char *granted_unlisted_words(const raf_login *login, bool is_certificate);

#endif
