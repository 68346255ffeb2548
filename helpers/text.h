/* Texts of certificates and lines, which somebody else wrote, as programs print them: for a
 * terminal, or as members of an object of JSON, which is one line. */
#ifndef TEXT_H
#define TEXT_H
#include <stdbool.h>
#include "rafendilo.h"

/* A part of those bytes; and the first of the strings that they are, which may have no bytes. */
raf_span text_part(const uint8_t *bytes, raf_part part);
raf_span text_first_string(raf_span bytes);

bool text_is(raf_span it, const char *text);

/* Prints a text with three octal digits, after a backslash, for each byte of what may not stand in
 * a line: a control character, a mark that turns or breaks a text, a backslash, or no UTF-8. */
void text_print(raf_span text);

/* The same to standard error, but for backslashes, which may stand there for such a byte. */
void text_complain(raf_span text);

/* Begins an object, with the path of a file, and ends it. */
void json_begin(const char *path);
void json_end(void);

/* Prints a member of that name. Of bytes that are no UTF-8 the member has U+FFFD in place of each
 * that is none, and one beside it, NAME_base64, has them all. */
void json_text(const char *name, raf_span text);
void json_words(const char *name, const char *words);
void json_number(const char *name, uint64_t number);
void json_flag(const char *name, bool flag);
void json_null(const char *name);

/* The same of a member whose value is printed next: a list, with json_string and the like for what
 * stands in it. */
void json_name(const char *name);
void json_string(raf_span text);

#endif
