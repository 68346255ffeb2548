/* What OpenSSH's addr.c, addrmatch.c and match.c answer, for checks/addresses. A line of standard input is a question, its fields
 * in hexadecimal with spaces between: S LIST ADDRESS about a certificate's source-address, or F LIST ADDRESS HOST about from= of
 * authorized_keys, where HOST is the address again if none was looked up. */
#include "includes.h"
#include "match.h"

char *xstrdup(const char *text) {
    char *copy = strdup(text);
    if (!copy)
        abort();
    return copy;
}

void lowercase(char *text) {
    for (; *text; text++)
        *text = tolower((unsigned char)*text);
}

static char *next_field(char **line) {
    char *digits = strsep(line, " "), *text = calloc(strlen(digits) / 2 + 1, 1);
    for (size_t at = 0; digits[at]; at += 2) {
        unsigned byte;
        sscanf(digits + at, "%2x", &byte);
        text[at / 2] = (char)byte;
    }
    return text;
}

/* As sshd asks: without an address when it reads the certificate, and then with the client's. */
static int source_address(const char *list, const char *address) {
    int found = addr_match_cidr_list(NULL, list);
    return found < 0 ? found : addr_match_cidr_list(address, list);
}

int main(void) {
    char *line = NULL;
    size_t room = 0;
    while (getline(&line, &room, stdin) > 0) {
        line[strcspn(line, "\n")] = 0;
        char *rest = line, *kind = strsep(&rest, " "), *list = next_field(&rest), *address = next_field(&rest);
        int found = *kind == 'S' ? source_address(list, address) : match_host_and_ip(next_field(&rest), address, list);
        puts(found == 1 ? "in" : found == 0 ? "out" : "malformed");
    }
    return 0;
}
