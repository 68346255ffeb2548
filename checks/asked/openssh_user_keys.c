/* What OpenSSH's auth2-pubkeyfile.c and auth-options.c answer, for checks/user-keys. A line of standard input is a question, its
 * fields with spaces between: "line" or "principals", the second, and in hexadecimal the machine's time zone, the text of
 * authorized_keys or of a file of principals, the user, the line of the offered key or certificate, that of the authority of
 * TrustedUserCAKeys, the client's address, its host, which is the address again if none was looked up, and the lines of what is
 * revoked, for which it writes a file here. */
#include "openssh_grants.h"

/* the last line of the text that let in */
static unsigned long line_number;

/* The number of a line stands in what sshd logs alone. */
static void hear(LogLevel level, int is_forced, const char *message, void *context) {
    if (strncmp(message, "Accepted ", 9) == 0)
        line_number = strtoul(strrchr(message, ':') + 1, NULL, 10);
    else if (strstr(message, ": matched principal "))
        line_number = strtoul(strchr(message, ':') + 1, NULL, 10);
}

static struct sshkey *key_of(char *line) {
    struct sshkey *key = sshkey_new(KEY_UNSPEC);
    if (sshkey_read(key, &line) == 0)
        return key;
    sshkey_free(key);
    return NULL;
}

static int is_revoked(struct sshkey *key, const char *lines) {
    write_file(REVOKED, lines, strlen(lines));
    if (sshkey_check_revoked(key, REVOKED) != 0)
        return 1;
    return sshkey_is_cert(key) && sshkey_check_revoked(key->cert->signature_key, REVOKED) != 0;
}

/* As sshd asks where it has a file of principals (auth2-pubkey.c). */
static int by_principals(struct passwd *user, FILE *text, struct sshkey *key, struct sshkey *authority, const char *address,
    const char *host, struct sshauthopt **found) {
    struct sshauthopt *said = NULL, *certified = NULL;
    const char *reason = NULL;
    if (!sshkey_is_cert(key) || !sshkey_equal(key->cert->signature_key, authority))
        return 0;
    if (!auth_process_principals(text, "text", key->cert, &said) || sshkey_cert_check_authority_now(key, 0, 1, 0, NULL, &reason) != 0)
        return 0;
    if (!(certified = sshauthopt_from_cert(key)) || auth_authorise_keyopts(user, certified, 0, address, host, "certificate") != 0)
        return 0;
    if (auth_authorise_keyopts(user, said, 0, address, host, "principals") != 0)
        return 0;
    *found = sshauthopt_merge(said, certified, &reason);
    return *found != NULL;
}

static void answer(char *line) {
    int is_by_principals = strcmp(strsep(&line, " "), "principals") == 0, is_in = 0;
    char *second = strsep(&line, " ");
    set_time(second, next_text(&line));
    size_t size;
    char *text = next_field(&line, &size), *name = next_text(&line);
    struct passwd user = {.pw_name = name};
    struct sshkey *key = key_of(next_text(&line)), *authority = key_of(next_text(&line));
    char *address = next_text(&line), *host = next_text(&line);
    struct sshauthopt *grant = NULL;
    /* fmemopen(3) refuses a text without a byte */
    FILE *file = fmemopen(size ? text : "\n", size ? size : 1, "r");
    if (key && !is_revoked(key, next_text(&line)))
        is_in = is_by_principals ? by_principals(&user, file, key, authority, address, host, &grant)
                                 : auth_check_authkeys_file(&user, file, "text", key, address, host, &grant);
    if (is_in) {
        printf("%lu", line_number);
        show_grant(grant);
        if (sshkey_is_cert(key))
            show_certificate(key);
        puts("");
    } else {
        puts("no");
    }
    fclose(file);
}

int main(void) {
    char *line = NULL;
    size_t room = 0;
    log_init("openssh_user_keys", SYSLOG_LEVEL_DEBUG3, SYSLOG_FACILITY_USER, 1);
    set_log_handler(hear, NULL);
    while (getline(&line, &room, stdin) > 0) {
        line[strcspn(line, "\n")] = 0;
        answer(line);
    }
    return 0;
}
