/* What the programs of OpenSSH's own code share, for checks/user-keys and checks/publickey: the fields of a question, what that code
 * asks sshd for, and how a grant is shown. */
#ifndef OPENSSH_GRANTS_H
#define OPENSSH_GRANTS_H
#include "includes.h"
#include <pwd.h>
#include <stdarg.h>
#include <stdio.h>
#include <stdlib.h>
#include <string.h>
#include <time.h>
#include "log.h"
#include "sshbuf.h"
#include "digest.h"
#include "sshkey.h"
#include "ssherr.h"
#include "misc.h"
#include "hostfile.h"
#include "auth.h"
#include "auth-options.h"
#include "authfile.h"

#define REVOKED "revoked"

static time_t now;

/* what they ask sshd for */
time_t time(time_t *place) {
    if (place)
        *place = now;
    return now;
}

void auth_debug_add(const char *form, ...) {
}

void auth_log_authopts(const char *place, const struct sshauthopt *options, int remote) {
}

int sshsk_sign(const char *provider, struct sshkey *key, u_char **signature, size_t *size, const u_char *data, size_t length,
    const char *algorithm, u_int compatibility, const char *pin) {
    return SSH_ERR_FEATURE_UNSUPPORTED;
}

static char *next_field(char **line, size_t *size) {
    char *digits = strsep(line, " "), *text = calloc(strlen(digits) / 2 + 1, 1);
    for (*size = 0; digits[2 * *size]; ++*size) {
        const char both[] = {digits[2 * *size], digits[2 * *size + 1], 0};
        text[*size] = (char)strtoul(both, NULL, 16);
    }
    return text;
}

static char *next_text(char **line) {
    size_t size;
    return next_field(line, &size);
}

/* The file of that name, with these bytes. A new one: some file systems write one that is cut off to their disk at once. */
static void write_file(const char *name, const char *bytes, size_t size) {
    remove(name);
    FILE *file = fopen(name, "w");
    fwrite(bytes, 1, size, file);
    fclose(file);
}

static void set_time(char *second, const char *zone) {
    now = atoll(second);
    setenv("TZ", zone, 1);
    tzset();
}

static void show(const char *text) {
    for (; *text; text++)
        printf("%02x", (unsigned char)*text);
}

static void show_permits(const char *name, char **all, size_t count) {
    printf(" %s=", name);
    for (size_t at = 0; at < count; at++) {
        char *rest = strdup(all[at]), *host = cleanhostname(hpdelim2(&rest, NULL));
        printf("%s", at ? "," : "");
        show(host);
        if (strcmp(rest, "*") == 0)
            printf("/*");
        else
            printf("/%d", a2port(rest));
    }
}

static void show_grant(const struct sshauthopt *grant) {
    printf(" command=%s", grant->force_command ? "x" : "");
    if (grant->force_command)
        show(grant->force_command);
    printf(" may=%s%s%s%s%s", grant->permit_port_forwarding_flag ? "p" : "", grant->permit_agent_forwarding_flag ? "a" : "",
        grant->permit_x11_forwarding_flag ? "x" : "", grant->permit_pty_flag ? "t" : "", grant->permit_user_rc ? "r" : "");
    show_permits("open", grant->permitopen, grant->npermitopen);
    show_permits("listen", grant->permitlisten, grant->npermitlisten);
    printf(" environment=");
    for (size_t at = 0; at < grant->nenv; at++) {
        printf("%s", at ? "," : "");
        show(grant->env[at]);
    }
    printf(" tunnel=");
    if (grant->force_tun_device != -1)
        printf("%d", grant->force_tun_device);
    printf(" asks=%s%s until=", grant->no_require_user_presence ? "" : "t", grant->require_verify ? "v" : "");
    if (grant->valid_before)
        printf("%llu", (unsigned long long)grant->valid_before);
}

static void show_certificate(const struct sshkey *key) {
    char *authority = sshkey_fingerprint(key->cert->signature_key, SSH_DIGEST_SHA256, SSH_FP_BASE64);
    printf(" serial=%llu id=", (unsigned long long)key->cert->serial);
    show(key->cert->key_id);
    printf(" authority=%s", authority);
}

#endif
