/* What OpenSSH's auth2-pubkey.c answers to a request of its method publickey, for checks/publickey. It stands on auth2-pubkeyfile.c,
 * auth-options.c and libssh.a; what these ask the rest of sshd for is here. A line of standard input is a question, its fields with
 * spaces between, in hexadecimal but for numbers:
 *
 *   the second, and the machine's time zone;
 *   of the request the user, the algorithm, the key or the certificate, the signature, the host key, which is empty where the method
 *   is publickey, and bits of the client's version (compat.h);
 *   the session's identifier, and the server's own host key;
 *   the texts of AuthorizedKeysFile, with commas between, where "!" cannot be opened; that of TrustedUserCAKeys; those of principals,
 *   the second of which AuthorizedPrincipalsCommand writes; that which AuthorizedKeysCommand writes; and that of RevokedKeys. "-" is
 *   none, and then it is not configured;
 *   RequiredRSASize, PubkeyAuthOptions (servconf.h has its bits), what is added to PubkeyAcceptedAlgorithms;
 *   the client's address, and its host, which is the address again if none was looked up.
 *
 * The answer has "y" where sshd says SSH_MSG_USERAUTH_PK_OK to the same without a signature, by the method publickey, or "n"; and then
 * what lets in, and to what, or "no". Texts become files here. */
#include "openssh_grants.h"
#include <setjmp.h>
#include "xmalloc.h"
#include "packet.h"
#include "kex.h"
#include "servconf.h"
#include "canohost.h"
#include "monitor_wrap.h"
#include "match.h"
#include "myproposal.h"
#include "ssh2.h"

#define sshpkt_get_u8(ssh, place) sshbuf_get_u8(request, place)
#define sshpkt_get_cstring(ssh, place, size) sshbuf_get_cstring(request, place, size)
#define sshpkt_get_string(ssh, place, size) sshbuf_get_string(request, place, size)
#define sshpkt_getb_froms(ssh, place) sshbuf_froms(request, place)
#define sshpkt_get_end(ssh) (sshbuf_len(request) ? SSH_ERR_UNEXPECTED_TRAILING_DATA : 0)
#define sshpkt_start(ssh, number) 0
#define sshpkt_put_cstring(ssh, text) 0
#define sshpkt_put_string(ssh, bytes, size) 0
#define sshpkt_send(ssh) 0
#define ssh_packet_write_wait(ssh) 0
#define auth_openkeyfile(name, user, is_strict) open_text(name)
#define auth_openprincipals(name, user, is_strict) open_text(name)
#define getpwnam(name) &account
#define subprocess(tag, command, count, words, output, ...) run_command(tag, output)
#define exited_cleanly(...) 0

static struct sshbuf *request;
static struct passwd account;

static FILE *open_text(const char *);
static pid_t run_command(const char *, FILE **);

#include "auth2-pubkey.c"

#define KEYS "keys"
#define PRINCIPALS "principals"
#define COMMAND "command0"
/* at most so many texts of a kind */
#define MOST 4
/* sshd opens no such file */
#define UNREADABLE "!"

ServerOptions options;
int use_privsep;
/* 9.2 has none, and no other is asked for it */
#pragma weak methodcfg_pubkey

/* where the session ends that sshd ends */
static jmp_buf ended;
/* the last line of a text for somebody, and the last that let in */
static char principal[256], place[256];
/* the certificate that is offered, if it is one */
static struct sshkey *offered;
static int is_shown;

/* ---- what they ask sshd for */

void cleanup_exit(int status) {
    longjmp(ended, 1);
}

void temporarily_use_uid(struct passwd *user) {
}

void restore_uid(void) {
}

int auth2_key_already_used(Authctxt *context, const struct sshkey *key) {
    return 0;
}

void auth2_record_key(Authctxt *context, int is_authenticated, const struct sshkey *key) {
}

void auth2_record_info(Authctxt *context, const char *form, ...) {
}

const char *auth_get_canonical_hostname(struct ssh *ssh, int use_dns) {
    return ssh->app_data;
}

char *expand_authorized_keys(const char *name, struct passwd *user) {
    return xstrdup(name);
}

char *authorized_principals_file(struct passwd *user) {
    return options.authorized_principals_file ? xstrdup(options.authorized_principals_file) : NULL;
}

/* As auth.c: what goes wrong revokes. */
int auth_key_is_revoked(struct sshkey *key) {
    return options.revoked_keys_file && sshkey_check_revoked(key, options.revoked_keys_file) != 0;
}

int mm_user_key_allowed(struct ssh *ssh, struct passwd *user, struct sshkey *key, int is_attempt, struct sshauthopt **found) {
    return user_key_allowed(ssh, user, key, is_attempt, found);
}

int mm_sshkey_verify(const struct sshkey *key, const u_char *signature, size_t size, const u_char *data, size_t length,
    const char *algorithm, u_int compatibility, struct sshkey_sig_details **details) {
    return sshkey_verify(key, signature, size, data, length, algorithm, compatibility, details);
}

/* It is called where the login is let in. */
int auth_activate_options(struct ssh *ssh, struct sshauthopt *grant) {
    printf("%s", place);
    show_grant(grant);
    if (sshkey_is_cert(offered))
        show_certificate(offered);
    is_shown = 1;
    return 0;
}

static FILE *open_text(const char *name) {
    return strchr(name, *UNREADABLE) ? NULL : fopen(name, "r");
}

static pid_t run_command(const char *tag, FILE **output) {
    *output = fopen(strcmp(tag, "AuthorizedKeysCommand") == 0 ? COMMAND : PRINCIPALS "1", "r");
    return *output != NULL;
}

/* Which text lets in stands in what sshd logs alone. */
static void hear(LogLevel level, int is_forced, const char *message, void *context) {
    const char *found;
    if (strncmp(message, "Accepted ", 9) == 0 && (found = strstr(message, " found at ")))
        snprintf(place, sizeof place, "%s", found + strlen(" found at "));
    else if (strncmp(message, "Accepted certificate ", 21) == 0)
        snprintf(place, sizeof place, "%s", *principal ? principal : "authority");
    else if ((found = strstr(message, ": matched principal ")))
        snprintf(principal, sizeof principal, "%.*s", (int)(found - message), message);
    if (strncmp(principal, "(command)", 9) == 0) {
        char line[64];
        snprintf(line, sizeof line, "%s", principal + 9);
        snprintf(principal, sizeof principal, PRINCIPALS "1%s", line);
    }
}

/* ---- a question */

static struct sshbuf *next_bytes(char **line) {
    size_t size;
    char *bytes = next_field(line, &size);
    return sshbuf_from(bytes, size);
}

/* Writes the next texts to files, and their names; how many there are, or -1 where they are not configured. */
static int next_texts(char **line, const char *name, char **names) {
    char *texts = strsep(line, " "), *text;
    int count = 0;
    if (strcmp(texts, "-") == 0)
        return -1;
    while ((text = strsep(&texts, ",")) && count < MOST) {
        int is_unreadable = strcmp(text, UNREADABLE) == 0;
        size_t size;
        char *bytes = is_unreadable ? (size = 0, "") : next_field(&text, &size);
        xasprintf(&names[count], "%s%s%d", is_unreadable ? UNREADABLE : "", name, count);
        write_file(names[count++], bytes, size);
    }
    return count;
}

static void configure(char **line) {
    char *names[MOST];
    int count = next_texts(line, KEYS, names);
    memset(&options, 0, sizeof options);
    options.fingerprint_hash = SSH_DIGEST_SHA256;
    options.ca_sign_algorithms = SSH_ALLOWED_CA_SIGALGS;
    for (options.num_authkeys_files = 0; (int)options.num_authkeys_files < count; options.num_authkeys_files++) {
        options.authorized_keys_files = xreallocarray(options.authorized_keys_files, MOST, sizeof *names);
        options.authorized_keys_files[options.num_authkeys_files] = names[options.num_authkeys_files];
    }
    if (next_texts(line, "authorities", names) > 0)
        options.trusted_user_ca_keys = names[0];
    count = next_texts(line, PRINCIPALS, names);
    if (count > 0)
        options.authorized_principals_file = names[0];
    if (count > 1)
        options.authorized_principals_command = "command";
    if (next_texts(line, "command", names) > 0)
        options.authorized_keys_command = COMMAND;
    options.authorized_keys_command_user = options.authorized_principals_command_user = "user";
    if (next_texts(line, REVOKED, names) > 0)
        options.revoked_keys_file = names[0];
    options.required_rsa_size = atoi(strsep(line, " "));
    options.pubkey_auth_options = atoi(strsep(line, " "));
    char *added = next_text(line);
    xasprintf(&options.pubkey_accepted_algos, "%s%s%s", KEX_DEFAULT_PK_ALG, *added ? "," : "", added);
}

/* What a client sends. */
struct sent {
    struct sshbuf *algorithm, *key, *signature, *host;
};

/* Whether sshd lets in, or says to a request without a signature that it would. */
static int is_accepted(struct ssh *ssh, Authctxt *context, const struct sent *sent, int is_signed) {
    int is_bound = is_signed && sshbuf_len(sent->host);
    const char *method = is_bound ? "publickey-hostbound-v00@openssh.com" : "publickey";
    request = sshbuf_new();
    sshbuf_put_u8(request, is_signed);
    sshbuf_put_stringb(request, sent->algorithm);
    sshbuf_put_stringb(request, sent->key);
    if (is_bound)
        sshbuf_put_stringb(request, sent->host);
    if (is_signed)
        sshbuf_put_stringb(request, sent->signature);
    context->postponed = 0;
    *principal = *place = 0;
    if (setjmp(ended))
        return 0;
    return userauth_pubkey(ssh, method) == 1 || context->postponed;
}

static void answer(char *line) {
    char *second = strsep(&line, " ");
    set_time(second, next_text(&line));
    char *user = next_text(&line), *style = strchr(user, ':');
    struct sent sent;
    sent.algorithm = next_bytes(&line);
    sent.key = next_bytes(&line);
    sent.signature = next_bytes(&line);
    sent.host = next_bytes(&line);
    /* as auth2.c, which reads them before any method */
    if (style)
        *style++ = 0;
    account.pw_name = user;
    Authctxt context = {.valid = 1, .user = user, .style = style, .service = "ssh-connection", .pw = &account};
    struct kex kex = {0};
    struct ssh ssh = {.kex = &kex, .authctxt = &context, .rdomain_in = "", .local_ipaddr = "192.0.2.1"};
    ssh.compat = atoi(strsep(&line, " "));
    kex.session_id = next_bytes(&line);
    sshkey_fromb(next_bytes(&line), &kex.initial_hostkey);
    configure(&line);
    ssh.remote_ipaddr = next_text(&line);
    ssh.app_data = next_text(&line);
    is_shown = 0;
    offered = NULL;
    sshkey_from_blob(sshbuf_ptr(sent.key), sshbuf_len(sent.key), &offered);
    printf("%s ", is_accepted(&ssh, &context, &sent, 0) ? "y" : "n");
    int is_in = is_accepted(&ssh, &context, &sent, 1);
    puts(is_in == is_shown ? (is_in ? "" : "no") : "cannot be told");
    fflush(stdout);
}

int main(void) {
    char *line = NULL;
    size_t room = 0;
    log_init("openssh_publickey", SYSLOG_LEVEL_DEBUG3, SYSLOG_FACILITY_USER, 1);
    set_log_handler(hear, NULL);
    while (getline(&line, &room, stdin) > 0) {
        line[strcspn(line, "\n")] = 0;
        answer(line);
    }
    return 0;
}
