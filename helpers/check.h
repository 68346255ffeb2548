/* What sshkey-check is asked, and the parts that answer it. */
#ifndef CHECK_H
#define CHECK_H
#include "program.h"
#include "report.h"
#include "sshsig.h"

enum { VALID = 0, INVALID = 1, UNTOLD = 2 };

/* The options of the words; the last is how many there are. */
typedef enum {
  CHECK_CA,
  CHECK_USER,
  CHECK_FROM,
  CHECK_HOST,
  CHECK_PORT,
  CHECK_KNOWN_HOSTS,
  CHECK_AUTHORIZED_KEYS,
  CHECK_AUTHORITIES,
  CHECK_PRINCIPALS,
  CHECK_USER_AUTHORITIES,
  CHECK_COMMAND_KEYS,
  CHECK_KEYS,
  CHECK_SIGNERS,
  CHECK_IDENTITY,
  CHECK_NAMESPACE,
  CHECK_SIGNATURE,
  CHECK_REVOKED,
  CHECK_AT,
  CHECK_ART,
  CHECK_JSON,
  CHECK_TIME,
  CHECK_OPTIONS
} check_option;

/* What the words ask. */
typedef enum {
  CHECK_SHOW,        /* what certificates say */
  CHECK_CERTIFICATE, /* whether they log a user in */
  CHECK_HOST_KEY,    /* whether keys or certificates are a host's */
  CHECK_LOGIN,       /* whether a key or a certificate logs a user in */
  CHECK_VERIFY,      /* whether an SSH signature counts by keys */
  CHECK_SIGNER,      /* whether it does by a file of allowed signers */
  CHECK_FIND,        /* who may have made one, by such a file, in the words of ssh-keygen -Y */
  CHECK_KEYGEN,      /* whether it counts by such a file, likewise */
  CHECK_UNKNOWN,     /* whether it is one by its own key, likewise */
  CHECK_FINGERPRINT, /* the fingerprints of keys */
  CHECK_REVOCATIONS  /* whether revocation files can be read */
} check_mode;

typedef struct {
  check_mode mode;
  const char *given[CHECK_OPTIONS]; /* the value of an option, null where it is not given */
  const char *path;                 /* of what is asked about; null for standard input */
  char **paths;                     /* of the files where several are asked about */
  int path_count;
  const char *user; /* who logs in */
  program_files known_hosts, revoked, authorized_keys, principals, command_keys;
  raf_authorities by;
  raf_signers allowed;
  uint8_t address[16];
  size_t address_length;
  uint64_t second, port_number;
  size_t count; /* of the lines that are answered */
  bool is_valid;
  bool is_untold; /* a line of the keys is none */
} check_request;

extern const char check_help[];

/* Reads the words; false, with a word to standard error, where they ask nothing. */
bool check_read_words(int count, char **words, check_request *asked);

/* Whether it can't tell: nothing follows of what is asked about. */
bool check_can_not_tell(uint32_t answer);

/* Says which of the revocation files can't be read, where that is the answer; false else. */
bool check_name_unread(const program_files *revoked, uint32_t answer);

/* A report about a line of what is asked about. */
report check_report(const check_request *asked, size_t number);

/* Answers what is asked about each line of the text, and returns the program's status. */
int check_text(raf_blob text, check_request *asked);

/* Answers what is asked about the SSH signature in the armour of the text, of what is left of the
 * file, and returns the program's status. */
int check_signature(raf_blob text, FILE *file, const check_request *asked);

/* Reads the certificate of a line, or else its key, which it says: RAF_DONE, or why there is
 * none. */
uint32_t check_read_shown(const char *line, size_t length, raf_blob *shown,
                          bool *is_certificate);

/* Shows the fingerprint of the key of a line: RAF_DONE, or why it can't tell. */
program_line check_fingerprint;

/* Answers about a key or a certificate of the report that shall log the user in: says to what it
 * does, or tells the report which line refuses. */
uint32_t check_login(raf_span shown, report *of, const check_request *asked);

/* Tells the report of the first line of a text of authorized_keys that has the login's key, or that
 * of its certificate's authority, and an option that sshd does not read, where no line lets it in;
 * false where it finds none. */
bool check_find_option(raf_span text, const raf_login *login, report *of);

#endif
