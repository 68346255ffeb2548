/* The words of sshkey-check. */
#include <getopt.h>
#include <limits.h>
#include <string.h>

#include "check.h"

#define SHOW "sshkey-check [--json] [FILE]"
#define CERTIFICATE                                                                       \
  "sshkey-check --ca FILE --user NAME [--from ADDRESS] [--at TIME] [--revoked FILE].. " \
  "[--json] [FILE]"
#define HOST_KEY                                                                               \
  "sshkey-check --host NAME [--port NUMBER] --known-hosts FILE.. [--at TIME] [--revoked FILE]" \
  ".. [--json] [FILE]"
#define LOGIN                                                                               \
  "sshkey-check login NAME KEY [--authorized-keys FILE].. [--authorities FILE [--principals " \
  "FILE]..] [--user-authorities FILE] [--command-keys FILE] [--from ADDRESS] [--host NAME] "  \
  "[--at TIME] [--revoked FILE].. [--json]"
#define VERIFY "sshkey-check verify -k KEYS -n NAMESPACE -s SIGNATURE [--json] [FILE]"
#define SIGNER                                                                           \
  "sshkey-check verify -f SIGNERS -I IDENTITY -n NAMESPACE -s SIGNATURE [-r REVOKED].. " \
  "[--at TIME] [--json] [FILE]"
#define FINGERPRINT "sshkey-check fingerprint [--art] [--json] [FILE].."
#define REVOCATIONS "sshkey-check revoked [--json] [FILE].."
#define FIND "sshkey-check -Y find-principals -f SIGNERS -s SIGNATURE [-O verify-time=TIME]"
#define KEYGEN                                                                           \
  "sshkey-check -Y verify -f SIGNERS -I IDENTITY -n NAMESPACE -s SIGNATURE [-r REVOKED].. " \
  "[-O verify-time=TIME]"
#define UNKNOWN \
  "sshkey-check -Y check-novalidate -n NAMESPACE -s SIGNATURE [-O verify-time=TIME]"

const char check_help[] =
    "usage: " SHOW "\n       " CERTIFICATE "\n       " HOST_KEY "\n       " LOGIN
    "\n       " VERIFY "\n       " SIGNER "\n       " FINGERPRINT "\n       " REVOCATIONS
    "\n       " FIND "\n       " KEYGEN "\n       " UNKNOWN "\n"
    "\n"
    "The first shows each certificate of FILE, or of standard input, as ssh-keygen -L does. The\n"
    "second says of each whether it logs NAME in by an authority of the file, and to what, if\n"
    "the client signs, from that address, at that second since 1970 or date\n"
    "(YYYYMMDD[HHMM[SS]]Z), or else now. The third says of each, or of a key, whether it is that\n"
    "of the host, by all the files of known_hosts. The fourth says whether the key or the\n"
    "certificate of the file KEY logs NAME in, and to what, if the client signs, or which line\n"
    "refuses it: by the files of authorized_keys, then by the authorities, by the principals of\n"
    "files if some are given, or by the authorities of a file of sshkey-principals, and then by\n"
    "what AuthorizedKeysCommand wrote. The fifth says whether the signature of\n"
    "ssh-keygen -Y sign is one of FILE in the namespace by a key of the file KEYS, and the sixth\n"
    "whether it is the identity's by the file of allowed signers, as ssh-keygen -Y verify does.\n"
    "The seventh shows the SHA-256 fingerprint of each key, and with --art draws it. The eighth\n"
    "says whether what is revoked can be read. The last are ssh-keygen's own words, for git's\n"
    "gpg.ssh.program. With --json each answer is an object in a line.\n"
    "Status 0: all is shown, or valid; 1: not all, as standard error says; 2: it can't tell.\n";

/* The options as they are written, and what follows them, if anything does. */
static const struct {
  const char *name, *value;
  char letter; /* by which verify takes it too; 0 for none */
} options[] = {[CHECK_CA] = {"--ca", "FILE"},
               [CHECK_USER] = {"--user", "NAME"},
               [CHECK_FROM] = {"--from", "ADDRESS"},
               [CHECK_HOST] = {"--host", "NAME"},
               [CHECK_PORT] = {"--port", "NUMBER"},
               [CHECK_KNOWN_HOSTS] = {"--known-hosts", "FILE"},
               [CHECK_AUTHORIZED_KEYS] = {"--authorized-keys", "FILE"},
               [CHECK_AUTHORITIES] = {"--authorities", "FILE"},
               [CHECK_PRINCIPALS] = {"--principals", "FILE"},
               [CHECK_USER_AUTHORITIES] = {"--user-authorities", "FILE"},
               [CHECK_COMMAND_KEYS] = {"--command-keys", "FILE"},
               [CHECK_KEYS] = {"--keys", "KEYS", 'k'},
               [CHECK_SIGNERS] = {"--signers", "SIGNERS", 'f'},
               [CHECK_IDENTITY] = {"--identity", "IDENTITY", 'I'},
               [CHECK_NAMESPACE] = {"--namespace", "NAMESPACE", 'n'},
               [CHECK_SIGNATURE] = {"--signature", "SIGNATURE", 's'},
               [CHECK_REVOKED] = {"--revoked", "FILE", 'r'},
               [CHECK_AT] = {"--at", "TIME"},
               [CHECK_ART] = {"--art", NULL},
               [CHECK_JSON] = {"--json", NULL},
               [CHECK_TIME] = {"--option", "verify-time=TIME", 'O'}};

/* what getopt_long takes: with the sign in front it gives words where they stand, as that option */
static const char letters[] = "-:k:n:s:f:I:r:O:";
enum { IS_WORD = 1 };

#define ONE(option) (1u << CHECK_##option)
#define OF_SIGNATURES (ONE(NAMESPACE) | ONE(SIGNATURE))
/* what may let somebody in */
#define SOURCES \
  (ONE(AUTHORIZED_KEYS) | ONE(AUTHORITIES) | ONE(USER_AUTHORITIES) | ONE(COMMAND_KEYS))

/* What each question is called in a complaint, if it has a name; which options it needs, and which
 * it also takes; and how it is asked. */
static const struct {
  const char *name;
  unsigned needs, takes;
  const char *usage;
} questions[] = {
    [CHECK_SHOW] = {NULL, 0, ONE(JSON), SHOW},
    [CHECK_CERTIFICATE] = {NULL, ONE(CA) | ONE(USER),
                           ONE(FROM) | ONE(AT) | ONE(REVOKED) | ONE(JSON), CERTIFICATE},
    [CHECK_HOST_KEY] = {NULL, ONE(HOST) | ONE(KNOWN_HOSTS),
                        ONE(PORT) | ONE(AT) | ONE(REVOKED) | ONE(JSON), HOST_KEY},
    [CHECK_LOGIN] = {"login", 0,
                     SOURCES | ONE(PRINCIPALS) | ONE(FROM) | ONE(HOST) | ONE(AT) | ONE(REVOKED) |
                         ONE(JSON), LOGIN},
    [CHECK_VERIFY] = {"verify", ONE(KEYS) | OF_SIGNATURES, ONE(JSON), VERIFY},
    [CHECK_SIGNER] = {"verify", ONE(SIGNERS) | ONE(IDENTITY) | OF_SIGNATURES,
                      ONE(REVOKED) | ONE(AT) | ONE(JSON), SIGNER},
    [CHECK_FIND] = {"find-principals", ONE(SIGNERS) | ONE(SIGNATURE), ONE(TIME), FIND},
    [CHECK_KEYGEN] = {"verify", ONE(SIGNERS) | ONE(IDENTITY) | OF_SIGNATURES,
                      ONE(REVOKED) | ONE(TIME), KEYGEN},
    [CHECK_UNKNOWN] = {"check-novalidate", OF_SIGNATURES, ONE(TIME), UNKNOWN},
    [CHECK_REVOCATIONS] = {"revoked", 0, ONE(JSON), REVOCATIONS},
    [CHECK_FINGERPRINT] = {"fingerprint", 0, ONE(ART) | ONE(JSON), FINGERPRINT}};

/* ---- what the words give */

/* Whether the words are those of ssh-keygen -Y. */
static bool is_keygen(check_mode mode) {
  return mode == CHECK_FIND || mode == CHECK_KEYGEN || mode == CHECK_UNKNOWN;
}

/* The number by which getopt_long gives an option, and the option of a number. */
static int number_of(int option) {
  return options[option].letter ? options[option].letter : UCHAR_MAX + 1 + option;
}

static check_option option_of(int number) {
  int at = 0;
  while (number_of(at) != number) at++;
  return (check_option)at;
}

/* The files that an option names; null where it names none, or is asked otherwise. */
static program_files *files_of(check_option option, check_request *asked) {
  return option == CHECK_REVOKED           ? &asked->revoked
         : option == CHECK_KNOWN_HOSTS     ? &asked->known_hosts
         : option == CHECK_AUTHORIZED_KEYS ? &asked->authorized_keys
         : option == CHECK_PRINCIPALS      ? &asked->principals
         : option == CHECK_COMMAND_KEYS    ? &asked->command_keys
                                           : NULL;
}

/* What a word says that is asked, and one behind -Y; CHECK_SHOW where it is a file's name. */
static check_mode mode_of(const char *word) {
  return !strcmp(word, "login")         ? CHECK_LOGIN
         : !strcmp(word, "verify")      ? CHECK_VERIFY
         : !strcmp(word, "fingerprint") ? CHECK_FINGERPRINT
         : !strcmp(word, "revoked")     ? CHECK_REVOCATIONS
                                        : CHECK_SHOW;
}

static check_mode keygen_mode_of(const char *word) {
  return !strcmp(word, "find-principals") ? CHECK_FIND
         : !strcmp(word, "verify")        ? CHECK_KEYGEN
                                          : CHECK_UNKNOWN;
}

/* Takes an option; false, which is said, where it was given. */
static bool take_option(check_option option, const char *value, check_request *asked) {
  program_files *files = files_of(option, asked);
  if (asked->given[option] && (!files || option == CHECK_COMMAND_KEYS)) {
    program_complain("%s is given twice", options[option].name);
    return false;
  }
  asked->given[option] = value ? value : "";
  return !files || program_add_path(files, value);
}

/* Says what is wrong with the word that getopt_long does not take. */
static void complain_of_word(int found, const char *word) {
  if (found == ':')
    program_complain("%s wants %s", options[option_of(optopt)].name,
                     options[option_of(optopt)].value);
  else if (optopt > UCHAR_MAX)
    program_complain("%s has no value", options[option_of(optopt)].name);
  else if (optopt)
    program_complain("-%c is no option", optopt);
  else
    program_complain("%s is no option", word);
}

/* Takes what getopt_long found: an option; or a word, of which the first may say what is asked, and
 * any other is left in front. False, which is said, where it is neither. */
static bool take_found(int found, char **words, int *left, check_request *asked) {
  bool is_first = !*left && asked->mode == CHECK_SHOW;
  if (found == '?' || found == ':') {
    complain_of_word(found, words[optind - 1]);
    return false;
  }
  if (found != IS_WORD) return take_option(option_of(found), optarg, asked);
  if (is_first) asked->mode = mode_of(optarg);
  if (!is_first || asked->mode == CHECK_SHOW) words[(*left)++] = optarg;
  return true;
}

/* Reads the words from optind on, and leaves those in front that are no options, so many; false,
 * which is said, where one is not taken. */
static bool read_options(int count, char **words, int *left, check_request *asked) {
  struct option longs[CHECK_OPTIONS + 1];
  memset(longs, 0, sizeof longs);
  for (int at = 0; at < CHECK_OPTIONS; at++)
    longs[at] = (struct option){options[at].name + 2,
                                options[at].value ? required_argument : no_argument, NULL,
                                number_of(at)};
  opterr = 0;
  for (int found; (found = getopt_long(count, words, letters, longs, NULL)) != -1;)
    if (!take_found(found, words, left, asked)) return false;
  /* behind -- */
  while (optind < count) words[(*left)++] = words[optind++];
  return true;
}

/* Reads these words, which are no options; false, which is said, where there are too many, or too
 * few. */
static bool read_rest(int count, char **words, check_request *asked) {
  if (asked->mode == CHECK_FINGERPRINT || asked->mode == CHECK_REVOCATIONS) {
    asked->paths = words;
    asked->path_count = count;
    return true;
  }
  if (asked->mode == CHECK_LOGIN && count < 2) {
    program_complain("login wants NAME KEY");
    return false;
  }
  if (asked->mode == CHECK_LOGIN) asked->user = *words++, count--;
  int most = is_keygen(asked->mode) ? 0 : 1;
  if (count > most) {
    program_complain("%s is a word too many", words[most]);
    return false;
  }
  if (count && strcmp(*words, "-")) asked->path = *words;
  return true;
}

/* ---- what they ask */

/* What the options say that is asked. */
static check_mode mode_by_options(const check_request *asked) {
  const char *const *given = asked->given;
  if (asked->mode == CHECK_VERIFY)
    return given[CHECK_KEYS] || !(given[CHECK_SIGNERS] || given[CHECK_IDENTITY]) ? CHECK_VERIFY
                                                                               : CHECK_SIGNER;
  if (asked->mode != CHECK_SHOW) return asked->mode;
  if (given[CHECK_HOST] || given[CHECK_PORT] || given[CHECK_KNOWN_HOSTS]) return CHECK_HOST_KEY;
  return given[CHECK_CA] || given[CHECK_USER] || given[CHECK_FROM] ? CHECK_CERTIFICATE
                                                                 : CHECK_SHOW;
}

/* What is asked, by a name: its word, or else the first option of it that is given. */
static const char *name_of(const check_request *asked) {
  unsigned takes = questions[asked->mode].needs | questions[asked->mode].takes;
  const char *name = questions[asked->mode].name;
  for (int at = 0; at < CHECK_OPTIONS && !name; at++)
    if (asked->given[at] && (takes & 1u << at)) name = options[at].name;
  return name;
}

/* Whether no option is given that is not taken; what is wrong is said. */
static bool has_no_other(const check_request *asked) {
  unsigned takes = questions[asked->mode].needs | questions[asked->mode].takes;
  for (int at = 0; at < CHECK_OPTIONS; at++) {
    if (!asked->given[at] || takes & 1u << at) continue;
    if (asked->mode == CHECK_SHOW)
      program_complain("%s wants a question: --ca, --host, login, verify or fingerprint",
                       options[at].name);
    else
      program_complain("%s takes no %s", name_of(asked), options[at].name);
    return false;
  }
  return true;
}

/* Whether each option is given that is needed, likewise. */
static bool has_needed(const check_request *asked) {
  for (int at = 0; at < CHECK_OPTIONS; at++) {
    if (asked->given[at] || !(questions[asked->mode].needs & 1u << at)) continue;
    const char *other = at == CHECK_KEYS ? ", or --signers SIGNERS" : "";
    program_complain("%s wants %s %s%s", name_of(asked), options[at].name, options[at].value,
                     other);
    return false;
  }
  return true;
}

/* Whether a login is asked of something that may let in, and of no two that exclude each other. */
static bool has_sources(const check_request *asked) {
  const char *const *given = asked->given;
  bool has_one = asked->mode != CHECK_LOGIN;
  for (int at = 0; at < CHECK_OPTIONS; at++) has_one |= given[at] && SOURCES & 1u << at;
  if (given[CHECK_PRINCIPALS] && !given[CHECK_AUTHORITIES])
    program_complain("--principals wants --authorities FILE");
  else if (!has_one)
    program_complain("login wants --authorized-keys, --authorities, --user-authorities or "
                     "--command-keys");
  else if (given[CHECK_AUTHORITIES] && given[CHECK_USER_AUTHORITIES])
    program_complain("login takes one of --authorities and --user-authorities");
  else
    return true;
  return false;
}

bool check_read_words(int count, char **words, check_request *asked) {
  bool has_keygen_word = count > 2 && !strcmp(words[1], "-Y");
  int left = 0;
  asked->mode = has_keygen_word ? keygen_mode_of(words[2]) : CHECK_SHOW;
  optind = has_keygen_word ? 3 : 1;
  bool is_read = asked->mode != CHECK_UNKNOWN || !strcmp(words[2], questions[CHECK_UNKNOWN].name);
  if (!is_read) program_complain("-Y %s is nothing that is answered here", words[2]);
  is_read = is_read && read_options(count, words, &left, asked);
  asked->mode = mode_by_options(asked);
  is_read = is_read && read_rest(left, words, asked) && has_no_other(asked);
  is_read = is_read && has_needed(asked) && has_sources(asked);
  if (asked->mode == CHECK_CERTIFICATE) asked->user = asked->given[CHECK_USER];
  if (!is_read) fprintf(stderr, "usage: %s\n", questions[asked->mode].usage);
  return is_read;
}
