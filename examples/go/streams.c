/* Which of standard input and output are open, looked at before Go runs: a newer runtime opens
 * /dev/null in the place of a closed one, so that what is written there would be taken for said. */
#include <fcntl.h>

int streams_are_open;

__attribute__((constructor)) static void look(void) {
  streams_are_open = fcntl(0, F_GETFD) >= 0 && fcntl(1, F_GETFD) >= 0;
}
