/* Each call of rafendilo.h that asks for a verification, and the verification, in one: it decides
 * nothing itself. raf_is_signature (verify.h) verifies, with libcrypto or as a program of yours
 * defines it. */
#ifndef VERDICT_H
#define VERDICT_H
#include "rafendilo.h"

#ifdef __cplusplus
extern "C" {
#endif

/* Whether somebody logs in by public key, and the grant: raf_log_in, with the verifications that
 * raf_log_in_questions asks for. Where anything else is wrong nothing is verified, and the answer
 * says of a refusal which line of which text is the reason. A pointer may be null beside the
 * length 0.
 *
 * The grant needs a buffer of some hundred bytes, and of what its command, its lists and the key id
 * take. Of RAF_SHORT_BUFFER `answer->length` says how many: ask again with as many. */
uint32_t raf_verify_login(const raf_login *login, uint8_t *buffer, size_t buffer_length,
                          raf_grant *answer);

/* Whether what is offered lets in whoever signs with it, for the query without a signature:
 * raf_may_offer, likewise. */
uint32_t raf_verify_offer(const raf_login *login);

/* Whether the host that shows a certificate is known, and by what: raf_check_host_certificate,
 * likewise. */
uint32_t raf_verify_host_certificate(const raf_host_login *login, raf_span certificate,
                                     uint32_t *known_by);

#ifdef __cplusplus
}
#endif
#endif
