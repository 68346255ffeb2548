/* For who changes a program from version 0.2 to 0.3: with `cc -include rafendilo_0_2.h` each name of
 * sshkey.h and of its helpers that is left in it is an error that tells the new one. Nothing includes
 * this file. It is printed: do not edit it. */
#ifndef RAFENDILO_0_2_H
#define RAFENDILO_0_2_H

#define RAF_RENAMED(text) _Pragma(#text)
#define RAF_ERROR(text) RAF_RENAMED(GCC error text)

#define SSHKEY_VERSION RAF_ERROR("SSHKEY_VERSION: it is RAF_VERSION") RAF_VERSION
#define SSHKEY_ABI RAF_ERROR("SSHKEY_ABI: it is RAF_ABI") RAF_ABI
#define sshkey_version RAF_ERROR("sshkey_version: it is raf_version") raf_version
#define sshkey_abi RAF_ERROR("sshkey_abi: it is raf_abi") raf_abi
#define SSHKEY_DONE RAF_ERROR("SSHKEY_DONE: it is RAF_DONE") RAF_DONE
#define SSHKEY_MEMORY RAF_ERROR("SSHKEY_MEMORY: it is RAF_MEMORY") RAF_MEMORY
#define SSHKEY_ROOM RAF_ERROR("SSHKEY_ROOM: it is RAF_SHORT_BUFFER") RAF_SHORT_BUFFER
#define SSHKEY_END RAF_ERROR("SSHKEY_END: it is RAF_END") RAF_END
#define SSHKEY_TEXT RAF_ERROR("SSHKEY_TEXT: it is RAF_TEXT") RAF_TEXT
#define SSHKEY_BASE64 RAF_ERROR("SSHKEY_BASE64: it is RAF_BASE64") RAF_BASE64
#define SSHKEY_CHARACTER_ENCODING RAF_ERROR("SSHKEY_CHARACTER_ENCODING: it is RAF_CHARACTER_ENCODING") RAF_CHARACTER_ENCODING
#define SSHKEY_LABEL RAF_ERROR("SSHKEY_LABEL: it is RAF_LABEL") RAF_LABEL
#define SSHKEY_LENGTH RAF_ERROR("SSHKEY_LENGTH: it is RAF_LENGTH") RAF_LENGTH
#define SSHKEY_TRAILING_DATA RAF_ERROR("SSHKEY_TRAILING_DATA: it is RAF_TRAILING_DATA") RAF_TRAILING_DATA
#define SSHKEY_FORMAT RAF_ERROR("SSHKEY_FORMAT: it is RAF_FORMAT") RAF_FORMAT
#define SSHKEY_ALGORITHM_UNKNOWN RAF_ERROR("SSHKEY_ALGORITHM_UNKNOWN: it is RAF_ALGORITHM_UNKNOWN") RAF_ALGORITHM_UNKNOWN
#define SSHKEY_CRYPTO RAF_ERROR("SSHKEY_CRYPTO: it is RAF_CRYPTO") RAF_CRYPTO
#define SSHKEY_ECDSA RAF_ERROR("SSHKEY_ECDSA: it is RAF_ECDSA") RAF_ECDSA
#define SSHKEY_TIME RAF_ERROR("SSHKEY_TIME: it is RAF_TIME") RAF_TIME
#define SSHKEY_NAMESPACE RAF_ERROR("SSHKEY_NAMESPACE: it is RAF_NAMESPACE") RAF_NAMESPACE
#define SSHKEY_PUBLIC_KEY RAF_ERROR("SSHKEY_PUBLIC_KEY: it is RAF_PUBLIC_KEY") RAF_PUBLIC_KEY
#define SSHKEY_UNSUPPORTED_VERSION RAF_ERROR("SSHKEY_UNSUPPORTED_VERSION: it is RAF_UNSUPPORTED_VERSION") RAF_UNSUPPORTED_VERSION
#define SSHKEY_OTHER_FAULT RAF_ERROR("SSHKEY_OTHER_FAULT: it is RAF_OTHER_ERROR") RAF_OTHER_ERROR
#define SSHKEY_RSA_SHA1 RAF_ERROR("SSHKEY_RSA_SHA1: it is RAF_RSA_SHA1") RAF_RSA_SHA1
#define SSHKEY_NOT_SIGNED RAF_ERROR("SSHKEY_NOT_SIGNED: it is RAF_NOT_SIGNED") RAF_NOT_SIGNED
#define SSHKEY_UNTRUSTED_AUTHORITY RAF_ERROR("SSHKEY_UNTRUSTED_AUTHORITY: it is RAF_UNTRUSTED_AUTHORITY") RAF_UNTRUSTED_AUTHORITY
#define SSHKEY_INVALID_TIME RAF_ERROR("SSHKEY_INVALID_TIME: it is RAF_INVALID_TIME") RAF_INVALID_TIME
#define SSHKEY_OUT_OF_WINDOW RAF_ERROR("SSHKEY_OUT_OF_WINDOW: it is RAF_OUT_OF_WINDOW") RAF_OUT_OF_WINDOW
#define SSHKEY_UNLISTED_PRINCIPAL RAF_ERROR("SSHKEY_UNLISTED_PRINCIPAL: it is RAF_UNLISTED_PRINCIPAL") RAF_UNLISTED_PRINCIPAL
#define SSHKEY_UNSUPPORTED RAF_ERROR("SSHKEY_UNSUPPORTED: it is RAF_UNSUPPORTED") RAF_UNSUPPORTED
#define SSHKEY_OTHER_NAMESPACE RAF_ERROR("SSHKEY_OTHER_NAMESPACE: it is RAF_OTHER_NAMESPACE") RAF_OTHER_NAMESPACE
#define SSHKEY_PRINCIPALS RAF_ERROR("SSHKEY_PRINCIPALS: it is RAF_PRINCIPALS") RAF_PRINCIPALS
#define SSHKEY_EMPTY_WINDOW RAF_ERROR("SSHKEY_EMPTY_WINDOW: it is RAF_EMPTY_WINDOW") RAF_EMPTY_WINDOW
#define SSHKEY_HOST_REVOKED RAF_ERROR("SSHKEY_HOST_REVOKED: it is RAF_HOST_REVOKED") RAF_HOST_REVOKED
#define SSHKEY_HOST_UNREADABLE RAF_ERROR("SSHKEY_HOST_UNREADABLE: it is RAF_HOST_UNREADABLE") RAF_HOST_UNREADABLE
#define SSHKEY_HOST_CHANGED RAF_ERROR("SSHKEY_HOST_CHANGED: it is RAF_HOST_CHANGED") RAF_HOST_CHANGED
#define SSHKEY_HOST_UNKNOWN RAF_ERROR("SSHKEY_HOST_UNKNOWN: it is RAF_HOST_UNKNOWN") RAF_HOST_UNKNOWN
#define SSHKEY_SIGNER_NOT_ALLOWED RAF_ERROR("SSHKEY_SIGNER_NOT_ALLOWED: it is RAF_SIGNER_NOT_ALLOWED") RAF_SIGNER_NOT_ALLOWED
#define SSHKEY_REVOKED RAF_ERROR("SSHKEY_REVOKED: it is RAF_REVOKED") RAF_REVOKED
#define SSHKEY_ELSEWHERE RAF_ERROR("SSHKEY_ELSEWHERE: it is RAF_ELSEWHERE") RAF_ELSEWHERE
#define SSHKEY_UNREADABLE_REVOCATIONS RAF_ERROR("SSHKEY_UNREADABLE_REVOCATIONS: it is RAF_UNREADABLE_REVOCATIONS") RAF_UNREADABLE_REVOCATIONS
#define SSHKEY_KEY_NOT_ACCEPTED RAF_ERROR("SSHKEY_KEY_NOT_ACCEPTED: it is RAF_KEY_NOT_ACCEPTED") RAF_KEY_NOT_ACCEPTED
#define SSHKEY_NOT_REVOKED RAF_ERROR("SSHKEY_NOT_REVOKED: of raf_check_unrevoked_key and its like 0 is for what nothing revokes") RAF_DONE
#define SSHKEY_LATER_KEY RAF_ERROR("SSHKEY_LATER_KEY: it is RAF_LATER_KEY") RAF_LATER_KEY
#define SSHKEY_UNSAFE_MODE RAF_ERROR("SSHKEY_UNSAFE_MODE: it is RAF_UNSAFE_MODE") RAF_UNSAFE_MODE
#define SSHKEY_NOT_NORMAL_FORM RAF_ERROR("SSHKEY_NOT_NORMAL_FORM: it is RAF_NOT_NORMAL_FORM") RAF_NOT_NORMAL_FORM
#define SSHKEY_OTHER_TYPE RAF_ERROR("SSHKEY_OTHER_TYPE: it is RAF_OTHER_TYPE") RAF_OTHER_TYPE
#define SSHKEY_OTHER_KEY RAF_ERROR("SSHKEY_OTHER_KEY: it is RAF_OTHER_KEY") RAF_OTHER_KEY
#define SSHKEY_CRITICAL_OPTIONS RAF_ERROR("SSHKEY_CRITICAL_OPTIONS: it is RAF_CRITICAL_OPTIONS") RAF_CRITICAL_OPTIONS
#define SSHKEY_EXTENSIONS RAF_ERROR("SSHKEY_EXTENSIONS: it is RAF_EXTENSIONS") RAF_EXTENSIONS
#define SSHKEY_KEY_ID RAF_ERROR("SSHKEY_KEY_ID: it is RAF_KEY_ID") RAF_KEY_ID
#define SSHKEY_VALID_PRINCIPALS RAF_ERROR("SSHKEY_VALID_PRINCIPALS: it is RAF_VALID_PRINCIPALS") RAF_VALID_PRINCIPALS
#define SSHKEY_OTHER_REQUEST RAF_ERROR("SSHKEY_OTHER_REQUEST: it is RAF_OTHER_REQUEST") RAF_OTHER_REQUEST
#define SSHKEY_OTHER_ALGORITHM RAF_ERROR("SSHKEY_OTHER_ALGORITHM: it is RAF_OTHER_ALGORITHM") RAF_OTHER_ALGORITHM
#define SSHKEY_UNTOUCHED RAF_ERROR("SSHKEY_UNTOUCHED: it is RAF_UNTOUCHED") RAF_UNTOUCHED
#define SSHKEY_UNVERIFIED RAF_ERROR("SSHKEY_UNVERIFIED: it is RAF_UNVERIFIED") RAF_UNVERIFIED
#define SSHKEY_USER_NOT_LISTED RAF_ERROR("SSHKEY_USER_NOT_LISTED: it is RAF_USER_NOT_LISTED") RAF_USER_NOT_LISTED
#define SSHKEY_LINE_EXPIRED RAF_ERROR("SSHKEY_LINE_EXPIRED: it is RAF_LINE_EXPIRED") RAF_LINE_EXPIRED
#define SSHKEY_LINE_OPTION RAF_ERROR("SSHKEY_LINE_OPTION: it is RAF_LINE_OPTION") RAF_LINE_OPTION
#define SSHKEY_LINE_ELSEWHERE RAF_ERROR("SSHKEY_LINE_ELSEWHERE: it is RAF_LINE_ELSEWHERE") RAF_LINE_ELSEWHERE
#define SSHKEY_LINE_COMMAND RAF_ERROR("SSHKEY_LINE_COMMAND: it is RAF_LINE_COMMAND") RAF_LINE_COMMAND
#define SSHKEY_LINE_PRINCIPALS RAF_ERROR("SSHKEY_LINE_PRINCIPALS: it is RAF_LINE_PRINCIPALS") RAF_LINE_PRINCIPALS
#define SSHKEY_LINE_UNCLEAR RAF_ERROR("SSHKEY_LINE_UNCLEAR: it is RAF_LINE_UNCLEAR") RAF_LINE_UNCLEAR
#define SSHKEY_NO_PORT RAF_ERROR("SSHKEY_NO_PORT: it is RAF_NO_PORT") RAF_NO_PORT
#define SSHKEY_NO_HOST RAF_ERROR("SSHKEY_NO_HOST: it is RAF_NO_HOST") RAF_NO_HOST
#define SSHKEY_NO_ADDRESS RAF_ERROR("SSHKEY_NO_ADDRESS: it is RAF_NO_ADDRESS") RAF_NO_ADDRESS
#define SSHKEY_NO_IDENTITY RAF_ERROR("SSHKEY_NO_IDENTITY: it is RAF_NO_IDENTITY") RAF_NO_IDENTITY
#define sshkey_answer_name RAF_ERROR("sshkey_answer_name: it is raf_status_name") raf_status_name
#define sshkey_span RAF_ERROR("sshkey_span: it is raf_span") raf_span
#define sshkey_spans RAF_ERROR("sshkey_spans: it is raf_spans") raf_spans
#define sshkey_no_revocations RAF_ERROR("sshkey_no_revocations: it is raf_no_revocations") raf_no_revocations
#define SSHKEY_NO_REVOCATIONS RAF_ERROR("SSHKEY_NO_REVOCATIONS: it is RAF_NO_REVOCATIONS") RAF_NO_REVOCATIONS
#define sshkey_part RAF_ERROR("sshkey_part: it is raf_part") raf_part
#define sshkey_sha256 RAF_ERROR("sshkey_sha256: it is raf_sha256") raf_sha256
#define sshkey_sha512 RAF_ERROR("sshkey_sha512: it is raf_sha512") raf_sha512
#define sshkey_digests RAF_ERROR("sshkey_digests: it is raf_digests") raf_digests
#define SSHKEY_ASK_DSA RAF_ERROR("SSHKEY_ASK_DSA: it is RAF_ASK_DSA") RAF_ASK_DSA
#define SSHKEY_ASK_P256 RAF_ERROR("SSHKEY_ASK_P256: it is RAF_ASK_P256") RAF_ASK_P256
#define SSHKEY_ASK_P384 RAF_ERROR("SSHKEY_ASK_P384: it is RAF_ASK_P384") RAF_ASK_P384
#define SSHKEY_ASK_P521 RAF_ERROR("SSHKEY_ASK_P521: it is RAF_ASK_P521") RAF_ASK_P521
#define SSHKEY_ASK_ED25519 RAF_ERROR("SSHKEY_ASK_ED25519: it is RAF_ASK_ED25519") RAF_ASK_ED25519
#define SSHKEY_ASK_RSA_SHA256 RAF_ERROR("SSHKEY_ASK_RSA_SHA256: it is RAF_ASK_RSA_SHA256") RAF_ASK_RSA_SHA256
#define SSHKEY_ASK_RSA_SHA512 RAF_ERROR("SSHKEY_ASK_RSA_SHA512: it is RAF_ASK_RSA_SHA512") RAF_ASK_RSA_SHA512
#define sshkey_question RAF_ERROR("sshkey_question: it is raf_question") raf_question
#define sshkey_line RAF_ERROR("sshkey_line: it is raf_line") raf_line
#define SSHKEY_LINE_KEY RAF_ERROR("SSHKEY_LINE_KEY: it is RAF_LINE_KEY") RAF_LINE_KEY
#define SSHKEY_LINE_CERTIFICATE RAF_ERROR("SSHKEY_LINE_CERTIFICATE: it is RAF_LINE_CERTIFICATE") RAF_LINE_CERTIFICATE
#define sshkey_read_line RAF_ERROR("sshkey_read_line: it is raf_read_line") raf_read_line
#define sshkey_is_other_key_line RAF_ERROR("sshkey_is_other_key_line: it is raf_is_later_key_line") raf_is_later_key_line
#define sshkey_authority RAF_ERROR("sshkey_authority: it is raf_authority") raf_authority
#define sshkey_user_authority RAF_ERROR("sshkey_user_authority: it is raf_user_authority") raf_user_authority
#define sshkey_may_verify RAF_ERROR("sshkey_may_verify: it is raf_may_verify") raf_may_verify
#define sshkey_strict_mode RAF_ERROR("sshkey_strict_mode: it is raf_check_safe_mode") raf_check_safe_mode
#define sshkey_certificate_question RAF_ERROR("sshkey_certificate_question: it is raf_certificate_question") raf_certificate_question
#define sshkey_certificate_validate RAF_ERROR("sshkey_certificate_validate: it is raf_check_certificate") raf_check_certificate
#define sshkey_certificate_validate_for RAF_ERROR("sshkey_certificate_validate_for: it is raf_check_certificate_for") raf_check_certificate_for
#define SSHKEY_USER RAF_ERROR("SSHKEY_USER: it is RAF_USER") RAF_USER
#define SSHKEY_HOST RAF_ERROR("SSHKEY_HOST: it is RAF_HOST") RAF_HOST
#define SSHKEY_FOREVER RAF_ERROR("SSHKEY_FOREVER: it is RAF_FOREVER") RAF_FOREVER
#define sshkey_fields RAF_ERROR("sshkey_fields: it is raf_fields") raf_fields
#define sshkey_certificate_fields RAF_ERROR("sshkey_certificate_fields: it is raf_certificate_fields") raf_certificate_fields
#define sshkey_parts RAF_ERROR("sshkey_parts: it is raf_parts") raf_parts
#define sshkey_certificate_parts RAF_ERROR("sshkey_certificate_parts: it is raf_certificate_parts") raf_certificate_parts
#define sshkey_certificate_option_parts RAF_ERROR("sshkey_certificate_option_parts: it is raf_certificate_option_parts") raf_certificate_option_parts
#define sshkey_next_option RAF_ERROR("sshkey_next_option: it is raf_next_certificate_option") raf_next_certificate_option
#define sshkey_certificate_key RAF_ERROR("sshkey_certificate_key: it is raf_certificate_key") raf_certificate_key
#define sshkey_draft RAF_ERROR("sshkey_draft: it is raf_draft") raf_draft
#define sshkey_certificate_to_be_signed RAF_ERROR("sshkey_certificate_to_be_signed: it is raf_certificate_to_be_signed") raf_certificate_to_be_signed
#define sshkey_certificate_make RAF_ERROR("sshkey_certificate_make: it is raf_certificate_make") raf_certificate_make
#define sshkey_fingerprint RAF_ERROR("sshkey_fingerprint: it is raf_fingerprint") raf_fingerprint
#define SSHKEY_FINGERPRINT_TEXT RAF_ERROR("SSHKEY_FINGERPRINT_TEXT: it is RAF_FINGERPRINT_TEXT") RAF_FINGERPRINT_TEXT
#define sshkey_fingerprint_text RAF_ERROR("sshkey_fingerprint_text: it is raf_fingerprint_text") raf_fingerprint_text
#define sshkey_fingerprint_sha512 RAF_ERROR("sshkey_fingerprint_sha512: it is raf_fingerprint_sha512") raf_fingerprint_sha512
#define SSHKEY_FINGERPRINT_SHA512_TEXT RAF_ERROR("SSHKEY_FINGERPRINT_SHA512_TEXT: it is RAF_FINGERPRINT_SHA512_TEXT") RAF_FINGERPRINT_SHA512_TEXT
#define sshkey_fingerprint_sha512_text RAF_ERROR("sshkey_fingerprint_sha512_text: it is raf_fingerprint_sha512_text") raf_fingerprint_sha512_text
#define sshkey_signature_question RAF_ERROR("sshkey_signature_question: it is raf_signature_question") raf_signature_question
#define sshkey_login RAF_ERROR("sshkey_login: it is raf_login, with other fields") raf_login
#define SSHKEY_PERMIT_PTY RAF_ERROR("SSHKEY_PERMIT_PTY: it is RAF_PERMIT_PTY") RAF_PERMIT_PTY
#define SSHKEY_PERMIT_PORT_FORWARDING RAF_ERROR("SSHKEY_PERMIT_PORT_FORWARDING: it is RAF_PERMIT_PORT_FORWARDING") RAF_PERMIT_PORT_FORWARDING
#define SSHKEY_PERMIT_AGENT_FORWARDING RAF_ERROR("SSHKEY_PERMIT_AGENT_FORWARDING: it is RAF_PERMIT_AGENT_FORWARDING") RAF_PERMIT_AGENT_FORWARDING
#define SSHKEY_PERMIT_X11_FORWARDING RAF_ERROR("SSHKEY_PERMIT_X11_FORWARDING: it is RAF_PERMIT_X11_FORWARDING") RAF_PERMIT_X11_FORWARDING
#define SSHKEY_PERMIT_USER_RC RAF_ERROR("SSHKEY_PERMIT_USER_RC: it is RAF_PERMIT_USER_RC") RAF_PERMIT_USER_RC
#define SSHKEY_PERMIT_ANY_COMMAND RAF_ERROR("SSHKEY_PERMIT_ANY_COMMAND: it is RAF_PERMIT_ANY_COMMAND") RAF_PERMIT_ANY_COMMAND
#define SSHKEY_PERMIT_NO_TOUCH RAF_ERROR("SSHKEY_PERMIT_NO_TOUCH: it is RAF_PERMIT_NO_TOUCH") RAF_PERMIT_NO_TOUCH
#define SSHKEY_PERMIT_NO_VERIFICATION RAF_ERROR("SSHKEY_PERMIT_NO_VERIFICATION: it is RAF_PERMIT_NO_VERIFICATION") RAF_PERMIT_NO_VERIFICATION
#define SSHKEY_PERMIT_TUNNELS RAF_ERROR("SSHKEY_PERMIT_TUNNELS: it is RAF_PERMIT_TUNNELS") RAF_PERMIT_TUNNELS
#define SSHKEY_PERMIT_ANY_TUNNEL RAF_ERROR("SSHKEY_PERMIT_ANY_TUNNEL: it is RAF_PERMIT_ANY_TUNNEL") RAF_PERMIT_ANY_TUNNEL
#define SSHKEY_PERMIT_OPEN_ANYWHERE RAF_ERROR("SSHKEY_PERMIT_OPEN_ANYWHERE: it is gone: ask raf_may_open")
#define SSHKEY_PERMIT_LISTEN_ANYWHERE RAF_ERROR("SSHKEY_PERMIT_LISTEN_ANYWHERE: it is gone: ask raf_may_listen")
#define sshkey_grant RAF_ERROR("sshkey_grant: it is raf_grant, with more fields") raf_grant
#define sshkey_login_question RAF_ERROR("sshkey_login_question: it is raf_log_in_questions") raf_log_in_questions
#define sshkey_login_verdict RAF_ERROR("sshkey_login_verdict: it is raf_log_in") raf_log_in
#define sshkey_userauth RAF_ERROR("sshkey_userauth: it is raf_signed, in a raf_login") raf_signed
#define sshkey_userauth_question RAF_ERROR("sshkey_userauth_question: it is raf_log_in_questions") raf_log_in_questions
#define sshkey_userauth_question_of RAF_ERROR("sshkey_userauth_question_of: it is raf_log_in_questions") raf_log_in_questions
#define sshkey_grant_flags RAF_ERROR("sshkey_grant_flags: it is raf_log_in, with RAF_SIGNED_WITH_FLAGS") raf_log_in
#define sshkey_sshsig_question RAF_ERROR("sshkey_sshsig_question: it is raf_sshsig_question") raf_sshsig_question
#define sshkey_sshsig_question_of_digest RAF_ERROR("sshkey_sshsig_question_of_digest: it is raf_sshsig_question_of_digest") raf_sshsig_question_of_digest
#define sshkey_sshsig_verdict RAF_ERROR("sshkey_sshsig_verdict: it is raf_check_sshsig") raf_check_sshsig
#define sshkey_signer_verdict RAF_ERROR("sshkey_signer_verdict: it is raf_check_signer") raf_check_signer
#define sshkey_key_normal RAF_ERROR("sshkey_key_normal: it is raf_key_normal") raf_key_normal
#define sshkey_certificate_normal RAF_ERROR("sshkey_certificate_normal: it is raf_certificate_normal") raf_certificate_normal
#define sshkey_sshsig_normal RAF_ERROR("sshkey_sshsig_normal: it is raf_sshsig_normal") raf_sshsig_normal
#define sshkey_signature_normal RAF_ERROR("sshkey_signature_normal: it is raf_signature_normal") raf_signature_normal
#define sshkey_next_string RAF_ERROR("sshkey_next_string: it is raf_next_string") raf_next_string
#define sshkey_revoked_key RAF_ERROR("sshkey_revoked_key: it is raf_check_unrevoked_key, which returns 0 for what nothing revokes and 56 for what is revoked") raf_check_unrevoked_key
#define sshkey_revoked_certificate RAF_ERROR("sshkey_revoked_certificate: it is raf_check_unrevoked_certificate, which returns 0 for what nothing revokes and 56 for what is revoked") raf_check_unrevoked_certificate
#define sshkey_krl_revokes_key RAF_ERROR("sshkey_krl_revokes_key: it is raf_check_unrevoked_key_by_krl, which returns 0 for what nothing revokes and 56 for what is revoked") raf_check_unrevoked_key_by_krl
#define sshkey_krl_revokes_certificate RAF_ERROR("sshkey_krl_revokes_certificate: it is raf_check_unrevoked_certificate_by_krl, which returns 0 for what nothing revokes and 56 for what is revoked") raf_check_unrevoked_certificate_by_krl
#define sshkey_unrevoked RAF_ERROR("sshkey_unrevoked: it is gone: of raf_check_unrevoked_key and its like 0 is for what nothing revokes")
#define sshkey_next_line RAF_ERROR("sshkey_next_line: it is raf_next_line") raf_next_line
#define SSHKEY_MARKER_NONE RAF_ERROR("SSHKEY_MARKER_NONE: it is RAF_MARKER_NONE") RAF_MARKER_NONE
#define SSHKEY_MARKER_CERT_AUTHORITY RAF_ERROR("SSHKEY_MARKER_CERT_AUTHORITY: it is RAF_MARKER_CERT_AUTHORITY") RAF_MARKER_CERT_AUTHORITY
#define SSHKEY_MARKER_REVOKED RAF_ERROR("SSHKEY_MARKER_REVOKED: it is RAF_MARKER_REVOKED") RAF_MARKER_REVOKED
#define sshkey_entry RAF_ERROR("sshkey_entry: it is raf_entry") raf_entry
#define sshkey_authorized_entry RAF_ERROR("sshkey_authorized_entry: it is raf_authorized_entry") raf_authorized_entry
#define sshkey_known_host RAF_ERROR("sshkey_known_host: it is raf_known_host") raf_known_host
#define sshkey_entry_option_parts RAF_ERROR("sshkey_entry_option_parts: it is raf_line_option_parts") raf_line_option_parts
#define sshkey_next_entry_option RAF_ERROR("sshkey_next_entry_option: it is raf_next_line_option") raf_next_line_option
#define sshkey_may_be_for_key RAF_ERROR("sshkey_may_be_for_key: it is raf_line_may_name_key") raf_line_may_name_key
#define sshkey_may_be_for_certificate RAF_ERROR("sshkey_may_be_for_certificate: it is raf_line_may_name_authority") raf_line_may_name_authority
#define sshkey_host_login RAF_ERROR("sshkey_host_login: it is raf_host_login") raf_host_login
#define sshkey_host_key_verdict RAF_ERROR("sshkey_host_key_verdict: it is raf_check_host_key") raf_check_host_key
#define sshkey_host_certificate_verdict RAF_ERROR("sshkey_host_certificate_verdict: it is raf_check_host_certificate") raf_check_host_certificate
#define sshkey_unreadable_host_line RAF_ERROR("sshkey_unreadable_host_line: it is raf_unreadable_host_line") raf_unreadable_host_line
#define sshkey_source_address_allows RAF_ERROR("sshkey_source_address_allows: it is raf_check_source_address") raf_check_source_address
#define sshkey_from_allows RAF_ERROR("sshkey_from_allows: it is raf_check_from") raf_check_from
#define sshkey_time_span RAF_ERROR("sshkey_time_span: it is raf_time_span") raf_time_span
#define sshkey_read_time RAF_ERROR("sshkey_read_time: it is raf_read_time") raf_read_time
#define sshkey_user_grant RAF_ERROR("sshkey_user_grant: it is raf_grant") raf_grant
#define sshkey_user_keys_verdict RAF_ERROR("sshkey_user_keys_verdict: it is raf_log_in") raf_log_in
#define sshkey_principals_verdict RAF_ERROR("sshkey_principals_verdict: it is raf_log_in") raf_log_in
#define sshkey_bytes RAF_ERROR("sshkey_bytes: it is raf_bytes") raf_bytes
#define judge_blob RAF_ERROR("judge_blob: it is raf_blob") raf_blob
#define judge_span RAF_ERROR("judge_span: it is raf_blob_span") raf_blob_span
#define judge_text RAF_ERROR("judge_text: it is raf_text_span") raf_text_span
#define judge_authorities RAF_ERROR("judge_authorities: it is raf_authorities") raf_authorities
#define judge_digests RAF_ERROR("judge_digests: it is raf_authority_digests") raf_authority_digests
#define judge_read_line RAF_ERROR("judge_read_line: it is raf_read_line_blob") raf_read_line_blob
#define judge_read_words RAF_ERROR("judge_read_words: it is raf_read_words_blob") raf_read_words_blob
#define judge_read_stream RAF_ERROR("judge_read_stream: it is raf_read_stream") raf_read_stream
#define judge_read_file RAF_ERROR("judge_read_file: it is raf_read_file") raf_read_file
#define judge_add_authority RAF_ERROR("judge_add_authority: it is raf_add_authority") raf_add_authority
#define judge_add_user_authority RAF_ERROR("judge_add_user_authority: it is raf_add_user_authority") raf_add_user_authority
#define judge_meaning RAF_ERROR("judge_meaning: it is raf_status_meaning") raf_status_meaning
#define judge_read_sha1 RAF_ERROR("judge_read_sha1: it is raf_read_sha1_line") raf_read_sha1_line
#define judge_decode_base64 RAF_ERROR("judge_decode_base64: it is raf_decode_base64") raf_decode_base64
#define judge_read_armour RAF_ERROR("judge_read_armour: it is raf_read_armour_blob") raf_read_armour_blob
#define judge_digest_length RAF_ERROR("judge_digest_length: it is raf_sshsig_digest_length") raf_sshsig_digest_length
#define judge_sshsig_of_digest RAF_ERROR("judge_sshsig_of_digest: it is raf_verify_sshsig_of_digest") raf_verify_sshsig_of_digest
#define judge_signers RAF_ERROR("judge_signers: it is raf_signers") raf_signers
#define judge_signer_of_digest RAF_ERROR("judge_signer_of_digest: it is raf_verify_signer_of_digest") raf_verify_signer_of_digest
#define judge_log_in RAF_ERROR("judge_log_in: it is raf_verify_login") raf_verify_login
#define judge_userauth RAF_ERROR("judge_userauth: it is raf_verify_login") raf_verify_login
#define judge_host_certificate RAF_ERROR("judge_host_certificate: it is raf_verify_host_certificate") raf_verify_host_certificate
#define judge_user_keys RAF_ERROR("judge_user_keys: it is raf_verify_login") raf_verify_login
#define judge_principals RAF_ERROR("judge_principals: it is raf_verify_login") raf_verify_login
#define judge_is_signature RAF_ERROR("judge_is_signature: it is raf_is_signature") raf_is_signature
#define judge_digest RAF_ERROR("judge_digest: it is raf_digest_stream") raf_digest_stream

#endif
