/* The cryptography of the helpers: OpenSSL's libcrypto (3.0 or newer). */
#include "verify.h"

#include <limits.h>
#include <openssl/bn.h>
#include <openssl/core_names.h>
#include <openssl/ecdsa.h>
#include <openssl/evp.h>
#include <openssl/param_build.h>

typedef struct {
  const uint8_t *bytes;
  size_t length;
} slice;

static slice slice_of(const uint8_t *buffer, raf_part part) {
  slice it = {buffer + part.start, part.length};
  return it;
}

/* The string in front of the bytes, which it takes away; empty where none stands there. */
static slice take(slice *from) {
  raf_part part = {0, 0};
  slice string = {from->bytes, 0};
  if (raf_next_string(from->bytes, from->length, 0, &part) != RAF_DONE) return string;
  string.bytes += part.start;
  string.length = part.length;
  from->bytes += part.start + part.length;
  from->length -= part.start + part.length;
  return string;
}

/* The number of an mpint, which is positive: in keys by raf_may_verify, and in signatures of
 * ECDSA anyway. */
static BIGNUM *number(slice digits) {
  if (digits.length > INT_MAX) return NULL;
  return BN_bin2bn(digits.bytes, (int)digits.length, NULL);
}

static EVP_PKEY *key_of(const char *type, OSSL_PARAM_BLD *parts) {
  EVP_PKEY *key = NULL;
  OSSL_PARAM *made = OSSL_PARAM_BLD_to_param(parts);
  EVP_PKEY_CTX *context = EVP_PKEY_CTX_new_from_name(NULL, type, NULL);
  if (!made || !context || EVP_PKEY_fromdata_init(context) != 1 ||
      EVP_PKEY_fromdata(context, &key, EVP_PKEY_PUBLIC_KEY, made) != 1)
    key = NULL;
  EVP_PKEY_CTX_free(context);
  OSSL_PARAM_free(made);
  return key;
}

static EVP_PKEY *ecdsa_key(const char *curve, slice point) {
  OSSL_PARAM_BLD *parts = OSSL_PARAM_BLD_new();
  EVP_PKEY *key = NULL;
  if (parts && OSSL_PARAM_BLD_push_utf8_string(parts, OSSL_PKEY_PARAM_GROUP_NAME, curve, 0) &&
      OSSL_PARAM_BLD_push_octet_string(parts, OSSL_PKEY_PARAM_PUB_KEY, point.bytes, point.length))
    key = key_of("EC", parts);
  OSSL_PARAM_BLD_free(parts);
  return key;
}

static EVP_PKEY *rsa_key(slice exponent, slice modulus) {
  OSSL_PARAM_BLD *parts = OSSL_PARAM_BLD_new();
  BIGNUM *e = number(exponent), *n = number(modulus);
  EVP_PKEY *key = NULL;
  if (parts && e && n && OSSL_PARAM_BLD_push_BN(parts, OSSL_PKEY_PARAM_RSA_N, n) &&
      OSSL_PARAM_BLD_push_BN(parts, OSSL_PKEY_PARAM_RSA_E, e))
    key = key_of("RSA", parts);
  OSSL_PARAM_BLD_free(parts);
  BN_free(e);
  BN_free(n);
  return key;
}

static bool verifies(EVP_PKEY *key, const EVP_MD *digest, slice message, slice signature) {
  EVP_MD_CTX *context = EVP_MD_CTX_new();
  bool yes = key && context && EVP_DigestVerifyInit(context, NULL, digest, NULL, key) == 1 &&
             EVP_DigestVerify(context, signature.bytes, signature.length, message.bytes,
                              message.length) == 1;
  EVP_MD_CTX_free(context);
  return yes;
}

/* SSH writes r and s as two strings, and libcrypto reads them in DER. */
static bool verifies_ecdsa(EVP_PKEY *key, const EVP_MD *digest, slice message, slice signature) {
  BIGNUM *r = number(take(&signature)), *s = number(take(&signature));
  ECDSA_SIG *both = ECDSA_SIG_new();
  unsigned char *der = NULL;
  bool yes = false;
  if (both && r && s && ECDSA_SIG_set0(both, r, s)) {
    r = s = NULL; /* they are the signature's now */
    int length = i2d_ECDSA_SIG(both, &der);
    slice written = {der, length > 0 ? (size_t)length : 0};
    yes = length > 0 && verifies(key, digest, message, written);
  }
  OPENSSL_free(der);
  ECDSA_SIG_free(both);
  BN_free(r);
  BN_free(s);
  return yes;
}

static bool is_ecdsa(const char *curve, const EVP_MD *digest, slice key, slice message,
                     slice signature) {
  take(&key); /* the curve's name, which the algorithm says too */
  EVP_PKEY *made = ecdsa_key(curve, take(&key));
  bool yes = verifies_ecdsa(made, digest, message, signature);
  EVP_PKEY_free(made);
  return yes;
}

static bool is_rsa(const EVP_MD *digest, slice key, slice message, slice signature) {
  slice exponent = take(&key);
  EVP_PKEY *made = rsa_key(exponent, take(&key));
  bool yes = verifies(made, digest, message, signature);
  EVP_PKEY_free(made);
  return yes;
}

static bool is_ed25519(slice key, slice message, slice signature) {
  slice bytes = take(&key);
  EVP_PKEY *made = EVP_PKEY_new_raw_public_key(EVP_PKEY_ED25519, NULL, bytes.bytes, bytes.length);
  bool yes = verifies(made, NULL, message, signature);
  EVP_PKEY_free(made);
  return yes;
}

bool raf_is_signature(const raf_question *question, const uint8_t *buffer) {
  slice key = slice_of(buffer, question->key);
  slice message = slice_of(buffer, question->message);
  slice signature = slice_of(buffer, question->signature);
  if (raf_may_verify(key.bytes, key.length) != RAF_DONE) return false;
  take(&key); /* the name of the key's type */
  switch (question->algorithm) {
  case RAF_ASK_P256:
    return is_ecdsa("P-256", EVP_sha256(), key, message, signature);
  case RAF_ASK_P384:
    return is_ecdsa("P-384", EVP_sha384(), key, message, signature);
  case RAF_ASK_P521:
    return is_ecdsa("P-521", EVP_sha512(), key, message, signature);
  case RAF_ASK_ED25519:
    return is_ed25519(key, message, signature);
  case RAF_ASK_RSA_SHA256:
    return is_rsa(EVP_sha256(), key, message, signature);
  case RAF_ASK_RSA_SHA512:
    return is_rsa(EVP_sha512(), key, message, signature);
  default: /* DSA, which raf_may_verify takes no key of */
    return false;
  }
}

bool raf_digest_stream(FILE *file, uint8_t *digest, size_t length) {
  uint8_t buffer[4096];
  EVP_MD_CTX *context = EVP_MD_CTX_new();
  bool yes = context && (length == 32 || length == 64) &&
             EVP_DigestInit_ex(context, length == 32 ? EVP_sha256() : EVP_sha512(), NULL) == 1;
  for (size_t read = 1; yes && read;) {
    read = fread(buffer, 1, sizeof buffer, file);
    yes = EVP_DigestUpdate(context, buffer, read) == 1;
  }
  yes = yes && !ferror(file) && EVP_DigestFinal_ex(context, digest, NULL) == 1;
  EVP_MD_CTX_free(context);
  return yes;
}
