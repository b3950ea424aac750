/* OpenSSL's HMAC-SHA256 of the same bodies: with a key that was set before, and in one call that sets it too.
   The first byte of each result changes the body for the next one. */
#define OPENSSL_SUPPRESS_DEPRECATED
#include "common.h"
#include <openssl/crypto.h>
#include <openssl/evp.h>
#include <openssl/hmac.h>

static const uint8_t key[32] = {1, 2, 3, 4, 5, 6, 7, 8};
static HMAC_CTX *context;
static uint8_t body[LONGEST_BODY], result[EVP_MAX_MD_SIZE];
static int body_length;

static void with_prepared_key(uint32_t turns)
{
    unsigned size;
    for (uint32_t k = 0; k < turns; k++) {
        HMAC_Init_ex(context, NULL, 0, NULL, NULL);
        HMAC_Update(context, body, (size_t)body_length);
        HMAC_Final(context, result, &size);
        body[1] = result[0];
    }
}

static void in_one_call(uint32_t turns)
{
    unsigned size;
    for (uint32_t k = 0; k < turns; k++) {
        HMAC(EVP_sha256(), key, sizeof key, body, (size_t)body_length, result, &size);
        body[1] = result[0];
    }
}

static void measure(const char *side, work run)
{
    printf("tag-%d bytes\t%s\t%.3f\t-\n", body_length, side, best(run, 1));
}

int main(void)
{
    printf("version\tOpenSSL\t%s\n", OpenSSL_version(OPENSSL_VERSION));
    context = HMAC_CTX_new();
    if (!context || !HMAC_Init_ex(context, key, sizeof key, EVP_sha256(), NULL))
        return 1;
    for (int k = 0; k < LONGEST_BODY; k++)
        body[k] = body_byte(k);
    for (int k = 0; k < LENGTH_COUNT; k++) {
        body_length = LENGTHS[k];
        measure("hmac", with_prepared_key);
        measure("hmac-one-call", in_one_call);
    }
    return 0;
}
