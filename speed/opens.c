/* Opens a packet of full size, 266 bytes of contents, again and again, with mbedTLS and with OpenSSL, key schedule included in each open; prints
 * for each library and mode a line NAME NANOSECONDS: of one open, the least of five turns. */
#include <mbedtls/ccm.h>
#include <mbedtls/gcm.h>
#include <openssl/evp.h>
#include <stdio.h>
#include <stdlib.h>
#include <string.h>
#include <time.h>

enum { SIZE = 266, TAG = 16, CCM_NONCE = 13, GCM_NONCE = 12, OPENS = 100000, TURNS = 5 };

static const unsigned char key[16] = {7, 7, 7, 7, 7, 7, 7, 7, 7, 7, 7, 7, 7, 7, 7, 7};
static const unsigned char nonce[CCM_NONCE] = {2, 3, 4, 5, 6, 7, 8, 9, 10, 11, 12, 13, 14};
static unsigned char plain[SIZE], body[SIZE], tag[TAG], out[SIZE];
static EVP_CIPHER_CTX *context;

static double nanoseconds(void) {
    struct timespec t;
    clock_gettime(CLOCK_MONOTONIC, &t);
    return t.tv_sec * 1e9 + t.tv_nsec;
}

/* Each of these opens the body into `out`, and says whether it opened. */

static int mbedtls_opens_ccm(void) {
    mbedtls_ccm_context c;
    mbedtls_ccm_init(&c);
    int ok = mbedtls_ccm_setkey(&c, MBEDTLS_CIPHER_ID_AES, key, 128) == 0
        && mbedtls_ccm_auth_decrypt(&c, SIZE, nonce, CCM_NONCE, NULL, 0, body, out, tag, TAG) == 0;
    mbedtls_ccm_free(&c);
    return ok;
}

static int mbedtls_opens_gcm(void) {
    mbedtls_gcm_context c;
    mbedtls_gcm_init(&c);
    int ok = mbedtls_gcm_setkey(&c, MBEDTLS_CIPHER_ID_AES, key, 128) == 0
        && mbedtls_gcm_auth_decrypt(&c, SIZE, nonce, GCM_NONCE, NULL, 0, tag, TAG, body, out) == 0;
    mbedtls_gcm_free(&c);
    return ok;
}

static int openssl_opens_ccm(void) {
    int n;
    return EVP_DecryptInit_ex(context, EVP_aes_128_ccm(), NULL, NULL, NULL)
        && EVP_CIPHER_CTX_ctrl(context, EVP_CTRL_AEAD_SET_IVLEN, CCM_NONCE, NULL)
        && EVP_CIPHER_CTX_ctrl(context, EVP_CTRL_AEAD_SET_TAG, TAG, tag)
        && EVP_DecryptInit_ex(context, NULL, NULL, key, nonce)
        && EVP_DecryptUpdate(context, NULL, &n, NULL, SIZE)
        && EVP_DecryptUpdate(context, out, &n, body, SIZE);
}

static int openssl_opens_gcm(void) {
    int n;
    return EVP_DecryptInit_ex(context, EVP_aes_128_gcm(), NULL, NULL, NULL)
        && EVP_CIPHER_CTX_ctrl(context, EVP_CTRL_AEAD_SET_IVLEN, GCM_NONCE, NULL)
        && EVP_CIPHER_CTX_ctrl(context, EVP_CTRL_AEAD_SET_TAG, TAG, tag)
        && EVP_DecryptInit_ex(context, NULL, NULL, key, nonce)
        && EVP_DecryptUpdate(context, out, &n, body, SIZE)
        && EVP_DecryptFinal_ex(context, out + n, &n);
}

static void refuse(const char *name) {
    fprintf(stderr, "opens: %s does not open\n", name);
    exit(1);
}

static void measure(const char *name, int (*opens)(void)) {
    memset(out, 0, SIZE);
    if (!opens() || memcmp(out, plain, SIZE) != 0)
        refuse(name);
    double least = 1e18;
    for (int turn = 0; turn < TURNS; turn++) {
        double start = nanoseconds();
        for (int i = 0; i < OPENS; i++)
            if (!opens())
                refuse(name);
        double each = (nanoseconds() - start) / OPENS;
        if (each < least)
            least = each;
    }
    printf("%s %.0f\n", name, least);
}

static void seal_ccm(void) {
    mbedtls_ccm_context c;
    mbedtls_ccm_init(&c);
    if (mbedtls_ccm_setkey(&c, MBEDTLS_CIPHER_ID_AES, key, 128) != 0
        || mbedtls_ccm_encrypt_and_tag(&c, SIZE, nonce, CCM_NONCE, NULL, 0, plain, body, tag, TAG) != 0)
        refuse("sealing with CCM");
    mbedtls_ccm_free(&c);
}

static void seal_gcm(void) {
    mbedtls_gcm_context c;
    mbedtls_gcm_init(&c);
    if (mbedtls_gcm_setkey(&c, MBEDTLS_CIPHER_ID_AES, key, 128) != 0
        || mbedtls_gcm_crypt_and_tag(&c, MBEDTLS_GCM_ENCRYPT, SIZE, nonce, GCM_NONCE, NULL, 0, plain, body, TAG, tag) != 0)
        refuse("sealing with GCM");
    mbedtls_gcm_free(&c);
}

int main(void) {
    context = EVP_CIPHER_CTX_new();
    memset(plain, 3, SIZE);
    seal_ccm();
    measure("mbedtls-ccm", mbedtls_opens_ccm);
    measure("openssl-ccm", openssl_opens_ccm);
    seal_gcm();
    measure("mbedtls-gcm", mbedtls_opens_gcm);
    measure("openssl-gcm", openssl_opens_gcm);
    EVP_CIPHER_CTX_free(context);
    return 0;
}
