/* Loaded before mbedTLS, whose test of the processor it stands in for: there is no hardware AES, and no carry-less product. */
int mbedtls_aesni_has_support(unsigned int what);

int mbedtls_aesni_has_support(unsigned int what) {
    (void)what;
    return 0;
}
