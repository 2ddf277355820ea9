/* The time of SCRAM's Hi over SHA-256 with 4096 rounds by the system's libcrypto, to compare with that of `hi` in pg_auth.
   cc -O2 benches/hi.c -lcrypto -o hi && ./hi */
#include <openssl/evp.h>
#include <stdio.h>
#include <string.h>
#include <time.h>

int main(void)
{
    static const unsigned char salt[16] = {0x5b, 0x6d, 0x99, 0x68, 0x9d, 0x12, 0x35, 0x8e, 0xec, 0xa0, 0x4b, 0x14, 0x12, 0x36, 0xfa, 0x81};
    static const char password[] = "pencil";
    enum { RUNS = 200 };
    unsigned char salted[32];
    struct timespec start, end;

    clock_gettime(CLOCK_MONOTONIC, &start);
    for (int run = 0; run < RUNS; run++)
        if (PKCS5_PBKDF2_HMAC(password, (int)strlen(password), salt, sizeof salt, 4096, EVP_sha256(), sizeof salted, salted) != 1)
            return 1;
    clock_gettime(CLOCK_MONOTONIC, &end);
    for (size_t i = 0; i < sizeof salted; i++)
        printf("%02x", salted[i]);
    printf("\n%.3f ms\n", ((end.tv_sec - start.tv_sec) * 1e3 + (end.tv_nsec - start.tv_nsec) / 1e6) / RUNS);
    return 0;
}
