/*
 * openssl's AES-128, an implementation that shares nothing with ours, for a
 * program at the other end of two pipes: for each key and block that it reads,
 * 16 bytes each, it writes the block enciphered, until its input ends.
 *
 * It is compiled for the machine's own processor, as openssl's library is.
 */
#include <stdio.h>
#include <stdlib.h>

#include <openssl/evp.h>

enum { SIZE = 16 };

int main(void)
{
    unsigned char asked[2 * SIZE], out[SIZE];
    EVP_CIPHER_CTX *context = EVP_CIPHER_CTX_new();

    if (context == NULL || EVP_EncryptInit_ex(context, EVP_aes_128_ecb(), NULL, NULL, NULL) != 1) {
        fprintf(stderr, "openssl has no AES-128\n");
        return EXIT_FAILURE;
    }
    while (fread(asked, sizeof asked, 1, stdin) == 1) {
        int written = 0;
        if (EVP_EncryptInit_ex(context, NULL, NULL, asked, NULL) != 1
            || EVP_CIPHER_CTX_set_padding(context, 0) != 1
            || EVP_EncryptUpdate(context, out, &written, asked + SIZE, SIZE) != 1 || written != SIZE) {
            fprintf(stderr, "openssl did not encipher\n");
            return EXIT_FAILURE;
        }
        if (fwrite(out, sizeof out, 1, stdout) != 1 || fflush(stdout) != 0)
            return EXIT_FAILURE;
    }
    EVP_CIPHER_CTX_free(context);
    return EXIT_SUCCESS;
}
