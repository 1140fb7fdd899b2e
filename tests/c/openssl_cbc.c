/*
 * openssl's AES-128 in CBC mode, an implementation that shares nothing with ours,
 * for a program at the other end of two pipes. For each key and initial value, 16
 * bytes each, a number of bytes (four, low byte first) and so many bytes, a multiple
 * of 16, it writes the last block enciphered, until its input ends.
 *
 * It is compiled for the machine's own processor, as openssl's library is.
 */
#include <stdio.h>
#include <stdlib.h>

#include <openssl/evp.h>

enum { SIZE = 16, MOST = 1 << 20 };

/* What is asked: key, initial value and how many bytes follow. */
struct asked {
    unsigned char key[SIZE], initial[SIZE], length[4];
};

static int stop(const char *why)
{
    fprintf(stderr, "openssl_cbc: %s\n", why);
    return EXIT_FAILURE;
}

int main(void)
{
    static unsigned char text[MOST], out[MOST + SIZE];
    struct asked asked;
    EVP_CIPHER_CTX *context = EVP_CIPHER_CTX_new();

    if (context == NULL)
        return stop("openssl has no AES-128");
    while (fread(&asked, sizeof asked, 1, stdin) == 1) {
        size_t length = asked.length[0] | (size_t)asked.length[1] << 8 | (size_t)asked.length[2] << 16 | (size_t)asked.length[3] << 24;
        int written = 0;
        if (length == 0 || length % SIZE != 0 || length > sizeof text || fread(text, length, 1, stdin) != 1)
            return stop("that cannot be enciphered");
        if (EVP_EncryptInit_ex(context, EVP_aes_128_cbc(), NULL, asked.key, asked.initial) != 1
            || EVP_CIPHER_CTX_set_padding(context, 0) != 1
            || EVP_EncryptUpdate(context, out, &written, text, (int)length) != 1 || (size_t)written != length)
            return stop("openssl did not encipher");
        if (fwrite(out + length - SIZE, SIZE, 1, stdout) != 1 || fflush(stdout) != 0)
            return EXIT_FAILURE;
    }
    EVP_CIPHER_CTX_free(context);
    return EXIT_SUCCESS;
}
