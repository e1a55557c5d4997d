/*
 * Checks that a file is one certificate in PEM or DER: whether its octets are the one DER encoding of a certificate (RFC 5280), and if
 * they aren't, why. Of a file of PEM it is the first block. Its signature and dates aren't checked, nor what its open types hold, such as
 * the values in names. cc -std=c11 check.c -lsoqavise -o check && ./check certificate.pem
 */
#include <soqavise.h>

#include <stdio.h>

int main(int count, char **words) {
    static char input[1 << 20];
    static uint8_t block[1 << 20];
    FILE *file = count == 2 ? fopen(words[1], "rb") : NULL;
    const uint8_t *octets = block;
    size_t length, size;
    soq_block place;
    soq_fault fault;
    char text[200];
    if (file == NULL) {
        fprintf(stderr, "usage: check FILE\n");
        return 2;
    }
    size = fread(input, 1, sizeof input, file);
    if (ferror(file) || !feof(file)) {
        fprintf(stderr, "%s: cannot be read, or is larger than a megabyte\n", words[1]);
        return 2;
    }
    fclose(file);
    if (soq_pem(input, size, 0, &place, block, sizeof block, &length) != SOQ_OK) {
        octets = (const uint8_t *)input;
        length = size;
    }
    switch (soq_check(SOQ_CERTIFICATE, octets, length)) {
    case SOQ_OK:
        printf("%s: a certificate of %zu octets\n", words[1], length);
        return 0;
    case SOQ_REFUSED:
        soq_decode_error(SOQ_CERTIFICATE, SOQ_DER, octets, length, &fault, text, sizeof text);
        printf("%s: no certificate: %s\n", words[1], text);
        return 1;
    default:
        fprintf(stderr, "%s: out of memory\n", words[1]);
        return 2;
    }
}
