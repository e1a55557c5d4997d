/*
 * Prints the subject of the first certificate of a PEM file and the time at which its validity ends (RFC 5280 4.1), by a schema of its
 * module. cc -std=c11 subject.c -lsoqavise -o subject && ./subject certificates.asn1 certificate.pem
 */
#include "soqavise.h"

#include <stdio.h>
#include <time.h>

static char modules[1 << 16], pem[1 << 16], text[1 << 10];
static uint8_t octets[1 << 16], schema[1 << 14];

int main(int count, char **words) {
    FILE *first = count == 3 ? fopen(words[1], "rb") : NULL, *second = count == 3 ? fopen(words[2], "rb") : NULL;
    if (first == NULL || second == NULL) {
        fprintf(stderr, "usage: subject MODULES FILE\n");
        return 2;
    }
    soq_texts texts = {"modules", 7, modules, fread(modules, 1, sizeof modules, first)};
    size_t size, length, end = fread(pem, 1, sizeof pem, second);
    soq_block block; soq_part part; soq_instant until;
    if (soq_pem(pem, end, 0, &block, octets, sizeof octets, &length) != SOQ_OK) {
        fprintf(stderr, "%s: no block of PEM\n", words[2]);
        return 1;
    }
    if (soq_compile(&texts, 1, "Certificate", schema, sizeof schema, &size, NULL, text, sizeof text) != SOQ_OK
        || soq_check_by(schema, size, SOQ_DER, 1, octets, length, NULL, text, sizeof text) != SOQ_OK
        || soq_find(schema, size, SOQ_DER, octets, length, "tbsCertificate.subject", &part, NULL, NULL, 0) != SOQ_OK
        || soq_name_text(SOQ_DER, octets + part.offset, part.length, text, sizeof text, &end) != SOQ_OK) {
        fprintf(stderr, "no certificate: %s\n", text);
        return 1;
    }
    printf("%s\n", text);
    soq_find(schema, size, SOQ_DER, octets, length, "tbsCertificate.validity.notAfter", &part, NULL, NULL, 0);
    soq_seconds(part.tag_number == 23 ? SOQ_UTCTIME : SOQ_GENTIME, SOQ_DER, octets + part.offset, part.length, &until);
    strftime(text, sizeof text, "%Y-%m-%d %H:%M:%S", gmtime(&(time_t){(time_t)until.seconds}));
    printf("valid until %s\n", text);
    return 0;
}
