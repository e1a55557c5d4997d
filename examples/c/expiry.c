/*
 * Prints the serial number of a certificate in DER, and the time at which its validity ends (RFC 5280 4.1).
 * cc -std=c11 expiry.c -lsoqavise -o expiry
 * sed '/^-----/d' certificate.pem | base64 -d > certificate.der && ./expiry certificate.der
 */
#include "soqavise.h"

#include <inttypes.h>
#include <stdio.h>

typedef struct octets {
    const uint8_t *at;
    size_t length;
} octets;

/* Takes the next encoding off the front of the octets, all of it into `whole`, and returns its contents. */
static octets take(octets *from, octets *whole) {
    soq_encoding it;
    octets contents = {NULL, 0};
    *whole = contents;
    if (soq_next(SOQ_DER, from->at, from->length, &it) == SOQ_OK) {
        contents = (octets){from->at + it.header, it.contents};
        *whole = (octets){from->at, it.length};
        *from = (octets){from->at + it.length, from->length - it.length};
    }
    return contents;
}

int main(int count, char **words) {
    static uint8_t file[1 << 16];
    FILE *input = count == 2 ? fopen(words[1], "rb") : NULL;
    octets certificate = {file, input == NULL ? 0 : fread(file, 1, sizeof file, input)}, whole, serial, body, validity;
    soq_time_fields end;
    int64_t number;
    if (soq_check(SOQ_CERTIFICATE, certificate.at, certificate.length) != SOQ_OK) {
        fprintf(stderr, "usage: expiry CERTIFICATE, which is one in DER\n");
        return 1;
    }
    body = take(&certificate, &whole);
    body = take(&body, &whole);
    if (body.at[0] == 0xA0) {
        take(&body, &whole); /* [0] version */
    }
    take(&body, &serial);
    take(&body, &whole); /* signature */
    take(&body, &whole); /* issuer */
    validity = take(&body, &whole);
    take(&validity, &whole); /* notBefore */
    take(&validity, &whole);
    if (soq_integer_i64(SOQ_DER, serial.at, serial.length, &number) == SOQ_OK) {
        printf("serial number %" PRId64 "\n", number);
    }
    if (soq_time(whole.at[0] == 0x17 ? SOQ_UTCTIME : SOQ_GENTIME, SOQ_DER, whole.at, whole.length, &end) == SOQ_OK) {
        printf("valid until %04" PRId32 "-%02" PRIu32 "-%02" PRIu32 " %02" PRIu32 ":%02" PRIu32 ":%02" PRIu32 "\n", end.year, end.month, end.day,
               end.hour, end.minute, end.second);
    }
    return 0;
}
