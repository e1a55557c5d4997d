/*
 * A fuzzer of the calls by a schema. `.ci/fuzz c` runs it with the driver at its end; with libFuzzer, which counts branches, it is
 * built and run so (SECURITY.md has the figures of a run):
 * clang -std=c11 -fsanitize=fuzzer,address -Iinclude .ci/c/fuzz.c libsoqavise.a -o fuzz && ./fuzz -max_total_time=60 FOLDER
 * The environment variable MODULE names the file of a module with the type Certificate. The folder may have certificates in DER.
 */
#include "soqavise.h"

#include <stdio.h>
#include <stdlib.h>
#include <string.h>

#define ENSURE(holds)                                                           \
    do {                                                                        \
        if (!(holds)) {                                                         \
            fprintf(stderr, "fuzz: line %d: not so: %s\n", __LINE__, #holds);   \
            abort();                                                            \
        }                                                                       \
    } while (0)

static uint8_t schema[1 << 14];
static size_t size;

int LLVMFuzzerInitialize(int *count, char ***words);
int LLVMFuzzerTestOneInput(const uint8_t *octets, size_t length);

int LLVMFuzzerInitialize(int *count, char ***words) {
    static char module[1 << 16], text[200];
    FILE *file = getenv("MODULE") == NULL ? NULL : fopen(getenv("MODULE"), "rb");
    soq_texts texts = {"module", 6, module, file == NULL ? 0 : fread(module, 1, sizeof module, file)};
    (void)count;
    (void)words;
    ENSURE(soq_compile(&texts, 1, "Certificate", schema, sizeof schema, &size, NULL, text, sizeof text) == SOQ_OK);
    return 0;
}

/* What BER reads has JSON or says why not; what has JSON is written by DER, which reads it, and has the same JSON again. */
int LLVMFuzzerTestOneInput(const uint8_t *octets, size_t length) {
    static char json[1 << 20], again[1 << 20], text[64];
    static uint8_t written[1 << 20];
    size_t needed = 0, count = 0, other = 0;
    soq_reason reason;
    soq_status checked = soq_check_by(schema, size, SOQ_BER, 0, octets, length, &reason, text, sizeof text);
    soq_status strict = soq_check_by(schema, size, SOQ_DER, 1, octets, length, &reason, text, sizeof text);
    soq_status made = soq_json(schema, size, SOQ_BER, 0, octets, length, json, sizeof json, &needed, &reason, text, sizeof text);
    ENSURE(checked == SOQ_OK || checked == SOQ_REFUSED);
    ENSURE(strict == SOQ_REFUSED || (strict == SOQ_OK && checked == SOQ_OK));
    ENSURE(made == SOQ_REFUSED || (made == SOQ_OK && checked == SOQ_OK));
    if (made == SOQ_OK && soq_encode(schema, size, SOQ_DER, json, needed - 1, written, sizeof written, &count, &reason, text, sizeof text) == SOQ_OK) {
        ENSURE(strict != SOQ_OK || (count == length && memcmp(written, octets, length) == 0));
        if (soq_check_by(schema, size, SOQ_DER, 0, written, count, &reason, text, sizeof text) == SOQ_OK) {
            ENSURE(soq_json(schema, size, SOQ_DER, 0, written, count, again, sizeof again, &other, &reason, text, sizeof text) == SOQ_OK);
            ENSURE(other == needed && memcmp(json, again, needed) == 0);
        }
    }
    return 0;
}

#ifdef ALONE
#include <time.h>

static uint64_t state;

/* A number below this one, the next of a fixed sequence (xorshift, multiplied). */
static size_t draw(size_t below) {
    state ^= state >> 12;
    state ^= state << 25;
    state ^= state >> 27;
    return (size_t)((state * 2685821657736338717ULL) >> 33) % below;
}

/* Changes octets in place in one place: another bit, another octet, some left out, some twice. */
static size_t spoil(uint8_t *octets, size_t length, size_t capacity) {
    static const uint8_t ODD[] = {0x00, 0x01, 0x1F, 0x24, 0x30, 0x7F, 0x80, 0x81, 0x84, 0xA0, 0xFF};
    size_t at = draw(length), some = 1 + draw(8);
    switch (draw(4)) {
    case 0:
        octets[at] ^= (uint8_t)(1u << draw(8));
        return length;
    case 1:
        octets[at] = ODD[draw(sizeof ODD)];
        return length;
    case 2:
        if (at + some < length) {
            memmove(octets + at, octets + at + some, length - at - some);
            return length - some;
        }
        return length;
    default:
        if (at + some <= length && length + some <= capacity) {
            memmove(octets + at + some, octets + at, length - at);
            return length + some;
        }
        return length;
    }
}

/* FILE SECONDS SEED: octets of the file, spoilt in one to four places, for so many seconds. */
int main(int count, char **words) {
    static uint8_t octets[1 << 16], spoilt[1 << 16];
    FILE *file = count == 4 ? fopen(words[1], "rb") : NULL;
    size_t length = file == NULL ? 0 : fread(octets, 1, sizeof octets / 2, file);
    time_t end = time(NULL) + (count == 4 ? atoi(words[2]) : 0);
    size_t inputs = 0;
    if (length == 0) {
        fprintf(stderr, "usage: fuzz FILE SECONDS SEED\n");
        return 2;
    }
    fclose(file);
    state = 88172645463325252ULL + strtoull(words[3], NULL, 10);
    LLVMFuzzerInitialize(&count, &words);
    do {
        size_t made = length;
        memcpy(spoilt, octets, length);
        for (size_t left = 1 + draw(4); left > 0; left--) {
            made = spoil(spoilt, made, sizeof spoilt);
        }
        LLVMFuzzerTestOneInput(spoilt, made);
        inputs++;
    } while (inputs % 64 != 0 || time(NULL) < end);
    printf("fuzz: c: %zu inputs, nothing found\n", inputs);
    return 0;
}
#endif
