/*
 * Calls the functions of the library for texts and extensions: names (the examples of RFC 4514 4) and blocks of PEM, with buffers of every size, invalid
 * arguments and failing allocations; and what the header has compiled with a program. It is linked as test.c is.
 */
#include "memory.h"
#include "soqavise.h"

#include <stdio.h>
#include <stdlib.h>
#include <string.h>

#define ENSURE(holds)                                                              \
    do {                                                                           \
        if (!(holds)) {                                                            \
            fprintf(stderr, "texts: line %d: not so: %s\n", __LINE__, #holds);     \
            exit(1);                                                               \
        }                                                                          \
    } while (0)

/* The names of the examples of RFC 4514 4 in DER, written out by X.690 8: DC=net, DC=example and a third one, or one alone. */
static const uint8_t smith[] = {
    0x30, 0x46, 0x31, 0x13, 0x30, 0x11, 0x06, 0x0A, 0x09, 0x92, 0x26, 0x89, 0x93, 0xF2, 0x2C, 0x64, 0x01, 0x19, 0x16, 0x03, 0x6E, 0x65,
    0x74, 0x31, 0x17, 0x30, 0x15, 0x06, 0x0A, 0x09, 0x92, 0x26, 0x89, 0x93, 0xF2, 0x2C, 0x64, 0x01, 0x19, 0x16, 0x07, 0x65, 0x78, 0x61,
    0x6D, 0x70, 0x6C, 0x65, 0x31, 0x16, 0x30, 0x14, 0x06, 0x0A, 0x09, 0x92, 0x26, 0x89, 0x93, 0xF2, 0x2C, 0x64, 0x01, 0x01, 0x0C, 0x06,
    0x6A, 0x73, 0x6D, 0x69, 0x74, 0x68};

static const uint8_t sales[] = {
    0x30, 0x50, 0x31, 0x13, 0x30, 0x11, 0x06, 0x0A, 0x09, 0x92, 0x26, 0x89, 0x93, 0xF2, 0x2C, 0x64, 0x01, 0x19, 0x16, 0x03, 0x6E, 0x65,
    0x74, 0x31, 0x17, 0x30, 0x15, 0x06, 0x0A, 0x09, 0x92, 0x26, 0x89, 0x93, 0xF2, 0x2C, 0x64, 0x01, 0x19, 0x16, 0x07, 0x65, 0x78, 0x61,
    0x6D, 0x70, 0x6C, 0x65, 0x31, 0x20, 0x30, 0x0C, 0x06, 0x03, 0x55, 0x04, 0x0B, 0x0C, 0x05, 0x53, 0x61, 0x6C, 0x65, 0x73, 0x30, 0x10,
    0x06, 0x03, 0x55, 0x04, 0x03, 0x0C, 0x09, 0x4A, 0x2E, 0x20, 0x20, 0x53, 0x6D, 0x69, 0x74, 0x68};

static const uint8_t jim[] = {
    0x30, 0x4F, 0x31, 0x13, 0x30, 0x11, 0x06, 0x0A, 0x09, 0x92, 0x26, 0x89, 0x93, 0xF2, 0x2C, 0x64, 0x01, 0x19, 0x16, 0x03, 0x6E, 0x65,
    0x74, 0x31, 0x17, 0x30, 0x15, 0x06, 0x0A, 0x09, 0x92, 0x26, 0x89, 0x93, 0xF2, 0x2C, 0x64, 0x01, 0x19, 0x16, 0x07, 0x65, 0x78, 0x61,
    0x6D, 0x70, 0x6C, 0x65, 0x31, 0x1F, 0x30, 0x1D, 0x06, 0x03, 0x55, 0x04, 0x03, 0x0C, 0x16, 0x4A, 0x61, 0x6D, 0x65, 0x73, 0x20, 0x22,
    0x4A, 0x69, 0x6D, 0x22, 0x20, 0x53, 0x6D, 0x69, 0x74, 0x68, 0x2C, 0x20, 0x49, 0x49, 0x49};

static const uint8_t before[] = {
    0x30, 0x45, 0x31, 0x13, 0x30, 0x11, 0x06, 0x0A, 0x09, 0x92, 0x26, 0x89, 0x93, 0xF2, 0x2C, 0x64, 0x01, 0x19, 0x16, 0x03, 0x6E, 0x65,
    0x74, 0x31, 0x17, 0x30, 0x15, 0x06, 0x0A, 0x09, 0x92, 0x26, 0x89, 0x93, 0xF2, 0x2C, 0x64, 0x01, 0x19, 0x16, 0x07, 0x65, 0x78, 0x61,
    0x6D, 0x70, 0x6C, 0x65, 0x31, 0x15, 0x30, 0x13, 0x06, 0x03, 0x55, 0x04, 0x03, 0x0C, 0x0C, 0x42, 0x65, 0x66, 0x6F, 0x72, 0x65, 0x0D,
    0x41, 0x66, 0x74, 0x65, 0x72};

static const uint8_t unknown[] = {
    0x30, 0x12, 0x31, 0x10, 0x30, 0x0E, 0x06, 0x08, 0x2B, 0x06, 0x01, 0x04, 0x01, 0x8B, 0x3A, 0x00, 0x04, 0x02, 0x48, 0x69};

static const uint8_t lucic[] = {
    0x30, 0x12, 0x31, 0x10, 0x30, 0x0E, 0x06, 0x03, 0x55, 0x04, 0x03, 0x0C, 0x07, 0x4C, 0x75, 0xC4, 0x8D, 0x69, 0xC4, 0x87};

/* CN " a " (PrintableString) and OU "#b#" (IA5String); CN E9 (TeletexString). */
static const uint8_t edges[] = {
    0x30, 0x1C, 0x31, 0x0C, 0x30, 0x0A, 0x06, 0x03, 0x55, 0x04, 0x03, 0x13, 0x03, 0x20, 0x61, 0x20, 0x31, 0x0C, 0x30, 0x0A, 0x06, 0x03,
    0x55, 0x04, 0x0B, 0x16, 0x03, 0x23, 0x62, 0x23};

static const uint8_t teletex[] = {
    0x30, 0x0C, 0x31, 0x0A, 0x30, 0x08, 0x06, 0x03, 0x55, 0x04, 0x03, 0x14, 0x01, 0xE9};

/* `smith` with an indefinite length (X.690 8.1.3.6), and with an octet after it. */
static uint8_t spelled[sizeof smith + 2], longer[sizeof smith + 1];

typedef struct named {
    const uint8_t *octets;
    size_t length;
    soq_rule rule;
    soq_status status;
    const char *text;
} named;

#define OF(octets) octets, sizeof octets

static const named names[] = {
    {OF(smith), SOQ_DER, SOQ_OK, "UID=jsmith,DC=example,DC=net"},
    {OF(sales), SOQ_DER, SOQ_OK, "OU=Sales+CN=J.  Smith,DC=example,DC=net"},
    {OF(jim), SOQ_DER, SOQ_OK, "CN=James \\\"Jim\\\" Smith\\, III,DC=example,DC=net"},
    {OF(before), SOQ_DER, SOQ_OK, "CN=Before\\0dAfter,DC=example,DC=net"},
    {OF(unknown), SOQ_DER, SOQ_OK, "1.3.6.1.4.1.1466.0=#04024869"},
    {OF(lucic), SOQ_DER, SOQ_OK, "CN=Lu\xC4\x8Di\xC4\x87"},
    {OF(edges), SOQ_DER, SOQ_OK, "OU=\\#b#,CN=\\ a\\ "},
    {OF(teletex), SOQ_DER, SOQ_OK, "CN=#1401e9"},
    {OF(spelled), SOQ_BER, SOQ_OK, "UID=jsmith,DC=example,DC=net"},
    {OF(spelled), SOQ_DER, SOQ_REFUSED, ""},
    {OF(longer), SOQ_BER, SOQ_REFUSED, ""},
    {smith, sizeof smith - 1, SOQ_DER, SOQ_REFUSED, ""},
    {NULL, 0, SOQ_DER, SOQ_REFUSED, ""},
    {OF(smith), (soq_rule)3, SOQ_UNKNOWN_RULE, ""},
};

static void names_are_written(void) {
    size_t i, size;
    for (i = 0; i < sizeof names / sizeof *names; i++) {
        const named *it = &names[i];
        size_t wanted = it->status == SOQ_OK ? strlen(it->text) + 1 : 0;
        for (size = 0; size <= wanted + 1; size++) {
            char *text = malloc(size == 0 ? 1 : size);
            size_t needed = 7;
            soq_status status;
            memset(text, 0x5A, size);
            status = soq_name_text(it->rule, it->octets, it->length, text, size, &needed);
            if (status != (size < wanted ? SOQ_BUFFER_TOO_SMALL : it->status) || needed != wanted) {
                fprintf(stderr, "texts: name %zu: status %d, %zu octets\n", i, (int)status, needed);
                exit(1);
            }
            ENSURE(status == SOQ_OK ? strcmp(text, it->text) == 0 : size == 0 || text[0] == 0x5A);
            free(text);
        }
    }
}

static const char blocks[] =
    "before\n-----BEGIN A B-----\nAQID\nBA==\n-----END A B-----\n-----BEGIN C-----\n?\n-----END C-----\n-----BEGIN D-----\r\nAQID\r\n";

typedef struct held_block {
    soq_status status;
    const char *label;
    size_t line;
} held_block;

static const held_block held_blocks[] = {{SOQ_OK, "A B", 2}, {SOQ_REFUSED, "C", 6}, {SOQ_REFUSED, "D", 9}};

static void blocks_are_found(void) {
    static const uint8_t contents[] = {1, 2, 3, 4};
    uint8_t buffer[5];
    soq_block block = {7, 7, 7};
    size_t i, size, needed = 7;
    for (i = 0; i < sizeof held_blocks / sizeof *held_blocks; i++) {
        const held_block *it = &held_blocks[i];
        ENSURE(soq_pem(blocks, sizeof blocks - 1, i, &block, buffer, sizeof buffer, &needed) == it->status);
        ENSURE(block.label_length == strlen(it->label) && memcmp(blocks + block.label, it->label, block.label_length) == 0);
        ENSURE(block.line == it->line && needed == (it->status == SOQ_OK ? sizeof contents : 0));
    }
    ENSURE(soq_pem(blocks, sizeof blocks - 1, 0, &block, NULL, 0, &needed) == SOQ_BUFFER_TOO_SMALL && block.label == 18);
    for (size = 0; size < 6; size++) {
        soq_status wanted = size < sizeof contents ? SOQ_BUFFER_TOO_SMALL : SOQ_OK;
        memset(buffer, 0xA5, sizeof buffer);
        ENSURE(soq_pem(blocks, sizeof blocks - 1, 0, &block, buffer, size < 5 ? size : 5, &needed) == wanted && needed == sizeof contents);
        ENSURE(wanted == SOQ_OK ? memcmp(buffer, contents, sizeof contents) == 0 && buffer[4] == 0xA5 : buffer[0] == 0xA5);
    }
    ENSURE(soq_pem(blocks, sizeof blocks - 1, 3, &block, buffer, 5, &needed) == SOQ_ABSENT);
    ENSURE(needed == 0 && block.label == 0 && block.label_length == 0 && block.line == 0);
    ENSURE(soq_pem(NULL, 0, 0, &block, buffer, 5, &needed) == SOQ_ABSENT && soq_pem(blocks, 6, SIZE_MAX, &block, buffer, 5, &needed) == SOQ_ABSENT);
}

/* What soq_pem finds in the whole text is what it finds in one front after another, each of which has one block or none. */
static void fronts_have_the_blocks(const char *text, size_t length) {
    char *copy = malloc(length == 0 ? 1 : length);
    size_t at = 0, line = 0, index = 0;
    memcpy(copy, text, length);
    while (at < length) {
        uint8_t one[64], other[64];
        soq_block block, same;
        size_t needed, wanted, i, front = soq_pem_front(copy + at, length - at);
        soq_status status = soq_pem(copy + at, front, 0, &block, one, sizeof one, &needed);
        ENSURE(front > 0 && front <= length - at && soq_pem(copy + at, front, 1, &same, one, sizeof one, &wanted) == SOQ_ABSENT);
        if (status != SOQ_ABSENT) {
            ENSURE(soq_pem(text, length, index++, &same, other, sizeof other, &wanted) == status && needed == wanted);
            ENSURE(same.label == at + block.label && same.label_length == block.label_length && same.line == line + block.line);
            ENSURE(memcmp(one, other, needed) == 0);
        }
        for (i = 0; i < front; i++) {
            line += copy[at + i] == '\n';
        }
        at += front;
    }
    free(copy);
    {
        soq_block block;
        size_t needed;
        ENSURE(soq_pem(text, length, index, &block, NULL, 0, &needed) == SOQ_ABSENT);
    }
}

static void fronts_are_found(void) {
    static const char *const pieces[] = {"-----BEGIN ", "-----END ", "-----", "X", "\n", "\r\n", " ", "AQID", "-----BEGIN X-----\n", "-----END X-----\n", "AQID\n"};
    uint32_t random = 7;
    int i, k;
    ENSURE(soq_pem_front(blocks, sizeof blocks - 1) == 7 && soq_pem_front(blocks + 7, sizeof blocks - 8) == 48);
    ENSURE(soq_pem_front("\n-----BEGIN ", 12) == 1 && soq_pem_front("\n-----BEGIN ", 11) == 11 && soq_pem_front("-----BEGIN ", 11) == 11);
    ENSURE(soq_pem_front(NULL, 0) == 0 && soq_pem_front("\n", 1) == 1);
    fronts_have_the_blocks(blocks, sizeof blocks - 1);
    for (i = 0; i < 3000; i++) {
        char text[512];
        text[0] = 0;
        for (k = i % 24; k > 0; k--) {
            random = random * 1664525u + 1013904223u;
            strcat(text, pieces[(random >> 16) % (sizeof pieces / sizeof *pieces)]);
        }
        fronts_have_the_blocks(text, strlen(text));
    }
}

typedef struct boolean {
    uint8_t octets[5];
    size_t length;
    soq_rule rule;
    soq_status status;
    int value;
} boolean;

/* X.690 8.2, 8.14 (another tag) and 11.1. */
static const boolean booleans[] = {
    {{0x01, 0x01, 0xFF}, 3, SOQ_DER, SOQ_OK, 1}, {{0x01, 0x01, 0x00}, 3, SOQ_DER, SOQ_OK, 0}, {{0x85, 0x01, 0xFF}, 3, SOQ_CER, SOQ_OK, 1},
    {{0x01, 0x01, 0x05}, 3, SOQ_DER, SOQ_REFUSED, 0}, {{0x01, 0x01, 0x05}, 3, SOQ_CER, SOQ_REFUSED, 0}, {{0x01, 0x01, 0x05}, 3, SOQ_BER, SOQ_OK, 1},
    {{0x01, 0x81, 0x01, 0x80}, 4, SOQ_BER, SOQ_OK, 1}, {{0x01, 0x81, 0x01, 0xFF}, 4, SOQ_DER, SOQ_REFUSED, 0}, {{0x01, 0x00}, 2, SOQ_BER, SOQ_REFUSED, 0},
    {{0x01, 0x02, 0x01, 0x00}, 4, SOQ_BER, SOQ_REFUSED, 0}, {{0x01, 0x02, 0x00, 0x80}, 4, SOQ_BER, SOQ_REFUSED, 0},
    {{0x21, 0x03, 0x01, 0x01, 0xFF}, 5, SOQ_BER, SOQ_REFUSED, 0}, {{0x01, 0x01, 0xFF, 0x00}, 4, SOQ_BER, SOQ_REFUSED, 0},
    {{0x01, 0x01}, 2, SOQ_BER, SOQ_REFUSED, 0}, {{0x01, 0x01, 0xFF}, 3, (soq_rule)3, SOQ_UNKNOWN_RULE, 0},
};

static void booleans_are_read(void) {
    size_t i;
    int value = 7;
    for (i = 0; i < sizeof booleans / sizeof *booleans; i++) {
        const boolean *it = &booleans[i];
        value = 7;
        if (soq_bool(it->rule, it->octets, it->length, &value) != it->status || value != it->value) {
            fprintf(stderr, "texts: boolean %zu: %d\n", i, value);
            exit(1);
        }
    }
    ENSURE(soq_bool(SOQ_DER, booleans[0].octets, 3, NULL) == SOQ_NULL_POINTER && soq_bool(SOQ_DER, NULL, 3, &value) == SOQ_NULL_POINTER);
    ENSURE(soq_bool(SOQ_DER, NULL, 0, &value) == SOQ_REFUSED && value == 0);
}

typedef struct string {
    uint8_t octets[24];
    size_t length;
    soq_rule rule;
    soq_status status;
    const char *wanted;
} string;

/* X.690 8.7: one in place, one in segments by a tag of its own, segments in segments of both forms of length, and octets that aren't one. */
static const string strings[] = {
    {{0x04, 0x02, 0x61, 0x62}, 4, SOQ_DER, SOQ_OK, "ab"}, {{0x80, 0x01, 0x61}, 3, SOQ_DER, SOQ_OK, "a"}, {{0x04, 0x00}, 2, SOQ_DER, SOQ_OK, ""},
    {{0xA0, 0x80, 0x04, 0x01, 0x62, 0x24, 0x80, 0x04, 0x00, 0x04, 0x02, 0x63, 0x64, 0x00, 0x00, 0x24, 0x03, 0x04, 0x01, 0x65, 0x00, 0x00}, 22, SOQ_BER,
     SOQ_OK, "bcde"},
    {{0x24, 0x00}, 2, SOQ_BER, SOQ_OK, ""}, {{0x24, 0x80, 0x00, 0x00}, 4, SOQ_CER, SOQ_OK, ""}, {{0x24, 0x04, 0x04, 0x02, 0x00, 0x00}, 6, SOQ_BER, SOQ_OK, NULL},
    {{0x24, 0x03, 0x02, 0x01, 0x61}, 5, SOQ_BER, SOQ_REFUSED, ""}, {{0x24, 0x03, 0x04, 0x02, 0x61}, 5, SOQ_BER, SOQ_REFUSED, ""},
    {{0x24, 0x01, 0x04}, 3, SOQ_BER, SOQ_REFUSED, ""}, {{0x04, 0x01, 0x61, 0x00}, 4, SOQ_BER, SOQ_REFUSED, ""}, {{0x04, 0x02, 0x61}, 3, SOQ_BER, SOQ_REFUSED, ""},
    {{0x04, 0x01, 0x61}, 3, (soq_rule)3, SOQ_UNKNOWN_RULE, ""},
};

static void strings_are_joined(void) {
    size_t i, size, needed;
    for (i = 0; i < sizeof strings / sizeof *strings; i++) {
        const string *it = &strings[i];
        const char *wanted = it->wanted == NULL ? "\0\0" : it->wanted;
        size_t count = it->wanted == NULL ? 2 : strlen(wanted);
        uint8_t *octets = malloc(it->length);
        memcpy(octets, it->octets, it->length);
        for (size = 0; size < count + 2; size++) {
            uint8_t *buffer = malloc(size == 0 ? 1 : size);
            soq_status expected = it->status == SOQ_OK && size < count ? SOQ_BUFFER_TOO_SMALL : it->status, status;
            memset(buffer, 0xA5, size);
            status = soq_octet_string(it->rule, octets, it->length, buffer, size, &needed);
            if (status != expected || needed != count) {
                fprintf(stderr, "texts: string %zu: status %d, %zu octets\n", i, (int)status, needed);
                exit(1);
            }
            ENSURE(status == SOQ_OK ? memcmp(buffer, wanted, count) == 0 && (size == count || buffer[count] == 0xA5) : size == 0 || buffer[0] == 0xA5);
            free(buffer);
        }
        free(octets);
    }
    ENSURE(soq_octet_string(SOQ_DER, strings[0].octets, 4, NULL, 0, &needed) == SOQ_BUFFER_TOO_SMALL && needed == 2);
    ENSURE(soq_octet_string(SOQ_DER, strings[0].octets, 4, NULL, 1, &needed) == SOQ_NULL_POINTER && needed == 0);
    ENSURE(soq_octet_string(SOQ_DER, NULL, 1, NULL, 0, &needed) == SOQ_NULL_POINTER && soq_octet_string(SOQ_DER, NULL, 0, NULL, 0, NULL) == SOQ_NULL_POINTER);
    ENSURE(soq_octet_string(SOQ_DER, NULL, 0, NULL, 0, &needed) == SOQ_REFUSED);
}

/* basicConstraints {}, keyUsage twice: 03 02 05 A0 and 03 02 01 06 (RFC 5280 4.2.1). */
static const uint8_t extensions[] = {0x30, 0x2B, 0x30, 0x0C, 0x06, 0x03, 0x55, 0x1D, 0x13, 0x01, 0x01, 0xFF, 0x04, 0x02, 0x30, 0x00,
                                     0x30, 0x0B, 0x06, 0x03, 0x55, 0x1D, 0x0F, 0x04, 0x04, 0x03, 0x02, 0x05, 0xA0,
                                     0x30, 0x0E, 0x06, 0x03, 0x55, 0x1D, 0x0F, 0x01, 0x01, 0xFF, 0x04, 0x04, 0x03, 0x02, 0x01, 0x06};

static void extensions_are_found(void) {
    static const uint8_t usage[] = {0x03, 0x02, 0x05, 0xA0};
    uint8_t buffer[5];
    size_t size, needed = 7;
    for (size = 0; size <= sizeof buffer; size++) {
        soq_status wanted = size < sizeof usage ? SOQ_BUFFER_TOO_SMALL : SOQ_OK;
        memset(buffer, 0xA5, sizeof buffer);
        ENSURE(soq_extension(SOQ_DER, OF(extensions), "2.5.29.15", buffer, size, &needed) == wanted && needed == sizeof usage);
        ENSURE(wanted == SOQ_OK ? memcmp(buffer, usage, sizeof usage) == 0 && buffer[4] == 0xA5 : buffer[0] == 0xA5);
    }
    ENSURE(soq_extension(SOQ_DER, OF(extensions), "2.5.29.19", buffer, 5, &needed) == SOQ_OK && needed == 2 && buffer[0] == 0x30);
    ENSURE(soq_extension(SOQ_DER, OF(extensions), "2.5.29.1", buffer, 5, &needed) == SOQ_ABSENT && needed == 0);
    ENSURE(soq_extension(SOQ_DER, OF(extensions), "", buffer, 5, &needed) == SOQ_ABSENT);
    ENSURE(soq_extension(SOQ_DER, extensions, sizeof extensions - 1, "2.5.29.15", buffer, 5, &needed) == SOQ_REFUSED && needed == 0);
    ENSURE(soq_extension((soq_rule)3, OF(extensions), "2.5.29.15", buffer, 5, &needed) == SOQ_UNKNOWN_RULE);
}

static void wrong_arguments_are_answered(void) {
    union {
        uint8_t octets[256];
        char text[256];
        size_t needed;
        soq_block block;
    } shared;
    uint8_t out[64];
    char text[64];
    size_t needed = 7;
    soq_block block = {7, 7, 7};
    memset(&shared, 0, sizeof shared);
    memcpy(shared.octets, smith, sizeof smith);
    ENSURE(soq_name_text(SOQ_DER, NULL, 1, text, 64, &needed) == SOQ_NULL_POINTER && soq_name_text(SOQ_DER, OF(smith), NULL, 64, &needed) == SOQ_NULL_POINTER);
    ENSURE(soq_name_text(SOQ_DER, OF(smith), text, 64, NULL) == SOQ_NULL_POINTER && soq_name_text(SOQ_DER, smith, SIZE_MAX, text, 64, &needed) == SOQ_TOO_LONG);
    ENSURE(soq_name_text(SOQ_DER, shared.octets, sizeof smith, shared.text + 8, 64, &needed) == SOQ_OVERLAP);
    ENSURE(soq_name_text(SOQ_DER, shared.octets, sizeof smith, text, 64, &shared.needed) == SOQ_OVERLAP);
    ENSURE(soq_pem(NULL, 1, 0, &block, out, 64, &needed) == SOQ_NULL_POINTER && soq_pem(blocks, 8, 0, NULL, out, 64, &needed) == SOQ_NULL_POINTER);
    ENSURE(soq_pem(blocks, 8, 0, &block, NULL, 64, &needed) == SOQ_NULL_POINTER && soq_pem(blocks, 8, 0, &block, out, 64, NULL) == SOQ_NULL_POINTER);
    ENSURE(soq_pem(blocks, SIZE_MAX, 0, &block, out, 64, &needed) == SOQ_TOO_LONG);
    ENSURE(soq_pem(shared.text, 64, 0, &shared.block, out, 64, &needed) == SOQ_OVERLAP && soq_pem(shared.text, 64, 0, &block, shared.octets + 8, 8, &needed) == SOQ_OVERLAP);
    ENSURE(soq_pem(shared.text, 64, 0, &block, out, 64, &shared.needed) == SOQ_OVERLAP && soq_pem(blocks, 8, 0, &block, out, 64, &block.line) == SOQ_OVERLAP);
    ENSURE(soq_extension(SOQ_DER, NULL, 1, "1.2", out, 64, &needed) == SOQ_NULL_POINTER && soq_extension(SOQ_DER, OF(smith), NULL, out, 64, &needed) == SOQ_NULL_POINTER);
    ENSURE(soq_extension(SOQ_DER, OF(smith), "1.2", NULL, 64, &needed) == SOQ_NULL_POINTER && soq_extension(SOQ_DER, OF(smith), "1.2", out, 64, NULL) == SOQ_NULL_POINTER);
    ENSURE(soq_extension(SOQ_DER, shared.octets, sizeof smith, "1.2", shared.octets + 8, 8, &needed) == SOQ_OVERLAP);
    ENSURE(soq_extension(SOQ_DER, OF(smith), shared.text, shared.octets, 8, &needed) == SOQ_OVERLAP);
    ENSURE(memcmp(shared.octets, smith, sizeof smith) == 0 && needed == 7 && block.label == 7);
}

/* Makes each allocation of the calls fail once: the status is SOQ_OUT_OF_MEMORY or as usual, and no block stays in use. */
static void refused_memory_is_answered(void) {
    char text[64];
    uint8_t out[64];
    long request, before = held, failed = 0;
    for (request = 1; request < 100000; request++) {
        soq_block block;
        size_t needed;
        soq_status status[3];
        int i;
        refused_request = request;
        status[0] = soq_name_text(SOQ_DER, OF(jim), text, sizeof text, &needed);
        ENSURE(needed == (status[0] == SOQ_OK ? strlen(names[2].text) + 1 : 0));
        status[1] = soq_pem(blocks, sizeof blocks - 1, 0, &block, out, sizeof out, &needed);
        status[2] = soq_extension(SOQ_DER, OF(extensions), "2.5.29.15", out, sizeof out, &needed);
        for (i = 0; i < 3; i++) {
            ENSURE(status[i] == SOQ_OK || status[i] == SOQ_OUT_OF_MEMORY);
            failed += status[i] == SOQ_OUT_OF_MEMORY;
        }
        ENSURE(held == before);
        if (refused_request > 0) {
            break;
        }
    }
    refused_request = 0;
    ENSURE(request > 10 && request < 100000 && failed > 10);
}

int main(void) {
    memcpy(spelled, smith, sizeof smith);
    spelled[1] = 0x80;
    memcpy(longer, smith, sizeof smith);
    names_are_written();
    blocks_are_found();
    fronts_are_found();
    booleans_are_read();
    strings_are_joined();
    extensions_are_found();
    wrong_arguments_are_answered();
    refused_memory_is_answered();
    printf("texts: %zu names, %zu blocks, refusals of memory\n", sizeof names / sizeof *names, sizeof held_blocks / sizeof *held_blocks);
    return 0;
}
