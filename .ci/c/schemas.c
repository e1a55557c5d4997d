/*
 * Calls the functions of the library that read by a schema: with octets worked out by hand from X.690, buffers of every size, damaged
 * schemas, invalid arguments and failing allocations; many times, and from eight threads. It is linked as test.c is.
 */
#include "memory.h"
#include "soqavise.h"

#include <pthread.h>
#include <stdio.h>
#include <stdlib.h>
#include <string.h>
#include <sys/resource.h>

#define ENSURE(holds)                                                              \
    do {                                                                           \
        if (!(holds)) {                                                            \
            fprintf(stderr, "schemas: line %d: not so: %s\n", __LINE__, #holds);   \
            exit(1);                                                               \
        }                                                                          \
    } while (0)

static const char module[] =
    "Rows DEFINITIONS IMPLICIT TAGS ::= BEGIN\n"
    "Row ::= SEQUENCE {\n"
    "    number INTEGER,\n"
    "    name UTF8String OPTIONAL,\n"
    "    list SEQUENCE OF BOOLEAN,\n"
    "    kind CHOICE { low [0] NULL, high [1] INTEGER },\n"
    "    held [3] EXPLICIT BIT STRING OPTIONAL\n"
    "}\n"
    "END\n";

static const soq_texts texts[] = {{"rows.asn1", 9, module, sizeof module - 1}};

/* {number 5, name U+00E9, list {TRUE, FALSE}, kind high: 7} */
static const uint8_t row[] = {0x30, 0x12, 0x02, 0x01, 0x05, 0x0C, 0x02, 0xC3, 0xA9, 0x30,
                              0x06, 0x01, 0x01, 0xFF, 0x01, 0x01, 0x00, 0x81, 0x01, 0x07};

/* The same in BER: indefinite lengths (8.1.3.6), TRUE as 5 (8.2.2), the text in segments (8.21). */
static const uint8_t spelled[] = {0x30, 0x80, 0x02, 0x01, 0x05, 0x2C, 0x06, 0x04, 0x01, 0xC3, 0x04, 0x01, 0xA9, 0x30, 0x80, 0x01,
                                  0x01, 0x05, 0x01, 0x01, 0x00, 0x00, 0x00, 0x81, 0x01, 0x07, 0x00, 0x00};

/* Without the name, kind low, held '101'B. */
static const uint8_t other[] = {0x30, 0x0D, 0x02, 0x01, 0x05, 0x30, 0x00, 0x80, 0x00, 0xA3, 0x04, 0x03, 0x02, 0x05, 0xA0};

static const char json[] = "{\"number\":5,\"name\":\"\xC3\xA9\",\"list\":[true,false],\"kind\":{\"high\":7}}";

static uint8_t schema[1 << 12];
static size_t schema_length;

static void schema_is_written(void) {
    uint8_t small[1 << 12];
    char text[64];
    soq_reason reason;
    size_t size, needed = 7;
    ENSURE(soq_compile(texts, 1, "Row", schema, sizeof schema, &schema_length, &reason, text, sizeof text) == SOQ_OK);
    ENSURE(schema_length > 0 && schema_length < sizeof schema && reason.text_length == 0 && text[0] == 0);
    for (size = 0; size < schema_length + 2; size++) {
        uint8_t *buffer = malloc(size == 0 ? 1 : size);
        memset(buffer, 0xA5, size);
        ENSURE(soq_compile(texts, 1, "Rows.Row", buffer, size, &needed, NULL, NULL, 0) == (size < schema_length ? SOQ_BUFFER_TOO_SMALL : SOQ_OK));
        ENSURE(needed == schema_length);
        ENSURE(size < schema_length ? size == 0 || buffer[0] == 0xA5 : memcmp(buffer, schema, schema_length) == 0);
        free(buffer);
    }
    ENSURE(soq_compile(texts, 1, "Other", small, sizeof small, &needed, &reason, text, sizeof text) == SOQ_UNKNOWN_TYPE && needed == 0);
    ENSURE(soq_compile(texts, 1, "Other.Row", small, sizeof small, &needed, &reason, text, sizeof text) == SOQ_UNKNOWN_TYPE);
    ENSURE(soq_compile(NULL, 0, "Row", small, sizeof small, &needed, &reason, text, sizeof text) == SOQ_UNKNOWN_TYPE);
}

/* The place of a fault of a module: the type of line 2, column 23, isn't defined. */
static void faults_are_reported(void) {
    static const char faulty[] = "M DEFINITIONS ::= BEGIN\nT ::= SEQUENCE { part Missing }\nEND\n";
    static const char wanted[] = "m.asn1:2:23: ";
    const soq_texts of[] = {{"m.asn1", 6, faulty, sizeof faulty - 1}};
    const soq_texts latin[] = {{"m.asn1", 6, "\xE9", 1}};
    uint8_t buffer[64];
    char text[200], cut[12];
    soq_reason reason;
    size_t needed = 7;
    ENSURE(soq_compile(of, 1, "T", buffer, sizeof buffer, &needed, &reason, text, sizeof text) == SOQ_REFUSED);
    ENSURE(needed == 0 && reason.line == 2 && reason.column == 23 && reason.text_length == strlen(text));
    ENSURE(strncmp(text, wanted, sizeof wanted - 1) == 0 && strstr(text, "Missing") != NULL);
    ENSURE(soq_compile(of, 1, "T", buffer, sizeof buffer, &needed, &reason, cut, sizeof cut) == SOQ_REFUSED);
    ENSURE(strlen(cut) == sizeof cut - 1 && memcmp(cut, text, sizeof cut - 1) == 0);
    ENSURE(soq_compile(latin, 1, "T", buffer, sizeof buffer, &needed, &reason, text, sizeof text) == SOQ_REFUSED);
}

typedef struct search {
    const uint8_t *octets;
    size_t length;
    soq_rule rule;
    const char *path;
    soq_status status;
    soq_part part;
} search;

#define OF(octets) octets, sizeof octets

static const search searches[] = {
    {OF(row), SOQ_DER, "", SOQ_OK, {0, 2, 18, 20, 0, 16, 1, SOQ_PART_SEQUENCE}},
    {OF(row), SOQ_DER, "number", SOQ_OK, {2, 2, 1, 3, 0, 2, 0, SOQ_PART_INTEGER}},
    {OF(row), SOQ_DER, "name", SOQ_OK, {5, 2, 2, 4, 0, 12, 0, SOQ_PART_UTF8}},
    {OF(row), SOQ_DER, "list[1]", SOQ_OK, {14, 2, 1, 3, 0, 1, 0, SOQ_PART_BOOLEAN}},
    {OF(row), SOQ_DER, "kind", SOQ_OK, {17, 2, 1, 3, 2, 1, 0, SOQ_PART_CHOICE}},
    {OF(row), SOQ_DER, "kind.high", SOQ_OK, {17, 2, 1, 3, 2, 1, 0, SOQ_PART_INTEGER}},
    {OF(spelled), SOQ_BER, "list", SOQ_OK, {13, 2, 6, 10, 0, 16, 1, SOQ_PART_SEQUENCE_OF}},
    {OF(spelled), SOQ_BER, "kind.high", SOQ_OK, {23, 2, 1, 3, 2, 1, 0, SOQ_PART_INTEGER}},
    {OF(other), SOQ_DER, "held", SOQ_OK, {9, 2, 4, 6, 2, 3, 1, SOQ_PART_TAGGED}},
    {OF(other), SOQ_DER, "name", SOQ_ABSENT, {0, 0, 0, 0, 0, 0, 0, 0}},
    {OF(row), SOQ_DER, "kind.low", SOQ_ABSENT, {0, 0, 0, 0, 0, 0, 0, 0}},
    {OF(row), SOQ_DER, "list[2]", SOQ_ABSENT, {0, 0, 0, 0, 0, 0, 0, 0}},
    {OF(row), SOQ_DER, "names", SOQ_UNKNOWN_PATH, {0, 0, 0, 0, 0, 0, 0, 0}},
    {OF(row), SOQ_DER, "list[01]", SOQ_UNKNOWN_PATH, {0, 0, 0, 0, 0, 0, 0, 0}},
    {OF(row), SOQ_DER, "list[1", SOQ_UNKNOWN_PATH, {0, 0, 0, 0, 0, 0, 0, 0}},
    {OF(row), SOQ_DER, "list.", SOQ_UNKNOWN_PATH, {0, 0, 0, 0, 0, 0, 0, 0}},
    {OF(spelled), SOQ_DER, "number", SOQ_REFUSED, {0, 0, 0, 0, 0, 0, 0, 0}},
    {row, 13, SOQ_DER, "list[0]", SOQ_REFUSED, {0, 0, 0, 0, 0, 0, 0, 0}},
    {OF(row), (soq_rule)3, "number", SOQ_UNKNOWN_RULE, {0, 0, 0, 0, 0, 0, 0, 0}},
};

static void parts_are_found(void) {
    size_t i;
    for (i = 0; i < sizeof searches / sizeof *searches; i++) {
        const search *it = &searches[i];
        soq_part part = {7, 7, 7, 7, 7, 7, 7, 7};
        char text[200];
        soq_status status = soq_find(schema, schema_length, it->rule, it->octets, it->length, it->path, &part, NULL, text, sizeof text);
        if (status != it->status || memcmp(&part, &it->part, sizeof part) != 0) {
            fprintf(stderr, "schemas: search %zu: status %d, offset %zu, %s\n", i, (int)status, part.offset, text);
            exit(1);
        }
    }
}

static void parts_are_listed(void) {
    static const size_t offsets[] = {0, 2, 5, 9, 11, 14, 17, 17}, depths[] = {0, 1, 1, 1, 2, 2, 1, 2}, indices[] = {0, 0, 1, 2, 0, 1, 3, 1};
    static const char *const named[] = {"", "number", "name", "list", "", "", "kind", "high"};
    enum { PARTS = 8, NAMES = 27 };
    soq_listed_part parts[PARTS + 1];
    char names[NAMES + 1];
    soq_counts counts = {7, 7};
    size_t i, count, size;
    ENSURE(soq_parts(schema, schema_length, SOQ_DER, OF(row), NULL, 0, NULL, 0, &counts, NULL, NULL, 0) == SOQ_BUFFER_TOO_SMALL);
    ENSURE(counts.parts == PARTS && counts.names == NAMES);
    for (count = PARTS - 1; count <= PARTS + 1; count++) {
        for (size = NAMES - 1; size <= NAMES + 1; size++) {
            soq_status wanted = count < PARTS || size < NAMES ? SOQ_BUFFER_TOO_SMALL : SOQ_OK;
            memset(parts, 0xA5, sizeof parts);
            memset(names, 0x5A, sizeof names);
            ENSURE(soq_parts(schema, schema_length, SOQ_DER, OF(row), parts, count, names, size, &counts, NULL, NULL, 0) == wanted);
            ENSURE(counts.parts == PARTS && counts.names == NAMES && (wanted == SOQ_OK ? names[NAMES] == 0x5A : names[0] == 0x5A));
        }
    }
    for (i = 0; i < PARTS; i++) {
        ENSURE(parts[i].part.offset == offsets[i] && parts[i].depth == depths[i] && parts[i].index == indices[i]);
        ENSURE(parts[i].name_length == strlen(named[i]) && (parts[i].name_length == 0 || strcmp(names + parts[i].name, named[i]) == 0));
    }
    ENSURE(soq_parts(schema, schema_length, SOQ_DER, OF(spelled), parts, PARTS, names, NAMES, &counts, NULL, NULL, 0) == SOQ_REFUSED);
    ENSURE(counts.parts == 0 && counts.names == 0);
}

static void messages_are_checked(void) {
    uint8_t changed[sizeof row];
    char text[200];
    soq_reason reason;
    ENSURE(soq_check_by(schema, schema_length, SOQ_DER, 1, OF(row), &reason, text, sizeof text) == SOQ_OK && text[0] == 0);
    ENSURE(soq_check_by(schema, schema_length, SOQ_DER, 0, OF(other), &reason, text, sizeof text) == SOQ_OK);
    ENSURE(soq_check_by(schema, schema_length, SOQ_BER, 0, OF(spelled), &reason, text, sizeof text) == SOQ_OK);
    memcpy(changed, row, sizeof row);
    changed[13] = 0x05; /* 11.1 */
    ENSURE(soq_check_by(schema, schema_length, SOQ_DER, 1, OF(changed), &reason, text, sizeof text) == SOQ_REFUSED);
    ENSURE(reason.kind == SOQ_KIND_INVALID_BOOL && reason.offset == 11 && reason.path_length == 7 && reason.text_length == strlen(text));
    ENSURE(strncmp(text, "list[0], byte 11: DER: ", 23) == 0);
    ENSURE(soq_check_by(schema, schema_length, SOQ_BER, 1, OF(changed), &reason, text, sizeof text) == SOQ_OK && reason.kind == 0);
    ENSURE(soq_check_by(schema, schema_length, SOQ_DER, 0, row, sizeof row - 1, &reason, text, sizeof text) == SOQ_REFUSED);
}

static void json_is_written_and_read(void) {
    char text[200], out[sizeof json + 1], deep[514];
    uint8_t octets[sizeof row + 1];
    soq_reason reason;
    size_t size, needed = 7;
    for (size = 0; size < sizeof out; size++) {
        soq_status wanted = size < sizeof json ? SOQ_BUFFER_TOO_SMALL : SOQ_OK;
        memset(out, 0x5A, sizeof out);
        ENSURE(soq_json(schema, schema_length, SOQ_DER, 0, OF(row), out, size, &needed, NULL, NULL, 0) == wanted && needed == sizeof json);
        ENSURE(wanted == SOQ_OK ? strcmp(out, json) == 0 : out[0] == 0x5A);
    }
    ENSURE(soq_json(schema, schema_length, SOQ_BER, 0, OF(spelled), out, sizeof out, &needed, NULL, NULL, 0) == SOQ_OK && strcmp(out, json) == 0);
    ENSURE(soq_json(schema, schema_length, SOQ_DER, 0, OF(spelled), out, sizeof out, &needed, &reason, text, sizeof text) == SOQ_REFUSED && needed == 0);
    for (size = 0; size < sizeof octets; size++) {
        soq_status wanted = size < sizeof row ? SOQ_BUFFER_TOO_SMALL : SOQ_OK;
        ENSURE(soq_encode(schema, schema_length, SOQ_DER, json, sizeof json - 1, octets, size, &needed, NULL, NULL, 0) == wanted && needed == sizeof row);
        ENSURE(wanted != SOQ_OK || memcmp(octets, row, sizeof row) == 0);
    }
    ENSURE(soq_encode(schema, schema_length, SOQ_DER, "{\"number\":5,\"list\":[true,0]}", 28, octets, sizeof octets, &needed, &reason, text, sizeof text) == SOQ_REFUSED);
    ENSURE(reason.path_length == 7 && strncmp(text, "list[1]: ", 9) == 0 && needed == 0);
    ENSURE(soq_encode(schema, schema_length, SOQ_DER, "{\n5}", 4, octets, sizeof octets, &needed, &reason, text, sizeof text) == SOQ_REFUSED && reason.line == 2);
    /* a line, and 513 arrays in one another: the last of them is at line 2, column 513 */
    deep[0] = '\n';
    memset(deep + 1, '[', 513);
    ENSURE(soq_encode(schema, schema_length, SOQ_DER, deep, sizeof deep, octets, sizeof octets, &needed, &reason, text, sizeof text) == SOQ_REFUSED);
    ENSURE(reason.line == 2 && reason.column == 513);
    ENSURE(soq_encode(schema, schema_length, SOQ_DER, "\xFF", 1, octets, sizeof octets, &needed, &reason, text, sizeof text) == SOQ_REFUSED);
    ENSURE(soq_normalise_by(schema, schema_length, SOQ_BER, OF(spelled), octets, sizeof octets, &needed, &reason, text, sizeof text) == SOQ_OK);
    ENSURE(needed == sizeof row && memcmp(octets, row, sizeof row) == 0);
    ENSURE(soq_normalise_by(schema, schema_length, SOQ_DER, OF(spelled), octets, sizeof octets, &needed, &reason, text, sizeof text) == SOQ_REFUSED);
    ENSURE(needed == 0 && reason.kind != 0 && text[0] != 0);
}

static void values_are_read(void) {
    static const uint8_t date[] = {0x17, 0x0D, '7', '0', '0', '1', '0', '1', '0', '0', '0', '0', '0', '1', 'Z'};
    static const uint8_t leap[] = {0x18, 0x0F, '2', '0', '0', '0', '0', '3', '0', '1', '0', '0', '0', '0', '0', '0', 'Z'};
    static const uint8_t early[] = {0x18, 0x0F, '1', '9', '6', '9', '1', '2', '3', '1', '2', '3', '5', '9', '5', '9', 'Z'};
    soq_instant instant;
    char text[8];
    uint8_t octets[4];
    size_t needed = 7, bits = 7;
    ENSURE(soq_seconds(SOQ_UTCTIME, SOQ_DER, OF(date), &instant) == SOQ_OK && instant.seconds == 1 && instant.nanosecond == 0);
    /* as `date -u -d 2000-03-01 +%s` prints it */
    ENSURE(soq_seconds(SOQ_GENTIME, SOQ_DER, OF(leap), &instant) == SOQ_OK && instant.seconds == 951868800);
    ENSURE(soq_seconds(SOQ_GENTIME, SOQ_DER, OF(early), &instant) == SOQ_OK && instant.seconds == -1);
    ENSURE(soq_seconds(SOQ_UTCTIME, SOQ_DER, OF(early), &instant) == SOQ_REFUSED && instant.seconds == 0);
    ENSURE(soq_seconds(SOQ_BOOL, SOQ_DER, OF(date), &instant) == SOQ_UNKNOWN_TYPE);
    ENSURE(soq_utf8(SOQ_PART_UTF8, SOQ_DER, row + 5, 4, text, sizeof text, &needed) == SOQ_OK && needed == 3 && strcmp(text, "\xC3\xA9") == 0);
    ENSURE(soq_utf8(SOQ_PART_UTF8, SOQ_DER, row + 5, 4, text, 2, &needed) == SOQ_BUFFER_TOO_SMALL && needed == 3);
    ENSURE(soq_utf8(SOQ_PART_IA5, SOQ_DER, row + 5, 4, text, sizeof text, &needed) == SOQ_REFUSED && needed == 0);
    ENSURE(soq_utf8(SOQ_PART_INTEGER, SOQ_DER, row + 5, 4, text, sizeof text, &needed) == SOQ_UNKNOWN_TYPE);
    ENSURE(soq_bits(SOQ_DER, other + 11, 4, octets, sizeof octets, &needed, &bits) == SOQ_OK && needed == 1 && bits == 3 && octets[0] == 0xA0);
    ENSURE(soq_bits(SOQ_DER, other + 11, 4, octets, 0, &needed, &bits) == SOQ_BUFFER_TOO_SMALL && needed == 1 && bits == 3);
    ENSURE(soq_bits(SOQ_DER, row, 3, octets, sizeof octets, &needed, &bits) == SOQ_REFUSED && needed == 0 && bits == 0);
}

/* Each octet of the schema changed, and each cut: it is refused, or it is the schema of some type. */
static void damaged_schemas_are_refused(void) {
    size_t at, bit, refused = 0;
    for (at = 0; at < schema_length; at++) {
        uint8_t *damaged = malloc(schema_length);
        char text[200];
        soq_part part;
        memcpy(damaged, schema, schema_length);
        for (bit = 0; bit < 8; bit++) {
            soq_status status;
            damaged[at] = (uint8_t)(schema[at] ^ 1 << bit);
            status = soq_find(damaged, schema_length, SOQ_DER, OF(row), "kind.high", &part, NULL, text, sizeof text);
            ENSURE(status == SOQ_BAD_SCHEMA || status == SOQ_OK || status == SOQ_REFUSED || status == SOQ_UNKNOWN_PATH || status == SOQ_ABSENT);
            ENSURE(status != SOQ_BAD_SCHEMA || text[0] != 0);
            refused += status == SOQ_BAD_SCHEMA;
        }
        ENSURE(soq_find(schema, at, SOQ_DER, OF(row), "number", &part, NULL, text, sizeof text) == SOQ_BAD_SCHEMA);
        free(damaged);
    }
    ENSURE(refused > schema_length);
}

static void wrong_arguments_are_answered(void) {
    union {
        uint8_t octets[256];
        char text[256];
        size_t needed;
        soq_part part;
        soq_reason reason;
        soq_counts counts;
    } shared;
    uint8_t out[64];
    char text[64];
    size_t needed = 7;
    soq_part part = {7, 7, 7, 7, 7, 7, 7, 7};
    soq_reason reason = {7, 7, 7, 7, 7, 7};
    const soq_texts none[] = {{NULL, 0, module, 1}}, inside[] = {{"m", 1, shared.text, 8}};
    memcpy(shared.octets, row, sizeof row);
    ENSURE(soq_compile(NULL, 1, "Row", out, 64, &needed, NULL, NULL, 0) == SOQ_NULL_POINTER && soq_compile(texts, 1, NULL, out, 64, &needed, NULL, NULL, 0) == SOQ_NULL_POINTER);
    ENSURE(soq_compile(texts, 1, "Row", NULL, 64, &needed, NULL, NULL, 0) == SOQ_NULL_POINTER && soq_compile(texts, 1, "Row", out, 64, NULL, NULL, NULL, 0) == SOQ_NULL_POINTER);
    ENSURE(soq_compile(none, 1, "Row", out, 64, &needed, NULL, NULL, 0) == SOQ_NULL_POINTER && soq_compile(texts, SIZE_MAX, "Row", out, 64, &needed, NULL, NULL, 0) == SOQ_TOO_LONG);
    ENSURE(soq_compile(inside, 1, "Row", shared.octets + 4, 8, &needed, NULL, NULL, 0) == SOQ_OVERLAP);
    ENSURE(soq_compile(texts, 1, "Row", shared.octets, 64, &shared.needed, NULL, NULL, 0) == SOQ_OVERLAP);
    ENSURE(soq_find(NULL, 1, SOQ_DER, OF(row), "number", &part, NULL, NULL, 0) == SOQ_NULL_POINTER && soq_find(schema, schema_length, SOQ_DER, OF(row), NULL, &part, NULL, NULL, 0) == SOQ_NULL_POINTER);
    ENSURE(soq_find(schema, schema_length, SOQ_DER, OF(row), "number", NULL, NULL, NULL, 0) == SOQ_NULL_POINTER && soq_find(schema, schema_length, SOQ_DER, OF(row), "number", &part, NULL, NULL, 1) == SOQ_NULL_POINTER);
    ENSURE(soq_find(schema, schema_length, SOQ_DER, shared.octets, sizeof row, "number", &shared.part, NULL, NULL, 0) == SOQ_OVERLAP);
    ENSURE(soq_find(schema, schema_length, SOQ_DER, shared.octets, sizeof row, "number", &part, &shared.reason, NULL, 0) == SOQ_OVERLAP);
    ENSURE(soq_find(schema, schema_length, SOQ_DER, shared.octets, sizeof row, "number", &part, NULL, shared.text + 8, 8) == SOQ_OVERLAP);
    ENSURE(soq_find(schema, schema_length, SOQ_DER, OF(row), shared.text, &part, NULL, shared.text, 8) == SOQ_OVERLAP);
    ENSURE(soq_parts(schema, schema_length, SOQ_DER, OF(row), NULL, 1, NULL, 0, &shared.counts, NULL, NULL, 0) == SOQ_NULL_POINTER);
    ENSURE(soq_parts(schema, schema_length, SOQ_DER, shared.octets, sizeof row, NULL, 0, NULL, 0, &shared.counts, NULL, NULL, 0) == SOQ_OVERLAP);
    ENSURE(soq_parts(schema, schema_length, SOQ_DER, OF(row), (soq_listed_part *)&shared, SIZE_MAX, NULL, 0, &shared.counts, NULL, NULL, 0) == SOQ_TOO_LONG);
    ENSURE(soq_check_by(schema, SIZE_MAX, SOQ_DER, 0, OF(row), NULL, NULL, 0) == SOQ_TOO_LONG && soq_check_by(schema, schema_length, SOQ_DER, 0, NULL, 1, NULL, NULL, 0) == SOQ_NULL_POINTER);
    ENSURE(soq_json(schema, schema_length, SOQ_DER, 0, shared.octets, sizeof row, shared.text, 64, &needed, NULL, NULL, 0) == SOQ_OVERLAP);
    ENSURE(soq_encode(schema, schema_length, SOQ_DER, shared.text, 8, shared.octets + 7, 8, &needed, NULL, NULL, 0) == SOQ_OVERLAP);
    ENSURE(soq_normalise_by(schema, schema_length, SOQ_DER, OF(row), out, 64, &needed, &reason, (char *)&reason, 8) == SOQ_OVERLAP);
    ENSURE(soq_bits(SOQ_DER, OF(row), out, 64, &needed, &needed) == SOQ_OVERLAP && soq_bits(SOQ_DER, OF(row), out, 64, &needed, NULL) == SOQ_NULL_POINTER);
    ENSURE(soq_utf8(SOQ_PART_UTF8, SOQ_DER, OF(row), NULL, 1, &needed) == SOQ_NULL_POINTER && soq_seconds(SOQ_UTCTIME, SOQ_DER, OF(row), NULL) == SOQ_NULL_POINTER);
    ENSURE(memcmp(shared.octets, row, sizeof row) == 0 && needed == 7 && part.offset == 7 && reason.kind == 7);
    (void)text;
}

/* Calls each function once. Returns how many had no memory. */
static int call_all(void) {
    uint8_t octets[sizeof row];
    static _Thread_local uint8_t again[sizeof schema];
    char text[64], out[sizeof json];
    soq_reason reason;
    soq_part part;
    soq_listed_part parts[8];
    char names[27];
    soq_counts counts;
    size_t needed;
    soq_status status[6];
    int i, count = 0;
    status[0] = soq_find(schema, schema_length, SOQ_DER, OF(row), "kind.high", &part, &reason, text, sizeof text);
    status[1] = soq_parts(schema, schema_length, SOQ_DER, OF(row), parts, 8, names, sizeof names, &counts, &reason, text, sizeof text);
    status[2] = soq_check_by(schema, schema_length, SOQ_DER, 1, OF(row), &reason, text, sizeof text);
    status[3] = soq_json(schema, schema_length, SOQ_DER, 1, OF(other), out, sizeof out, &needed, &reason, text, sizeof text);
    status[4] = soq_encode(schema, schema_length, SOQ_DER, json, sizeof json - 1, octets, sizeof octets, &needed, &reason, text, sizeof text);
    status[5] = soq_normalise_by(schema, schema_length, SOQ_BER, OF(spelled), octets, sizeof octets, &needed, &reason, text, sizeof text);
    status[3] = status[3] == SOQ_BUFFER_TOO_SMALL ? SOQ_OK : status[3];
    for (i = 0; i < 6; i++) {
        ENSURE(status[i] == SOQ_OK || status[i] == SOQ_OUT_OF_MEMORY);
        count += status[i] == SOQ_OUT_OF_MEMORY;
    }
    status[0] = soq_compile(texts, 1, "Row", again, sizeof again, &needed, &reason, text, sizeof text);
    ENSURE(status[0] == SOQ_OUT_OF_MEMORY || (status[0] == SOQ_OK && needed == schema_length && memcmp(again, schema, needed) == 0));
    return count + (status[0] == SOQ_OUT_OF_MEMORY);
}

/* Makes each allocation of the calls fail once: the status is SOQ_OUT_OF_MEMORY or as usual, and no block stays in use. */
static void refused_memory_is_answered(void) {
    long request, before = held, failed = 0;
    for (request = 1; request < 100000; request++) {
        refused_request = request;
        failed += call_all();
        ENSURE(held == before);
        if (refused_request > 0) {
            break;
        }
    }
    refused_request = 0;
    ENSURE(request > 100 && request < 100000 && failed > 100);
}

static long resident(void) {
    struct rusage usage;
    ENSURE(getrusage(RUSAGE_SELF, &usage) == 0);
    return usage.ru_maxrss;
}

static void a_million_calls_keep_nothing(void) {
    long before = held, most, i;
    ENSURE(call_all() == 0);
    most = resident();
    for (i = 0; i < 143000; i++) {
        ENSURE(call_all() == 0);
    }
    ENSURE(held == before);
    ENSURE(resident() - most < 1024 * 16);
}

static void *call_in_thread(void *argument) {
    int i;
    for (i = 0; i < 100; i++) {
        ENSURE(call_all() == 0);
    }
    return argument;
}

static void eight_threads_call(void) {
    pthread_t threads[8];
    long before = held;
    int i;
    for (i = 0; i < 8; i++) {
        ENSURE(pthread_create(&threads[i], NULL, call_in_thread, NULL) == 0);
    }
    for (i = 0; i < 8; i++) {
        ENSURE(pthread_join(threads[i], NULL) == 0);
    }
    ENSURE(held == before);
}

int main(void) {
    schema_is_written();
    faults_are_reported();
    parts_are_found();
    parts_are_listed();
    messages_are_checked();
    json_is_written_and_read();
    values_are_read();
    damaged_schemas_are_refused();
    wrong_arguments_are_answered();
    refused_memory_is_answered();
    a_million_calls_keep_nothing();
    eight_threads_call();
    printf("schemas: %zu octets of a schema, searches, lists, JSON, damaged schemas, refusals of memory, threads and a million calls\n", schema_length);
    return 0;
}
