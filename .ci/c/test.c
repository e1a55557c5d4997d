/*
 * Calls the library in every way that its header allows: with rows of known octets and changed ones, buffers of every size beside an
 * inaccessible page, invalid arguments, and failing allocations; a million times; and from eight threads. Its argument is a certificate
 * in DER. It is linked with --wrap=malloc,--wrap=realloc,--wrap=free, to count the library's allocations and make them fail.
 */
#include "memory.h"
#include "soqavise.h"

#include <pthread.h>
#include <stdio.h>
#include <stdlib.h>
#include <string.h>
#include <sys/mman.h>
#include <sys/resource.h>
#include <unistd.h>

#define ENSURE(holds)                                                        \
    do {                                                                     \
        if (!(holds)) {                                                      \
            fprintf(stderr, "c: line %d: not so: %s\n", __LINE__, #holds);   \
            exit(1);                                                         \
        }                                                                    \
    } while (0)

/* Allocations: the number of blocks in use, and which of this thread's next allocations fails. */
/* Pieces of memory that end, or begin, at an inaccessible page. */
static uint8_t *pages;
static size_t page;
enum { PAGES = 3 };

static uint8_t *before_guard(int piece, size_t size) {
    return pages + (size_t)piece * (PAGES + 1) * page + PAGES * page - size;
}

static uint8_t *behind_guard(int piece) {
    return pages + (size_t)piece * (PAGES + 1) * page;
}

/* Allocates two pieces, with an inaccessible page before, between and after them. */
static void guard_pages(void) {
    size_t whole;
    page = (size_t)sysconf(_SC_PAGESIZE);
    whole = (2 * (PAGES + 1) + 1) * page;
    pages = mmap(NULL, whole, PROT_READ | PROT_WRITE, MAP_PRIVATE | MAP_ANONYMOUS, -1, 0);
    ENSURE(pages != MAP_FAILED);
    ENSURE(mprotect(pages, page, PROT_NONE) == 0);
    pages += page;
    ENSURE(mprotect(pages + PAGES * page, page, PROT_NONE) == 0);
    ENSURE(mprotect(pages + (2 * PAGES + 1) * page, page, PROT_NONE) == 0);
}

typedef struct row {
    soq_type type;
    soq_rule rule;
    const char *octets;
    /* The DER octets; NULL if the row is refused. */
    const char *normal;
    soq_kind kind;
    size_t offset;
} row;

/* Worked out by hand from X.690. Sections without another name are of X.690. */
static const row rows[] = {
    {SOQ_BOOL, SOQ_DER, "0101FF", "0101FF", SOQ_KIND_NONE, 0},
    {SOQ_BOOL, SOQ_BER, "010105", "0101FF", SOQ_KIND_NONE, 0},                             /* 8.2.2 */
    {SOQ_BOOL, SOQ_DER, "010105", NULL, SOQ_KIND_INVALID_BOOL, 0},                         /* 11.1 */
    {SOQ_BOOL, SOQ_DER, "0101FF00", NULL, SOQ_KIND_UNEXPECTED_EXTRA_DATA, 3},              /* 8.1.1.1 */
    {SOQ_BOOL, SOQ_DER, "01", NULL, SOQ_KIND_INCOMPLETE, 0},
    {SOQ_BOOL, SOQ_DER, "", NULL, SOQ_KIND_INCOMPLETE, 0},
    {SOQ_BOOL, SOQ_DER, "020101", NULL, SOQ_KIND_MISMATCHED_TAG, 0},
    {SOQ_BOOL, SOQ_DER, "018101FF", NULL, SOQ_KIND_NON_MINIMAL_LENGTH, 0},                 /* 10.1 */
    {SOQ_BOOL, SOQ_BER, "018101FF", "0101FF", SOQ_KIND_NONE, 0},                           /* 8.1.3.5 */
    {SOQ_INTEGER, SOQ_DER, "02020080", "02020080", SOQ_KIND_NONE, 0},                      /* 8.3 */
    {SOQ_INTEGER, SOQ_DER, "02020001", NULL, SOQ_KIND_NON_MINIMAL_INTEGER, 0},             /* 8.3.2 */
    {SOQ_BITS, SOQ_DER, "03020780", "03020780", SOQ_KIND_NONE, 0},                         /* 8.6 */
    {SOQ_BITS, SOQ_DER, "030207FF", NULL, SOQ_KIND_NONZERO_UNUSED_BITS, 0},                /* 11.2.1 */
    {SOQ_BITS, SOQ_BER, "030207FF", "03020780", SOQ_KIND_NONE, 0},
    {SOQ_OCTETS, SOQ_BER, "248004014104014200 00", "04024142", SOQ_KIND_NONE, 0},          /* 8.7.3 */
    {SOQ_OCTETS, SOQ_CER, "04024142", "04024142", SOQ_KIND_NONE, 0},
    {SOQ_NULL, SOQ_DER, "0500", "0500", SOQ_KIND_NONE, 0},                                 /* 8.8 */
    {SOQ_OID, SOQ_DER, "06032A0304", "06032A0304", SOQ_KIND_NONE, 0},                      /* 8.19 */
    {SOQ_OID, SOQ_DER, "06042A800304", NULL, SOQ_KIND_NON_MINIMAL_ARC, 0},                 /* 8.19.2 */
    {SOQ_UTF8, SOQ_DER, "0C03E282AC", "0C03E282AC", SOQ_KIND_NONE, 0},                     /* 8.23.10 */
    {SOQ_PRINTABLE, SOQ_DER, "13024142", "13024142", SOQ_KIND_NONE, 0},
    {SOQ_IA5, SOQ_DER, "16024140", "16024140", SOQ_KIND_NONE, 0},
    {SOQ_UTCTIME, SOQ_DER, "170D3236313132343132303030305A", "170D3236313132343132303030305A", SOQ_KIND_NONE, 0},
    {SOQ_UTCTIME, SOQ_BER, "17113236313132343133303030302B30313030", "170D3236313132343132303030305A", SOQ_KIND_NONE, 0}, /* 11.8 */
    {SOQ_GENTIME, SOQ_DER, "180F32303236313132343132303030305A", "180F32303236313132343132303030305A", SOQ_KIND_NONE, 0},
    {SOQ_GENTIME, SOQ_BER, "181132303236313132343132303030302E305A", "180F32303236313132343132303030305A", SOQ_KIND_NONE, 0}, /* 11.7.3 */
    {SOQ_ANY, SOQ_DER, "30030101FF", "30030101FF", SOQ_KIND_NONE, 0},                      /* 8.15 */
    /* The first part is required, and the contents are empty (RFC 5280 4.1). */
    {SOQ_CERTIFICATE, SOQ_DER, "3000", NULL, SOQ_KIND_INCOMPLETE, 0},
    {SOQ_LDAP, SOQ_DER, "30050201034200", "30050201034200", SOQ_KIND_NONE, 0},             /* RFC 4511, 4.3 */
    {SOQ_LDAP, SOQ_BER, "308002010342000000", "30050201034200", SOQ_KIND_NONE, 0},         /* 8.1.3.6 */
};

enum { ROWS = sizeof rows / sizeof *rows, LONGEST = 64 };

/* Writes the octets of hexadecimal digits, skipping spaces, and returns their number. */
static size_t octets_of(const char *digits, uint8_t *octets) {
    size_t length = 0;
    for (; *digits != 0; digits++) {
        unsigned octet;
        if (*digits == ' ') {
            continue;
        }
        ENSURE(sscanf(digits, "%2x", &octet) == 1 && length < LONGEST);
        octets[length++] = (uint8_t)octet;
        digits++;
    }
    return length;
}

/* Ensures that the results of all four functions agree, for buffers of sizes around the right one. Returns that of soq_decode_error. */
static soq_status agree(soq_type type, soq_rule rule, const uint8_t *octets, size_t length, size_t step) {
    uint8_t *in = before_guard(0, length);
    size_t needed = 7, size;
    soq_passed passed;
    soq_fault fault;
    soq_status status;
    memcpy(in, octets, length);
    status = soq_normalise(type, rule, in, length, NULL, 0, &needed);
    ENSURE(status == SOQ_BUFFER_TOO_SMALL || (status == SOQ_REFUSED && needed == 0));
    for (size = needed < 3 ? 0 : needed - 3; status != SOQ_REFUSED && size <= needed + 3; size += step) {
        uint8_t *out = size % 2 ? before_guard(1, size) : behind_guard(1);
        size_t again = 7, i;
        soq_status answer;
        memset(out, 0xA5, size);
        answer = soq_normalise(type, rule, in, length, out, size, &again);
        ENSURE(again == needed && answer == (size < needed ? SOQ_BUFFER_TOO_SMALL : SOQ_OK));
        for (i = size < needed ? 0 : needed; i < size; i++) {
            ENSURE(out[i] == 0xA5);
        }
        if (answer == SOQ_OK) {
            ENSURE(soq_check(type, out, needed) == SOQ_OK);
            ENSURE((soq_check(type, in, length) == SOQ_OK) == (needed == length && memcmp(out, in, length) == 0));
        }
    }
    if (status == SOQ_REFUSED && rule == SOQ_DER) {
        ENSURE(soq_check(type, in, length) == SOQ_REFUSED);
    }
    status = soq_decode_error(type, rule, in, length, &fault, NULL, 0);
    ENSURE(status == SOQ_OK ? fault.kind == 0 && fault.text_length == 0 : status == SOQ_REFUSED && fault.kind != 0 && fault.text_length != 0);
    ENSURE(fault.offset <= length);
    if (status == SOQ_OK) {
        ENSURE(soq_skip(SOQ_BER, in, length, &passed) == SOQ_OK && passed.consumed == length && 2 * passed.steps <= length);
    }
    return status;
}

/* Ensures that buffers of all sizes receive the same text, truncated to their size. */
static void texts_fit(soq_type type, soq_rule rule, const uint8_t *octets, size_t length) {
    char whole[512];
    soq_fault fault, again;
    size_t size;
    ENSURE(soq_decode_error(type, rule, octets, length, &fault, whole, sizeof whole) == SOQ_REFUSED);
    ENSURE(fault.text_length < sizeof whole && strlen(whole) == fault.text_length);
    for (size = 1; size < fault.text_length + 4; size++) {
        char *text = (char *)before_guard(1, size);
        size_t kept = size - 1 < fault.text_length ? size - 1 : fault.text_length;
        ENSURE(soq_decode_error(type, rule, octets, length, &again, text, size) == SOQ_REFUSED);
        ENSURE(memcmp(&again, &fault, sizeof fault) == 0 || (again.kind == fault.kind && again.offset == fault.offset));
        ENSURE(memcmp(text, whole, kept) == 0 && text[kept] == 0);
    }
}

static void rows_are_answered(void) {
    size_t i;
    for (i = 0; i < ROWS; i++) {
        const row *it = &rows[i];
        uint8_t octets[LONGEST], normal[LONGEST], out[LONGEST];
        size_t length = octets_of(it->octets, octets), needed = 0;
        soq_fault fault;
        soq_status status = soq_normalise(it->type, it->rule, octets, length, out, sizeof out, &needed);
        if (status != (it->normal == NULL ? SOQ_REFUSED : SOQ_OK)) {
            fprintf(stderr, "c: row %zu: status %d\n", i, (int)status);
            exit(1);
        }
        ENSURE(needed == (it->normal == NULL ? 0 : octets_of(it->normal, normal)) && memcmp(out, normal, needed) == 0);
        ENSURE(soq_decode_error(it->type, it->rule, octets, length, &fault, NULL, 0) == (it->normal == NULL ? SOQ_REFUSED : SOQ_OK));
        if (fault.kind != (uint32_t)it->kind || fault.offset != it->offset) {
            fprintf(stderr, "c: row %zu: kind %u, offset %zu\n", i, (unsigned)fault.kind, fault.offset);
            exit(1);
        }
        ENSURE(agree(it->type, it->rule, octets, length, 1) == (it->normal == NULL ? SOQ_REFUSED : SOQ_OK));
        if (it->normal == NULL) {
            texts_fit(it->type, it->rule, octets, length);
        }
    }
}

/* Each row's proper prefixes, and each row with one octet changed: the first two octets to every other value, the rest to some. */
static void spoilt_rows_are_answered(void) {
    size_t i, at, cut;
    for (i = 0; i < ROWS; i++) {
        uint8_t octets[LONGEST];
        size_t length = octets_of(rows[i].octets, octets);
        for (cut = 0; cut < length; cut++) {
            agree(rows[i].type, rows[i].rule, octets, cut, 1);
        }
        for (at = 0; at < length; at++) {
            unsigned change;
            for (change = 1; change < 256; change += at < 2 ? 1 : 17) {
                octets[at] = (uint8_t)(octets[at] ^ change);
                agree(rows[i].type, rows[i].rule, octets, length, 3);
                octets[at] = (uint8_t)(octets[at] ^ change);
            }
        }
    }
}

static void whole_encodings_are_passed(void) {
    static const uint8_t nested[] = {0x30, 0x80, 0x01, 0x01, 0xFF, 0x00, 0x00, 0x05, 0x00};
    soq_passed passed;
    /* One step for the value inside, and one for the end-of-contents octets (8.1.5). */
    ENSURE(soq_skip(SOQ_BER, nested, sizeof nested, &passed) == SOQ_OK && passed.consumed == 7 && passed.steps == 2);
    ENSURE(soq_skip(SOQ_BER, nested + 7, 2, &passed) == SOQ_OK && passed.consumed == 2 && passed.steps == 0);
    ENSURE(soq_skip(SOQ_DER, nested, sizeof nested, &passed) == SOQ_REFUSED && passed.consumed == 0 && passed.steps == 0);
    ENSURE(soq_skip(SOQ_BER, nested, 6, &passed) == SOQ_REFUSED && passed.consumed == 0);
    ENSURE(soq_skip(SOQ_BER, NULL, 0, &passed) == SOQ_REFUSED);
}

typedef struct part {
    soq_rule rule;
    const char *octets;
    soq_status status;
    soq_encoding encoding;
} part;

/* Worked out by hand from X.690 8.1.2, 8.1.3 and 8.1.5. */
static const part parts[] = {
    {SOQ_DER, "0500", SOQ_OK, {0, 5, 0, 2, 0, 2}},
    {SOQ_DER, "0500 0500", SOQ_OK, {0, 5, 0, 2, 0, 2}},
    {SOQ_BER, "30800101FF0000 0500", SOQ_OK, {0, 16, 1, 2, 3, 7}},
    {SOQ_DER, "30800101FF0000", SOQ_REFUSED, {0, 0, 0, 0, 0, 0}},
    {SOQ_DER, "9F1F0100", SOQ_OK, {2, 31, 0, 3, 1, 4}},
    {SOQ_DER, "7F81490141", SOQ_OK, {1, 201, 1, 4, 1, 5}},
    {SOQ_CER, "DF1F00", SOQ_OK, {3, 31, 0, 3, 0, 3}},
    {SOQ_DER, "0282000105", SOQ_OK, {0, 2, 0, 4, 1, 5}},
    {SOQ_BER, "", SOQ_REFUSED, {0, 0, 0, 0, 0, 0}},
    {SOQ_BER, "020501", SOQ_REFUSED, {0, 0, 0, 0, 0, 0}},
    {SOQ_BER, "30800101FF00", SOQ_REFUSED, {0, 0, 0, 0, 0, 0}},
    {(soq_rule)3, "0500", SOQ_UNKNOWN_RULE, {0, 0, 0, 0, 0, 0}},
};

static void parts_are_found(void) {
    size_t i;
    for (i = 0; i < sizeof parts / sizeof *parts; i++) {
        const part *it = &parts[i];
        const soq_encoding *wanted = &it->encoding;
        uint8_t octets[LONGEST], *in;
        size_t length = octets_of(it->octets, octets);
        soq_encoding found = {7, 7, 7, 7, 7, 7};
        in = before_guard(0, length);
        memcpy(in, octets, length);
        ENSURE(soq_next(it->rule, in, length, &found) == it->status);
        ENSURE(found.tag_class == wanted->tag_class && found.tag_number == wanted->tag_number && found.constructed == wanted->constructed);
        ENSURE(found.header == wanted->header && found.contents == wanted->contents && found.length == wanted->length);
    }
}

typedef struct integer {
    soq_rule rule;
    const char *octets;
    soq_status status;
    int64_t number;
} integer;

/* X.690 8.3; the last have a tag of their own (8.14), or are longer than 64 bits. */
static const integer integers[] = {
    {SOQ_DER, "020100", SOQ_OK, 0},
    {SOQ_DER, "0201FF", SOQ_OK, -1},
    {SOQ_DER, "02020080", SOQ_OK, 128},
    {SOQ_DER, "02088000000000000000", SOQ_OK, INT64_MIN},
    {SOQ_DER, "02020001", SOQ_REFUSED, 0},
    {SOQ_BER, "02020001", SOQ_OK, 1},
    {SOQ_DER, "020100 00", SOQ_REFUSED, 0},
    {SOQ_DER, "0200", SOQ_REFUSED, 0},
    {SOQ_DER, "", SOQ_REFUSED, 0},
    {SOQ_DER, "800105", SOQ_OK, 5},
    {SOQ_DER, "0209008000000000000000", SOQ_REFUSED, 0},
    {(soq_rule)3, "020100", SOQ_UNKNOWN_RULE, 0},
};

static void integers_are_read(void) {
    size_t i;
    for (i = 0; i < sizeof integers / sizeof *integers; i++) {
        uint8_t octets[LONGEST];
        size_t length = octets_of(integers[i].octets, octets);
        int64_t number = 7;
        ENSURE(soq_integer_i64(integers[i].rule, octets, length, &number) == integers[i].status && number == integers[i].number);
    }
}

typedef struct number {
    soq_rule rule;
    const char *octets;
    /* NULL if it is refused. */
    const char *number;
} number;

/* X.690 8.3.2, 8.3.3: the numbers in the fewest octets. */
static const number numbers[] = {
    {SOQ_DER, "0209008000000000000000", "008000000000000000"},
    {SOQ_BER, "0204FFFFFF80", "80"},
    {SOQ_DER, "0204FFFFFF80", NULL},
    {SOQ_DER, "820100", "00"},
    {SOQ_DER, "0200", NULL},
};

static void numbers_are_written(void) {
    size_t i, size, needed;
    for (i = 0; i < sizeof numbers / sizeof *numbers; i++) {
        uint8_t octets[LONGEST], wanted[LONGEST];
        size_t length = octets_of(numbers[i].octets, octets);
        size_t count = numbers[i].number == NULL ? 0 : octets_of(numbers[i].number, wanted);
        for (size = 0; size < count + 3; size++) {
            uint8_t *out = before_guard(1, size);
            soq_status status;
            memset(out, 0xA5, size);
            needed = 7;
            status = soq_integer_octets(numbers[i].rule, octets, length, out, size, &needed);
            ENSURE(needed == count && status == (count == 0 ? SOQ_REFUSED : size < count ? SOQ_BUFFER_TOO_SMALL : SOQ_OK));
            ENSURE(status == SOQ_OK ? memcmp(out, wanted, count) == 0 : size == 0 || out[0] == 0xA5);
            ENSURE(size <= count || out[count] == 0xA5);
        }
    }
    ENSURE(soq_integer_octets((soq_rule)3, NULL, 0, NULL, 0, &needed) == SOQ_UNKNOWN_RULE && needed == 0);
}

typedef struct identifier {
    soq_rule rule;
    const char *octets;
    /* NULL if it is refused. */
    const char *text;
} identifier;

/* X.690 8.19, of which 8.19.5 has the second as an example. */
static const identifier identifiers[] = {
    {SOQ_DER, "06032A0304", "1.2.3.4"},
    {SOQ_DER, "0603883703", "2.999.3"},
    {SOQ_DER, "06062A864886F70D", "1.2.840.113549"},
    {SOQ_DER, "80032A0304", "1.2.3.4"},
    {SOQ_DER, "06042A800304", NULL},
    {SOQ_DER, "0600", NULL},
    {SOQ_DER, "06032A030400", NULL},
};

/* Each text in buffers of all sizes up to the right one and beyond. */
static void identifiers_are_written(void) {
    size_t i, size, needed;
    for (i = 0; i < sizeof identifiers / sizeof *identifiers; i++) {
        const char *text = identifiers[i].text;
        uint8_t octets[LONGEST];
        size_t length = octets_of(identifiers[i].octets, octets), wanted = text == NULL ? 0 : strlen(text) + 1;
        for (size = 0; size < wanted + 3; size++) {
            char *out = (char *)before_guard(1, size);
            soq_status status;
            memset(out, 0x5A, size);
            needed = 7;
            status = soq_oid_text(identifiers[i].rule, octets, length, out, size, &needed);
            ENSURE(needed == wanted && status == (text == NULL ? SOQ_REFUSED : size < wanted ? SOQ_BUFFER_TOO_SMALL : SOQ_OK));
            ENSURE(status == SOQ_OK ? strcmp(out, text) == 0 : size == 0 || (out[0] == 0x5A && out[size - 1] == 0x5A));
            ENSURE(size <= wanted || out[wanted] == 0x5A);
        }
    }
    ENSURE(soq_oid_text((soq_rule)3, NULL, 0, NULL, 0, &needed) == SOQ_UNKNOWN_RULE && needed == 0);
}

typedef struct instant {
    soq_type type;
    soq_rule rule;
    const char *octets;
    soq_status status;
    soq_time_fields time;
} instant;

/* X.690 11.7, 11.8; the years of a UTCTime are from 1970 to 2069. */
static const instant instants[] = {
    {SOQ_UTCTIME, SOQ_DER, "170D3236313132343132303030305A", SOQ_OK, {2026, 11, 24, 12, 0, 0, 0}},
    {SOQ_UTCTIME, SOQ_BER, "17113236313132343133303030302B30313030", SOQ_OK, {2026, 11, 24, 12, 0, 0, 0}},
    {SOQ_UTCTIME, SOQ_DER, "170D3730303130313030303030305A", SOQ_OK, {1970, 1, 1, 0, 0, 0, 0}},
    {SOQ_UTCTIME, SOQ_DER, "170D3639313233313233353935395A", SOQ_OK, {2069, 12, 31, 23, 59, 59, 0}},
    {SOQ_GENTIME, SOQ_DER, "18113230353031323331323335393539 2E355A", SOQ_OK, {2050, 12, 31, 23, 59, 59, 500000000}},
    {SOQ_GENTIME, SOQ_DER, "820F32303236313132343132303030305A", SOQ_OK, {2026, 11, 24, 12, 0, 0, 0}},
    {SOQ_GENTIME, SOQ_DER, "170D3236313132343132303030305A", SOQ_REFUSED, {0, 0, 0, 0, 0, 0, 0}},
    {SOQ_UTCTIME, SOQ_DER, "170D3236313332343132303030305A", SOQ_REFUSED, {0, 0, 0, 0, 0, 0, 0}},
    {SOQ_UTCTIME, SOQ_DER, "", SOQ_REFUSED, {0, 0, 0, 0, 0, 0, 0}},
    {SOQ_BOOL, SOQ_DER, "0101FF", SOQ_UNKNOWN_TYPE, {0, 0, 0, 0, 0, 0, 0}},
    {SOQ_UTCTIME, (soq_rule)3, "", SOQ_UNKNOWN_RULE, {0, 0, 0, 0, 0, 0, 0}},
};

static void times_are_read(void) {
    size_t i;
    for (i = 0; i < sizeof instants / sizeof *instants; i++) {
        const soq_time_fields *wanted = &instants[i].time;
        uint8_t octets[LONGEST];
        size_t length = octets_of(instants[i].octets, octets);
        soq_time_fields time = {7, 7, 7, 7, 7, 7, 7};
        ENSURE(soq_time(instants[i].type, instants[i].rule, octets, length, &time) == instants[i].status);
        ENSURE(time.year == wanted->year && time.month == wanted->month && time.day == wanted->day);
        ENSURE(time.hour == wanted->hour && time.minute == wanted->minute && time.second == wanted->second);
        ENSURE(time.nanosecond == wanted->nanosecond);
    }
}

static void wrong_arguments_of_parts_are_answered(void) {
    static const uint8_t octets[] = {0x02, 0x01, 0x05};
    union {
        uint8_t octets[64];
        int64_t number;
        size_t needed;
        soq_encoding encoding;
        soq_time_fields time;
    } shared = {{0x02, 0x01, 0x05}};
    char text[8];
    size_t needed = 7;
    int64_t number = 7;
    soq_encoding encoding = {7, 7, 7, 7, 7, 7};
    soq_time_fields time = {7, 7, 7, 7, 7, 7, 7};
    ENSURE(soq_next(SOQ_BER, NULL, 1, &encoding) == SOQ_NULL_POINTER && soq_next(SOQ_BER, octets, 3, NULL) == SOQ_NULL_POINTER);
    ENSURE(soq_integer_i64(SOQ_BER, NULL, 1, &number) == SOQ_NULL_POINTER && soq_integer_i64(SOQ_BER, octets, 3, NULL) == SOQ_NULL_POINTER);
    ENSURE(soq_integer_octets(SOQ_BER, NULL, 1, shared.octets + 8, 8, &needed) == SOQ_NULL_POINTER);
    ENSURE(soq_integer_octets(SOQ_BER, octets, 3, NULL, 8, &needed) == SOQ_NULL_POINTER);
    ENSURE(soq_integer_octets(SOQ_BER, octets, 3, shared.octets + 8, 8, NULL) == SOQ_NULL_POINTER);
    ENSURE(soq_integer_octets(SOQ_BER, shared.octets, 3, shared.octets + 2, 8, &needed) == SOQ_OVERLAP);
    ENSURE(soq_oid_text(SOQ_BER, NULL, 1, text, 8, &needed) == SOQ_NULL_POINTER);
    ENSURE(soq_oid_text(SOQ_BER, octets, 3, NULL, 8, &needed) == SOQ_NULL_POINTER);
    ENSURE(soq_oid_text(SOQ_BER, octets, 3, text, 8, NULL) == SOQ_NULL_POINTER);
    ENSURE(soq_time(SOQ_UTCTIME, SOQ_BER, NULL, 1, &time) == SOQ_NULL_POINTER);
    ENSURE(soq_time(SOQ_UTCTIME, SOQ_BER, octets, 3, NULL) == SOQ_NULL_POINTER);
    ENSURE(soq_next(SOQ_BER, octets, SIZE_MAX, &encoding) == SOQ_TOO_LONG && soq_integer_i64(SOQ_BER, octets, SIZE_MAX, &number) == SOQ_TOO_LONG);
    ENSURE(soq_next(SOQ_BER, shared.octets, 3, &shared.encoding) == SOQ_OVERLAP);
    ENSURE(soq_integer_i64(SOQ_BER, shared.octets, 3, &shared.number) == SOQ_OVERLAP);
    ENSURE(soq_time(SOQ_UTCTIME, SOQ_BER, shared.octets, 3, &shared.time) == SOQ_OVERLAP);
    ENSURE(soq_oid_text(SOQ_BER, shared.octets, 3, text, 8, &shared.needed) == SOQ_OVERLAP);
    ENSURE(soq_oid_text(SOQ_BER, shared.octets, 3, (char *)shared.octets, 8, &needed) == SOQ_OVERLAP);
    ENSURE(soq_oid_text(SOQ_BER, octets, 3, (char *)shared.octets, 8, &shared.needed) == SOQ_OVERLAP);
    ENSURE(shared.octets[0] == 0x02 && needed == 7 && number == 7 && encoding.length == 7 && time.year == 7);
}

/* All encodings in a certificate, one inside another, have the lengths that those around them have; nothing is left over. Returns how many there are. */
static size_t walk(const uint8_t *octets, size_t length) {
    size_t count = 0;
    while (length > 0) {
        soq_encoding it;
        ENSURE(soq_next(SOQ_DER, octets, length, &it) == SOQ_OK && it.length <= length && it.header + it.contents == it.length);
        count += 1 + (it.constructed ? walk(octets + it.header, it.contents) : 0);
        octets += it.length;
        length -= it.length;
    }
    return count;
}

static void wrong_arguments_are_answered(void) {
    static const uint8_t octets[] = {0x01, 0x01, 0xFF};
    union {
        uint8_t octets[64];
        char text[64];
        size_t number;
        soq_fault fault;
        soq_passed passed;
    } shared = {{0x01, 0x01, 0xFF}};
    uint8_t out[8] = {0};
    size_t needed = 7;
    soq_fault fault = {7, 7, 7};
    soq_passed passed = {7, 7};
    const uint8_t *last = (const uint8_t *)UINTPTR_MAX;
    ENSURE(soq_skip(SOQ_BER, NULL, 1, &passed) == SOQ_NULL_POINTER && soq_skip(SOQ_BER, octets, 3, NULL) == SOQ_NULL_POINTER);
    ENSURE(soq_check(SOQ_BOOL, NULL, 1) == SOQ_NULL_POINTER);
    ENSURE(soq_normalise(SOQ_BOOL, SOQ_DER, NULL, 1, out, 8, &needed) == SOQ_NULL_POINTER);
    ENSURE(soq_normalise(SOQ_BOOL, SOQ_DER, octets, 3, NULL, 8, &needed) == SOQ_NULL_POINTER);
    ENSURE(soq_normalise(SOQ_BOOL, SOQ_DER, octets, 3, out, 8, NULL) == SOQ_NULL_POINTER);
    ENSURE(soq_decode_error(SOQ_BOOL, SOQ_DER, octets, 3, NULL, NULL, 0) == SOQ_NULL_POINTER);
    ENSURE(soq_decode_error(SOQ_BOOL, SOQ_DER, octets, 3, &fault, NULL, 1) == SOQ_NULL_POINTER);
    ENSURE(soq_check(SOQ_BOOL, octets, SIZE_MAX) == SOQ_TOO_LONG && soq_check(SOQ_BOOL, last, 2) == SOQ_TOO_LONG);
    ENSURE(soq_normalise(SOQ_BOOL, SOQ_DER, octets, 3, out, (size_t)PTRDIFF_MAX + 1, &needed) == SOQ_TOO_LONG);
    ENSURE(soq_skip(SOQ_BER, shared.octets, 3, &shared.passed) == SOQ_OVERLAP);
    ENSURE(soq_normalise(SOQ_BOOL, SOQ_DER, shared.octets, 3, shared.octets, 8, &needed) == SOQ_OVERLAP);
    ENSURE(soq_normalise(SOQ_BOOL, SOQ_DER, shared.octets + 2, 3, shared.octets, 3, &needed) == SOQ_OVERLAP);
    ENSURE(soq_normalise(SOQ_BOOL, SOQ_DER, octets, 3, shared.octets, 8, &shared.number) == SOQ_OVERLAP);
    ENSURE(soq_normalise(SOQ_BOOL, SOQ_DER, shared.octets, 3, out, 8, &shared.number) == SOQ_OVERLAP);
    ENSURE(soq_decode_error(SOQ_BOOL, SOQ_DER, shared.octets, 3, &shared.fault, NULL, 0) == SOQ_OVERLAP);
    ENSURE(soq_decode_error(SOQ_BOOL, SOQ_DER, shared.octets, 3, &fault, shared.text + 2, 8) == SOQ_OVERLAP);
    ENSURE(shared.octets[0] == 0x01 && shared.octets[1] == 0x01 && shared.octets[2] == 0xFF && shared.octets[3] == 0);
    ENSURE(needed == 7 && fault.kind == 7 && passed.steps == 7 && out[0] == 0);
    /* Adjacent pieces of memory don't overlap. */
    ENSURE(soq_normalise(SOQ_BOOL, SOQ_DER, shared.octets, 3, shared.octets + 3, 3, &needed) == SOQ_OK && shared.octets[5] == 0xFF);
    ENSURE(soq_check((soq_type)18, octets, 3) == SOQ_UNKNOWN_TYPE && soq_check((soq_type)1000000, octets, 3) == SOQ_UNKNOWN_TYPE);
    ENSURE(soq_normalise((soq_type)18, SOQ_DER, octets, 3, out, 8, &needed) == SOQ_UNKNOWN_TYPE && needed == 0);
    ENSURE(soq_normalise(SOQ_BOOL, (soq_rule)3, octets, 3, out, 8, &needed) == SOQ_UNKNOWN_RULE && needed == 0);
    ENSURE(soq_skip((soq_rule)3, octets, 3, &passed) == SOQ_UNKNOWN_RULE && passed.consumed == 0);
    ENSURE(soq_decode_error(SOQ_BOOL, (soq_rule)3, octets, 3, &fault, NULL, 0) == SOQ_UNKNOWN_RULE && fault.kind == 0);
    ENSURE(soq_decode_error((soq_type)18, SOQ_DER, octets, 3, &fault, shared.text, 8) == SOQ_UNKNOWN_TYPE && shared.text[0] == 0);
}

/* A value that BER reads but that has no DER encoding: an open type of indefinite length. */
static void what_has_no_normal_is_refused(void) {
    static const uint8_t open[] = {0x30, 0x80, 0x00, 0x00};
    size_t needed = 7;
    soq_fault fault;
    ENSURE(soq_normalise(SOQ_ANY, SOQ_BER, open, sizeof open, NULL, 0, &needed) == SOQ_REFUSED && needed == 0);
    ENSURE(soq_decode_error(SOQ_ANY, SOQ_BER, open, sizeof open, &fault, NULL, 0) == SOQ_OK && fault.kind == 0);
}

/* Makes each allocation of a call fail once: the status is SOQ_OUT_OF_MEMORY or as usual, and no block stays in use. */
static void refused_memory_is_answered(const uint8_t *octets, size_t length) {
    static const soq_type types[] = {SOQ_CERTIFICATE, SOQ_OCTETS};
    int which;
    for (which = 0; which < 2; which++) {
        soq_type type = types[which];
        size_t needed, all = which == 0 ? length : 3;
        static const uint8_t string[] = {0x04, 0x01, 0x41};
        const uint8_t *in = which == 0 ? octets : string;
        uint8_t *out = malloc(length);
        long request, count = 0, before = held;
        soq_fault fault;
        char text[64];
        for (request = 1; request < 100000; request++) {
            soq_status checked, normal, told;
            refused_request = request;
            checked = soq_check(type, in, all);
            refused_request = request;
            normal = soq_normalise(type, SOQ_DER, in, all, out, length, &needed);
            refused_request = request;
            told = soq_decode_error(type, SOQ_DER, in, all - 1, &fault, text, sizeof text);
            ENSURE(checked == SOQ_OUT_OF_MEMORY || checked == SOQ_OK);
            ENSURE(normal == SOQ_OUT_OF_MEMORY || (normal == SOQ_OK && needed == all));
            ENSURE(told == SOQ_OUT_OF_MEMORY || told == SOQ_REFUSED);
            ENSURE(told == SOQ_REFUSED || (fault.kind == 0 && text[0] == 0));
            refused_request = 0;
            ENSURE(held == before);
            count += checked == SOQ_OUT_OF_MEMORY;
            if (checked == SOQ_OK && normal == SOQ_OK && told == SOQ_REFUSED) {
                break;
            }
        }
        ENSURE(request > 1 && request < 100000 && count > 0);
        free(out);
    }
}

static void certificate_is_answered(const uint8_t *octets, size_t length) {
    uint8_t *copy = malloc(length + 1);
    size_t at;
    soq_fault fault;
    ENSURE(soq_check(SOQ_CERTIFICATE, octets, length) == SOQ_OK);
    ENSURE(agree(SOQ_CERTIFICATE, SOQ_DER, octets, length, 1) == SOQ_OK);
    ENSURE(soq_check(SOQ_CRL, octets, length) == SOQ_REFUSED);
    memcpy(copy, octets, length);
    copy[length] = 0;
    ENSURE(soq_check(SOQ_CERTIFICATE, copy, length + 1) == SOQ_REFUSED);
    ENSURE(soq_decode_error(SOQ_CERTIFICATE, SOQ_DER, copy, length + 1, &fault, NULL, 0) == SOQ_REFUSED);
    ENSURE(fault.kind == SOQ_KIND_UNEXPECTED_EXTRA_DATA && fault.offset == length);
    for (at = 0; at < length; at += 1 + at / 64) {
        agree(SOQ_CERTIFICATE, SOQ_DER, octets, at, 3);
        copy[at] ^= 0x80;
        agree(SOQ_CERTIFICATE, SOQ_DER, copy, length, 3);
        copy[at] ^= 0x80;
    }
    texts_fit(SOQ_CERTIFICATE, SOQ_DER, octets, length - 1);
    free(copy);
}

static long resident(void) {
    struct rusage usage;
    ENSURE(getrusage(RUSAGE_SELF, &usage) == 0);
    return usage.ru_maxrss;
}

/* Calls each function once. */
static void call_all(void) {
    static const uint8_t spelled[] = {0x01, 0x01, 0x05}, constructed[] = {0x24, 0x80, 0x04, 0x01, 0x41, 0x00, 0x00};
    static const uint8_t name[] = {0x06, 0x03, 0x2A, 0x03, 0x04};
    soq_encoding encoding;
    soq_time_fields time;
    int64_t number;
    uint8_t out[8];
    char text[64];
    size_t needed;
    soq_passed passed;
    soq_fault fault;
    ENSURE(soq_skip(SOQ_BER, constructed, sizeof constructed, &passed) == SOQ_OK);
    ENSURE(soq_check(SOQ_BOOL, spelled, sizeof spelled) == SOQ_REFUSED);
    ENSURE(soq_normalise(SOQ_OCTETS, SOQ_BER, constructed, sizeof constructed, out, sizeof out, &needed) == SOQ_OK && needed == 3);
    ENSURE(soq_decode_error(SOQ_BOOL, SOQ_DER, spelled, sizeof spelled, &fault, text, sizeof text) == SOQ_REFUSED);
    ENSURE(soq_next(SOQ_BER, constructed, sizeof constructed, &encoding) == SOQ_OK && encoding.contents == 3);
    ENSURE(soq_integer_i64(SOQ_DER, spelled, sizeof spelled, &number) == SOQ_OK && number == 5);
    ENSURE(soq_integer_octets(SOQ_DER, spelled, sizeof spelled, out, sizeof out, &needed) == SOQ_OK && needed == 1 && out[0] == 5);
    ENSURE(soq_oid_text(SOQ_DER, name, sizeof name, text, sizeof text, &needed) == SOQ_OK && needed == 8);
    ENSURE(soq_time(SOQ_UTCTIME, SOQ_DER, spelled, sizeof spelled, &time) == SOQ_REFUSED);
}

static void a_million_calls_keep_nothing(void) {
    long before, most, i;
    for (i = 0; i < 1000; i++) {
        call_all();
    }
    before = held;
    most = resident();
    for (i = 0; i < 250000; i++) {
        call_all();
    }
    ENSURE(held == before);
    ENSURE(resident() - most < 1024 * 16);
}

typedef struct work {
    const uint8_t *octets;
    size_t length;
} work;

static void *call_in_thread(void *argument) {
    const work *it = argument;
    int i;
    for (i = 0; i < 2000; i++) {
        size_t row_at = (size_t)i % ROWS, needed = 0;
        uint8_t octets[LONGEST], normal[LONGEST], out[LONGEST];
        size_t length = octets_of(rows[row_at].octets, octets);
        soq_status status = soq_normalise(rows[row_at].type, rows[row_at].rule, octets, length, out, sizeof out, &needed);
        ENSURE(status == (rows[row_at].normal == NULL ? SOQ_REFUSED : SOQ_OK));
        ENSURE(status != SOQ_OK || (needed == octets_of(rows[row_at].normal, normal) && memcmp(out, normal, needed) == 0));
        call_all();
        ENSURE(i % 50 != 0 || soq_check(SOQ_CERTIFICATE, it->octets, it->length) == SOQ_OK);
    }
    return NULL;
}

static void eight_threads_call(const uint8_t *octets, size_t length) {
    pthread_t threads[8];
    work it = {octets, length};
    long before = held;
    int i;
    for (i = 0; i < 8; i++) {
        ENSURE(pthread_create(&threads[i], NULL, call_in_thread, &it) == 0);
    }
    for (i = 0; i < 8; i++) {
        ENSURE(pthread_join(threads[i], NULL) == 0);
    }
    ENSURE(held == before);
}

int main(int count, char **words) {
    static uint8_t octets[1 << 13];
    size_t length;
    FILE *file = count == 2 ? fopen(words[1], "rb") : NULL;
    ENSURE(file != NULL);
    length = fread(octets, 1, sizeof octets, file);
    ENSURE(length > 0 && length < sizeof octets && fclose(file) == 0);
    ENSURE(strcmp(soq_version(), SOQ_VERSION) == 0);
    guard_pages();
    rows_are_answered();
    spoilt_rows_are_answered();
    whole_encodings_are_passed();
    wrong_arguments_are_answered();
    parts_are_found();
    integers_are_read();
    numbers_are_written();
    identifiers_are_written();
    times_are_read();
    wrong_arguments_of_parts_are_answered();
    ENSURE(walk(octets, length) > 50);
    what_has_no_normal_is_refused();
    certificate_is_answered(octets, length);
    refused_memory_is_answered(octets, length);
    eight_threads_call(octets, length);
    a_million_calls_keep_nothing();
    printf("c: %d rows, and spoilt ones; guards, refusals of memory, threads and a million calls\n", (int)ROWS);
    return 0;
}
