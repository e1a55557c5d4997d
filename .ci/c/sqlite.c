/*
 * Calls the extension for SQLite, which is linked with this program and not loaded: with a certificate that is cut and damaged at each octet,
 * and with requests for memory that are refused, those of SQLite and those of the library. It is linked as test.c is, and with libsqlite3.
 */
#include "memory.h"
#include "soqavise.h"

#include <sqlite3.h>
#include <stdio.h>
#include <stdlib.h>
#include <string.h>

#define ENSURE(holds)                                                              \
    do {                                                                           \
        if (!(holds)) {                                                            \
            fprintf(stderr, "sqlite: line %d: not so: %s\n", __LINE__, #holds);    \
            exit(1);                                                               \
        }                                                                          \
    } while (0)

int sqlite3_soqavisesqlite_init(sqlite3 *database, char **error, const sqlite3_api_routines *routines);

/* Statements about the octets ?1, of which the first ones have a result for a certificate. */
static const char *const statements[] = {
    "SELECT asn1_json('Certificate', ?1)",
    "SELECT asn1_check('Certificate', ?1)",
    "SELECT asn1_get('Certificate', ?1, 'tbsCertificate.validity.notAfter')",
    "SELECT asn1_get('Certificate', ?1, 'tbsCertificate.version', 'ber')",
    "SELECT asn1_get('Certificate', ?1, 'signatureValue', 'cer')",
    "SELECT asn1_name(asn1_get('Certificate', ?1, 'tbsCertificate.subject'))",
    "SELECT asn1_extension(asn1_get('Certificate', ?1, 'tbsCertificate.extensions'), '2.5.29.17')",
    "SELECT path, name, kind, value, octets FROM asn1_parts('Certificate', ?1)",
    "SELECT count(value) FROM asn1_parts('Certificate', ?1, 'ber')",
    "SELECT ?1 IS NULL, asn1_pem('-----BEGIN A-----' || char(10) || 'AQI=' || char(10) || '-----END A-----')",
    "SELECT ?1 IS NULL, asn1_module('points', 'Points DEFINITIONS ::= BEGIN Point ::= INTEGER END'), asn1_get('Point', x'020107', '')",
    "SELECT ?1 IS NULL, asn1_get('DirectoryString', x'1E0400E920AC', '')",
    "SELECT asn1_get('DirectoryString', ?1, '')",
    "SELECT asn1_get('GeneralName', ?1, '', 'ber')",
    "SELECT asn1_pem(?1)",
};

enum { STATEMENTS = sizeof statements / sizeof *statements, WITH_RESULT = STATEMENTS - 3, LONGEST = 1 << 16 };

/* SQLite's own memory, whose requests are refused as those of the library are. */
static sqlite3_mem_methods inner;

static void *request(int size) {
    return is_refused() ? NULL : inner.xMalloc(size);
}

static void *request_again(void *block, int size) {
    return is_refused() ? NULL : inner.xRealloc(block, size);
}

/* A text of rows. */
typedef struct rows {
    size_t length;
    char text[LONGEST];
} rows;

static void append_row(rows *made, sqlite3_stmt *statement) {
    for (int column = 0; column < sqlite3_column_count(statement); column++) {
        const void *octets = sqlite3_column_blob(statement, column);
        size_t length = (size_t)sqlite3_column_bytes(statement, column);
        ENSURE(made->length + length + 1 < LONGEST);
        if (octets != NULL) {
            memcpy(made->text + made->length, octets, length);
        }
        made->length += length;
        made->text[made->length++] = (char)('0' + sqlite3_column_type(statement, column));
    }
}

/* Returns the code of a statement about octets, and its rows. */
static int run(sqlite3 *database, const char *sql, const uint8_t *octets, size_t length, rows *made) {
    sqlite3_stmt *statement = NULL;
    int code = sqlite3_prepare_v2(database, sql, -1, &statement, NULL);
    made->length = 0;
    if (code == SQLITE_OK) {
        code = sqlite3_bind_blob64(statement, 1, octets, length, SQLITE_STATIC);
    }
    while (code == SQLITE_OK || code == SQLITE_ROW) {
        code = sqlite3_step(statement);
        if (code == SQLITE_ROW) {
            append_row(made, statement);
        }
    }
    sqlite3_finalize(statement);
    return code;
}

/* Returns a new connection with the extension, or a null pointer if memory runs out. */
static sqlite3 *connect(void) {
    sqlite3 *database;
    char *error = NULL;
    int code = sqlite3_open(":memory:", &database);
    if (code == SQLITE_OK) {
        code = sqlite3_soqavisesqlite_init(database, &error, NULL);
    }
    ENSURE(code == SQLITE_OK || code == SQLITE_NOMEM);
    if (code != SQLITE_OK) {
        sqlite3_close(database);
        return NULL;
    }
    return database;
}

/* A statement about octets that are no certificate is refused with a text, or returns something. */
static void try_octets(sqlite3 *database, const uint8_t *octets, size_t length) {
    static rows made;
    for (size_t index = 0; index < STATEMENTS; index++) {
        int code = run(database, statements[index], octets, length, &made);
        ENSURE(code == SQLITE_DONE || (code == SQLITE_ERROR && sqlite3_errmsg(database)[0] != 0));
    }
}

static void try_damaged(const uint8_t *octets, size_t length) {
    static const uint8_t changes[] = {0x01, 0x20, 0x80, 0xFF};
    sqlite3 *database = connect();
    uint8_t *copy = malloc(length);
    ENSURE(database != NULL && copy != NULL);
    for (size_t at = 0; at < length; at++) {
        uint8_t *cut = malloc(at + 1);
        ENSURE(cut != NULL);
        memcpy(cut, octets, at);
        try_octets(database, cut, at);
        free(cut);
        for (size_t index = 0; index < sizeof changes; index++) {
            memcpy(copy, octets, length);
            copy[at] ^= changes[index];
            try_octets(database, copy, length);
        }
    }
    free(copy);
    ENSURE(sqlite3_close(database) == SQLITE_OK);
}

/* Runs a statement on a new connection with the request of this number refused. Returns whether there was such a request. */
static int try_refusal(const char *sql, const uint8_t *octets, size_t length, const rows *expected, long number) {
    static rows made;
    refused_request = number;
    sqlite3 *database = connect();
    int code = database == NULL ? SQLITE_NOMEM : run(database, sql, octets, length, &made);
    int was_refused = refused_request == 0;
    refused_request = 0;
    ENSURE(code == SQLITE_NOMEM || (code == SQLITE_DONE && made.length == expected->length && memcmp(made.text, expected->text, made.length) == 0));
    ENSURE(was_refused || code == SQLITE_DONE);
    ENSURE(database == NULL || sqlite3_close(database) == SQLITE_OK);
    return was_refused;
}

/* Refuses each of the first requests of a statement, then some: to compile a type takes thousands. Returns how many. */
static size_t try_refusals(const char *sql, const uint8_t *octets, size_t length) {
    static rows expected;
    size_t tried = 0;
    sqlite3 *database = connect();
    ENSURE(database != NULL && run(database, sql, octets, length, &expected) == SQLITE_DONE);
    ENSURE(sqlite3_close(database) == SQLITE_OK);
    for (long number = 1; try_refusal(sql, octets, length, &expected, number); number += 1 + number / 64) {
        tried++;
    }
    return tried;
}

int main(int count, char **words) {
    static uint8_t octets[LONGEST];
    sqlite3_mem_methods outer;
    FILE *file = count == 2 ? fopen(words[1], "rb") : NULL;
    ENSURE(file != NULL);
    size_t length = fread(octets, 1, sizeof octets, file);
    fclose(file);
    ENSURE(sqlite3_config(SQLITE_CONFIG_GETMALLOC, &inner) == SQLITE_OK);
    outer = inner;
    outer.xMalloc = request;
    outer.xRealloc = request_again;
    ENSURE(sqlite3_config(SQLITE_CONFIG_MALLOC, &outer) == SQLITE_OK && sqlite3_initialize() == SQLITE_OK);
    long before = held;
    try_damaged(octets, length);
    size_t tried = 0;
    for (size_t index = 0; index < WITH_RESULT; index++) {
        tried += try_refusals(statements[index], octets, length);
    }
    ENSURE(held == before);
    sqlite3_shutdown();
    ENSURE(sqlite3_memory_used() == 0);
    printf("sqlite: %d statements about a certificate that is damaged at each of %zu octets, %zu refused requests for memory\n",
           (int)STATEMENTS, length, tried);
    return 0;
}
