/*
 * An extension of SQLite: functions of SQL that read ASN.1 by the library for C, as docs/SQL.md says. `build` compiles it, with the texts of
 * the modules of `modules/` in it.
 *
 * A function that isn't given what it takes, or whose octets are refused, ends with an error of SQL, which is a code of SQLite and a text
 * that SQLite has allocated. Here the code SQLITE_DONE says that the result is NULL.
 */
#include "soqavise.h"
#include "standard_modules.h"

#include <sqlite3ext.h>
SQLITE_EXTENSION_INIT1

enum {
    /* Results of up to so many octets are written on the stack. */
    SMALL = 4096,
    /* The number of parts for which memory is requested first. */
    FEW = 256,
    /* The longest text of an error, with the zero at its end. */
    MESSAGE = 4096,
    STANDARD_MODULES = sizeof standard_modules / sizeof *standard_modules
};

/* The schema of a type, whose octets follow the name. */
typedef struct schema {
    struct schema *next;
    uint8_t *octets;
    size_t size;
    char name[];
} schema;

/* What the functions of a connection share. The last of its users frees it. */
typedef struct connection {
    size_t users;
    /* The modules that `asn1_module` has registered and, if there are any, the standard modules after them. */
    soq_texts *texts;
    size_t registered;
    schema *schemas;
} connection;

/* What a call reads: octets, by these rules and, unless it is null, this schema. */
typedef struct query {
    const schema *schema;
    soq_rule rule;
    const uint8_t *octets;
    size_t length;
    /* The kind of a part, and the identifier of an extension. */
    uint32_t kind;
    const char *identifier;
} query;

static void free_connection(void *data) {
    connection *shared = data;
    if (--shared->users != 0) {
        return;
    }
    while (shared->schemas != NULL) {
        schema *next = shared->schemas->next;
        sqlite3_free(shared->schemas);
        shared->schemas = next;
    }
    for (size_t index = 0; index < shared->registered; index++) {
        sqlite3_free((void *)shared->texts[index].name);
    }
    sqlite3_free(shared->texts);
    sqlite3_free(shared);
}

/* Shortens a text that was cut to MESSAGE octets in the middle of a character. */
static void mend(char *text) {
    size_t length = strlen(text), first = length;
    if (length + 1 < MESSAGE) {
        return;
    }
    while (first > 0 && ((unsigned char)text[first - 1] & 0xC0) == 0x80) {
        first--;
    }
    if (first > 0 && (unsigned char)text[first - 1] >= 0xC0) {
        text[first - 1] = 0;
    }
}

/* Returns the code for a status of the library. `subject` is the type or the path that the call names. */
static int code_of(soq_status status, const char *subject, char *text, char **error) {
    switch (status) {
    case SOQ_OK:
        return SQLITE_OK;
    case SOQ_ABSENT:
        return SQLITE_DONE;
    case SOQ_OUT_OF_MEMORY:
        return SQLITE_NOMEM;
    case SOQ_UNKNOWN_TYPE:
    case SOQ_UNKNOWN_PATH:
        *error = sqlite3_mprintf("%s: %s", subject, text);
        break;
    case SOQ_REFUSED:
        mend(text);
        *error = sqlite3_mprintf("%s", text);
        break;
    default:
        *error = sqlite3_mprintf("the library doesn't take this call (soq_status %d)", (int)status);
    }
    return *error == NULL ? SQLITE_NOMEM : SQLITE_ERROR;
}

/* Returns SQLITE_ERROR with a text, in which `%s` is the type of the value. */
static int wrong_kind(const char *format, sqlite3_value *value, char **error) {
    static const char *const names[] = {"", "an INTEGER", "a REAL", "a TEXT", "a BLOB", "NULL"};
    *error = sqlite3_mprintf(format, names[sqlite3_value_type(value)]);
    return *error == NULL ? SQLITE_NOMEM : SQLITE_ERROR;
}

/* Ends a function: sets the error of a code. */
static void finish(sqlite3_context *context, int code, char *error) {
    if (code == SQLITE_NOMEM) {
        sqlite3_result_error_nomem(context);
    } else if (code == SQLITE_ERROR) {
        sqlite3_result_error(context, error, -1);
    }
    sqlite3_free(error);
}

/* Schemas. */

/* Compiles a type: one of the standard modules if they have it, else one of those that are registered. So what a type means doesn't change
 * with what is registered. */
static soq_status compile(const connection *shared, const char *type, uint8_t *octets, size_t capacity, size_t *size, char *text) {
    soq_status status = soq_compile(standard_modules, STANDARD_MODULES, type, octets, capacity, size, NULL, text, MESSAGE);
    if (status == SOQ_UNKNOWN_TYPE && shared->registered != 0) {
        size_t count = shared->registered + STANDARD_MODULES;
        status = soq_compile(shared->texts, count, type, octets, capacity, size, NULL, text, MESSAGE);
    }
    return status;
}

/* Compiles a type and keeps its schema. */
static int keep_schema(connection *shared, const char *type, const schema **found, char **error) {
    char text[MESSAGE] = "";
    size_t size, name = strlen(type) + 1;
    soq_status status = compile(shared, type, NULL, 0, &size, text);
    if (status != SOQ_BUFFER_TOO_SMALL) {
        return code_of(status, type, text, error);
    }
    schema *made = sqlite3_malloc64(sizeof *made + name + size);
    if (made == NULL) {
        return SQLITE_NOMEM;
    }
    memcpy(made->name, type, name);
    made->octets = (uint8_t *)made->name + name;
    made->next = shared->schemas;
    status = compile(shared, type, made->octets, size, &made->size, text);
    if (status != SOQ_OK) {
        sqlite3_free(made);
        return code_of(status, type, text, error);
    }
    *found = shared->schemas = made;
    return SQLITE_OK;
}

/* Returns the schema of a type, which is compiled once for a connection. */
static int schema_of(connection *shared, const char *type, const schema **found, char **error) {
    for (const schema *known = shared->schemas; known != NULL; known = known->next) {
        if (strcmp(known->name, type) == 0) {
            *found = known;
            return SQLITE_OK;
        }
    }
    return keep_schema(shared, type, found, error);
}

/* Arguments. */

static int has_null(int count, sqlite3_value **values) {
    for (int index = 0; index < count; index++) {
        if (sqlite3_value_type(values[index]) == SQLITE_NULL) {
            return 1;
        }
    }
    return 0;
}

/* Returns the octets of a BLOB, or of a TEXT in UTF-8. */
static int octets_of(sqlite3_value *value, const uint8_t **octets, size_t *length) {
    int is_text = sqlite3_value_type(value) == SQLITE_TEXT;
    *octets = is_text ? sqlite3_value_text(value) : sqlite3_value_blob(value);
    *length = (size_t)sqlite3_value_bytes(value);
    return *octets == NULL && (is_text || *length != 0) ? SQLITE_NOMEM : SQLITE_OK;
}

/* Returns a TEXT as C has it. `format` says what it has to be. */
static int word_of(sqlite3_value *value, const char *format, const char **word, char **error) {
    const uint8_t *octets;
    size_t length;
    if (sqlite3_value_type(value) != SQLITE_TEXT) {
        return wrong_kind(format, value, error);
    }
    if (octets_of(value, &octets, &length) != SQLITE_OK) {
        return SQLITE_NOMEM;
    }
    *word = (const char *)octets;
    return strlen(*word) == length ? SQLITE_OK : wrong_kind("an argument is %s with a zero in it", value, error);
}

/* Reads the octets of a query and its rules, DER if the value is null. */
static int read_octets(sqlite3_value *octets, sqlite3_value *rules, query *asked, char **error) {
    const char *word = "der";
    int code = rules == NULL ? SQLITE_OK : word_of(rules, "rules are 'der', 'cer' or 'ber', not %s", &word, error);
    if (code != SQLITE_OK) {
        return code;
    }
    if (sqlite3_value_type(octets) != SQLITE_BLOB) {
        return wrong_kind("octets are a BLOB, not %s", octets, error);
    }
    memset(asked, 0, sizeof *asked);
    asked->rule = sqlite3_stricmp(word, "ber") == 0 ? SOQ_BER : sqlite3_stricmp(word, "cer") == 0 ? SOQ_CER : SOQ_DER;
    if (asked->rule == SOQ_DER && sqlite3_stricmp(word, "der") != 0) {
        *error = sqlite3_mprintf("rules are 'der', 'cer' or 'ber', not '%s'", word);
        return *error == NULL ? SQLITE_NOMEM : SQLITE_ERROR;
    }
    return octets_of(octets, &asked->octets, &asked->length);
}

/* Reads a query of a type and octets, the first two values. */
static int read_query(connection *shared, sqlite3_value **values, sqlite3_value *rules, query *asked, char **error) {
    const char *type;
    int code = word_of(values[0], "a type's name is a TEXT, not %s", &type, error);
    if (code == SQLITE_OK) {
        code = read_octets(values[1], rules, asked, error);
    }
    return code == SQLITE_OK ? schema_of(shared, type, &asked->schema, error) : code;
}

/* Results that a call writes to a buffer. */

typedef enum form { FORM_BLOB, FORM_TEXT } form;

typedef soq_status (*writer)(const query *asked, uint8_t *buffer, size_t capacity, size_t *needed, char *text);

static soq_status write_json(const query *asked, uint8_t *buffer, size_t capacity, size_t *needed, char *text) {
    return soq_json(asked->schema->octets, asked->schema->size, asked->rule, 0, asked->octets, asked->length, (char *)buffer, capacity,
                    needed, NULL, text, MESSAGE);
}

static soq_status write_name(const query *asked, uint8_t *buffer, size_t capacity, size_t *needed, char *text) {
    (void)text;
    return soq_name_text(asked->rule, asked->octets, asked->length, (char *)buffer, capacity, needed);
}

static soq_status write_extension(const query *asked, uint8_t *buffer, size_t capacity, size_t *needed, char *text) {
    (void)text;
    return soq_extension(asked->rule, asked->octets, asked->length, asked->identifier, buffer, capacity, needed);
}

static soq_status write_block(const query *asked, uint8_t *buffer, size_t capacity, size_t *needed, char *text) {
    soq_block block;
    (void)text;
    return soq_pem((const char *)asked->octets, asked->length, 0, &block, buffer, capacity, needed);
}

static soq_status write_identifier(const query *asked, uint8_t *buffer, size_t capacity, size_t *needed, char *text) {
    (void)text;
    return soq_oid_text(asked->rule, asked->octets, asked->length, (char *)buffer, capacity, needed);
}

static soq_status write_characters(const query *asked, uint8_t *buffer, size_t capacity, size_t *needed, char *text) {
    (void)text;
    return soq_utf8((soq_part_kind)asked->kind, asked->rule, asked->octets, asked->length, (char *)buffer, capacity, needed);
}

static soq_status write_number(const query *asked, uint8_t *buffer, size_t capacity, size_t *needed, char *text) {
    (void)text;
    return soq_integer_octets(asked->rule, asked->octets, asked->length, buffer, capacity, needed);
}

static soq_status write_octets(const query *asked, uint8_t *buffer, size_t capacity, size_t *needed, char *text) {
    (void)text;
    return soq_octet_string(asked->rule, asked->octets, asked->length, buffer, capacity, needed);
}

static soq_status write_bits(const query *asked, uint8_t *buffer, size_t capacity, size_t *needed, char *text) {
    size_t bits;
    (void)text;
    return soq_bits(asked->rule, asked->octets, asked->length, buffer, capacity, needed, &bits);
}

/* Sets the result to what a call writes: octets, or a text with a zero at its end. */
static soq_status deliver(sqlite3_context *context, const query *asked, writer write, form made, char *text) {
    uint8_t small[SMALL], *buffer = small;
    size_t needed = 0;
    soq_status status = write(asked, small, sizeof small, &needed, text);
    if (status == SOQ_BUFFER_TOO_SMALL) {
        buffer = sqlite3_malloc64(needed);
        status = buffer == NULL ? SOQ_OUT_OF_MEMORY : write(asked, buffer, needed, &needed, text);
    }
    if (status == SOQ_OK) {
        sqlite3_destructor_type destroy = buffer == small ? SQLITE_TRANSIENT : sqlite3_free;
        if (made == FORM_TEXT) {
            sqlite3_result_text64(context, (char *)buffer, needed - 1, destroy, SQLITE_UTF8);
        } else {
            sqlite3_result_blob64(context, buffer, needed, destroy);
        }
    } else if (buffer != small) {
        sqlite3_free(buffer);
    }
    return status;
}

/* Values of parts. Each function returns SOQ_REFUSED if the part has no such value. */

static soq_status put_boolean(sqlite3_context *context, const query *part) {
    int value;
    soq_status status = soq_bool(part->rule, part->octets, part->length, &value);
    if (status == SOQ_OK) {
        sqlite3_result_int(context, value);
    }
    return status;
}

/* A number that 64 bits don't hold is a BLOB: two's complement, the first octet first. */
static soq_status put_number(sqlite3_context *context, const query *part) {
    int64_t number;
    if (soq_integer_i64(part->rule, part->octets, part->length, &number) != SOQ_OK) {
        return deliver(context, part, write_number, FORM_BLOB, NULL);
    }
    sqlite3_result_int64(context, number);
    return SOQ_OK;
}

/* A time is a TEXT of ISO 8601 in UTC, with as many digits of a fraction as it has. */
static soq_status put_time(sqlite3_context *context, const query *part) {
    char text[64];
    soq_time_fields time;
    soq_type type = part->kind == SOQ_PART_UTC_TIME ? SOQ_UTCTIME : SOQ_GENTIME;
    soq_status status = soq_time(type, part->rule, part->octets, part->length, &time);
    if (status != SOQ_OK) {
        return status;
    }
    unsigned leap = time.nanosecond / 1000000000, fraction = time.nanosecond % 1000000000;
    sqlite3_snprintf(sizeof text, text, "%04d-%02u-%02uT%02u:%02u:%02u.%09u", (int)time.year, time.month, time.day, time.hour, time.minute,
                     time.second + leap, fraction);
    size_t length = strlen(text);
    while (text[length - 1] == '0' && fraction != 0) {
        length--;
    }
    length -= fraction == 0 ? sizeof ".000000000" - 1 : 0;
    text[length++] = 'Z';
    sqlite3_result_text64(context, text, length, SQLITE_TRANSIENT, SQLITE_UTF8);
    return SOQ_OK;
}

/* Writes a character in UTF-8, and returns how many octets it has. */
static size_t write_character(uint32_t character, char *text) {
    static const unsigned char marks[] = {0, 0, 0xC0, 0xE0, 0xF0};
    size_t size = character < 0x80 ? 1 : character < 0x800 ? 2 : character < 0x10000 ? 3 : 4;
    for (size_t index = size - 1; index > 0; index--, character >>= 6) {
        text[index] = (char)(0x80 | (character & 0x3F));
    }
    text[0] = (char)(marks[size] | character);
    return size;
}

static uint32_t unit_at(const uint8_t *octets, size_t width) {
    uint32_t unit = 0;
    for (size_t index = 0; index < width; index++) {
        unit = unit << 8 | octets[index];
    }
    return unit;
}

/* Writes characters of two octets each, of which a pair of surrogates is one, or of four octets each in UTF-8. */
static soq_status write_wide(const uint8_t *octets, size_t size, size_t width, char *text, size_t *length) {
    *length = 0;
    for (size_t at = 0; at + width <= size; at += width) {
        uint32_t character = unit_at(octets + at, width);
        if (width == 2 && character >> 10 == 0x36 && size - at >= 4 && unit_at(octets + at + 2, 2) >> 10 == 0x37) {
            at += 2;
            character = 0x10000 + ((character & 0x3FF) << 10 | (unit_at(octets + at, 2) & 0x3FF));
        }
        if (character > 0x10FFFF || character >> 11 == 0x1B) {
            return SOQ_REFUSED;
        }
        *length += write_character(character, text + *length);
    }
    return size % width == 0 ? SOQ_OK : SOQ_REFUSED;
}

/* A BMPString or a UniversalString, whose characters have so many octets, is a TEXT unless a surrogate is alone. */
static soq_status put_wide(sqlite3_context *context, const query *part, size_t width) {
    size_t size, length;
    uint8_t *contents = sqlite3_malloc64(part->length + 1);
    char *text = sqlite3_malloc64(2 * part->length + 1);
    soq_status status = contents == NULL || text == NULL ? SOQ_OUT_OF_MEMORY : write_octets(part, contents, part->length, &size, NULL);
    if (status == SOQ_OK) {
        status = write_wide(contents, size, width, text, &length);
    }
    sqlite3_free(contents);
    if (status == SOQ_OK) {
        sqlite3_result_text64(context, text, length, sqlite3_free, SQLITE_UTF8);
    } else {
        sqlite3_free(text);
    }
    return status;
}

static soq_status put_natural(sqlite3_context *context, const query *part) {
    switch (part->kind) {
    case SOQ_PART_BOOLEAN:
        return put_boolean(context, part);
    case SOQ_PART_INTEGER:
    case SOQ_PART_ENUMERATED:
        return put_number(context, part);
    case SOQ_PART_BIT_STRING:
        return deliver(context, part, write_bits, FORM_BLOB, NULL);
    case SOQ_PART_OCTET_STRING:
        return deliver(context, part, write_octets, FORM_BLOB, NULL);
    case SOQ_PART_OBJECT_IDENTIFIER:
        return deliver(context, part, write_identifier, FORM_TEXT, NULL);
    case SOQ_PART_UTF8:
    case SOQ_PART_NUMERIC:
    case SOQ_PART_PRINTABLE:
    case SOQ_PART_IA5:
    case SOQ_PART_VISIBLE:
        return deliver(context, part, write_characters, FORM_TEXT, NULL);
    case SOQ_PART_BMP:
        return put_wide(context, part, 2);
    case SOQ_PART_UNIVERSAL:
        return put_wide(context, part, 4);
    case SOQ_PART_UTC_TIME:
    case SOQ_PART_GENERALIZED_TIME:
        return put_time(context, part);
    default:
        return SOQ_REFUSED;
    }
}

/* Sets the result to the octets of a part, as a BLOB. */
static void put_octets(sqlite3_context *context, const query *part) {
    if (part->length == 0) {
        sqlite3_result_zeroblob(context, 0);
    } else {
        sqlite3_result_blob64(context, part->octets, part->length, SQLITE_TRANSIENT);
    }
}

/* Sets the result to the value of a part: if SQL has none for its type, to its octets. */
static soq_status put_value(sqlite3_context *context, const query *part) {
    soq_status status = put_natural(context, part);
    if (status == SOQ_REFUSED) {
        put_octets(context, part);
        status = SOQ_OK;
    }
    return status;
}

/* Parts. */

/* All parts of a message, and their names. */
typedef struct listing {
    soq_listed_part *parts;
    char *names;
    size_t count;
} listing;

static void free_listing(listing *listed) {
    sqlite3_free(listed->parts);
    sqlite3_free(listed->names);
    memset(listed, 0, sizeof *listed);
}

/* Lists the parts of a message. One of few parts is read once, another is read again when their number is known. */
static soq_status list_parts(const query *asked, listing *listed, char *text) {
    const schema *type = asked->schema;
    soq_counts counts = {FEW, SMALL};
    soq_status status;
    memset(listed, 0, sizeof *listed);
    do {
        free_listing(listed);
        listed->parts = sqlite3_malloc64(counts.parts * sizeof *listed->parts);
        listed->names = sqlite3_malloc64(counts.names + 1);
        status = listed->parts == NULL || listed->names == NULL
                     ? SOQ_OUT_OF_MEMORY
                     : soq_parts(type->octets, type->size, asked->rule, asked->octets, asked->length, listed->parts, counts.parts,
                                 listed->names, counts.names, &counts, NULL, text, MESSAGE);
    } while (status == SOQ_BUFFER_TOO_SMALL);
    if (status == SOQ_OK) {
        listed->count = counts.parts;
    } else {
        free_listing(listed);
    }
    return status;
}

/* Returns whether a part has the value of the one in it: of what an explicit tag holds, or of the alternative that is chosen. A CHOICE with a
 * universal tag has the value of the type with this tag. */
static int is_outer(const soq_part *part) {
    return part->kind == SOQ_PART_TAGGED || (part->kind == SOQ_PART_CHOICE && part->tag_class != 0);
}

/* Returns the part whose value that of a listed part is. */
static const soq_part *innermost(const listing *listed, size_t index) {
    const soq_listed_part *outer = &listed->parts[index], *last = &listed->parts[listed->count - 1];
    while (is_outer(&outer->part) && outer < last && outer[1].depth > outer->depth) {
        outer++;
    }
    return &outer->part;
}

/* Replaces a part by the one whose value it has. */
static soq_status look_into(const query *asked, soq_part *part, char *text) {
    listing listed;
    size_t index = 0;
    soq_status status = list_parts(asked, &listed, text);
    if (status != SOQ_OK) {
        return status;
    }
    while (index < listed.count && memcmp(&listed.parts[index].part, part, sizeof *part) != 0) {
        index++;
    }
    if (index < listed.count) {
        *part = *innermost(&listed, index);
    }
    free_listing(&listed);
    return SOQ_OK;
}

/* Returns what reads a part of a message. */
static query within(const query *asked, const soq_part *part) {
    query inner = *asked;
    inner.octets += part->offset;
    inner.length = part->length;
    inner.kind = part->kind == SOQ_PART_CHOICE && part->tag_class == 0 ? part->tag_number : part->kind;
    return inner;
}

/* Sets the result to the value of the part at a path. */
static int put_found(sqlite3_context *context, const query *asked, const char *path, char **error) {
    char text[MESSAGE] = "";
    soq_part part;
    soq_status status = soq_find(asked->schema->octets, asked->schema->size, asked->rule, asked->octets, asked->length, path, &part, NULL,
                                 text, sizeof text);
    if (status == SOQ_OK && is_outer(&part)) {
        status = look_into(asked, &part, text);
    }
    if (status == SOQ_OK) {
        query inner = within(asked, &part);
        status = put_value(context, &inner);
    }
    return code_of(status, path, text, error);
}

/* Functions. */

/* asn1_json(TYPE, OCTETS [, RULES]) */
static void asn1_json(sqlite3_context *context, int count, sqlite3_value **values) {
    char text[MESSAGE] = "", *error = NULL;
    query asked;
    if (has_null(count, values)) {
        return;
    }
    int code = read_query(sqlite3_user_data(context), values, count > 2 ? values[2] : NULL, &asked, &error);
    if (code == SQLITE_OK) {
        code = code_of(deliver(context, &asked, write_json, FORM_TEXT, text), "", text, &error);
    }
    finish(context, code, error);
}

/* asn1_get(TYPE, OCTETS, PATH [, RULES]) */
static void asn1_get(sqlite3_context *context, int count, sqlite3_value **values) {
    char *error = NULL;
    const char *path;
    query asked;
    if (has_null(count, values)) {
        return;
    }
    int code = read_query(sqlite3_user_data(context), values, count > 3 ? values[3] : NULL, &asked, &error);
    if (code == SQLITE_OK) {
        code = word_of(values[2], "a path is a TEXT, not %s", &path, &error);
    }
    if (code == SQLITE_OK) {
        code = put_found(context, &asked, path, &error);
    }
    finish(context, code, error);
}

/* asn1_check(TYPE, OCTETS [, RULES]) */
static void asn1_check(sqlite3_context *context, int count, sqlite3_value **values) {
    char text[MESSAGE] = "", *error = NULL;
    query asked;
    if (has_null(count, values)) {
        return;
    }
    int code = read_query(sqlite3_user_data(context), values, count > 2 ? values[2] : NULL, &asked, &error);
    if (code == SQLITE_OK) {
        soq_status status = soq_check_by(asked.schema->octets, asked.schema->size, asked.rule, 1, asked.octets, asked.length, NULL, text,
                                         sizeof text);
        if (status == SOQ_REFUSED) {
            mend(text);
            sqlite3_result_text(context, text, -1, SQLITE_TRANSIENT);
        } else {
            code = code_of(status, "", text, &error);
        }
    }
    finish(context, code, error);
}

/* asn1_name(OCTETS [, RULES]) */
static void asn1_name(sqlite3_context *context, int count, sqlite3_value **values) {
    char refusal[] = "the octets aren't a Name by these rules", *error = NULL;
    query asked;
    if (has_null(count, values)) {
        return;
    }
    int code = read_octets(values[0], count > 1 ? values[1] : NULL, &asked, &error);
    if (code == SQLITE_OK) {
        code = code_of(deliver(context, &asked, write_name, FORM_TEXT, NULL), "", refusal, &error);
    }
    finish(context, code, error);
}

/* asn1_extension(OCTETS, IDENTIFIER [, RULES]) */
static void asn1_extension(sqlite3_context *context, int count, sqlite3_value **values) {
    char refusal[] = "the octets aren't Extensions by these rules", *error = NULL;
    query asked;
    if (has_null(count, values)) {
        return;
    }
    int code = read_octets(values[0], count > 2 ? values[2] : NULL, &asked, &error);
    if (code == SQLITE_OK) {
        code = word_of(values[1], "an identifier is a TEXT such as '2.5.29.17', not %s", &asked.identifier, &error);
    }
    if (code == SQLITE_OK) {
        code = code_of(deliver(context, &asked, write_extension, FORM_BLOB, NULL), "", refusal, &error);
    }
    finish(context, code, error);
}

/* asn1_pem(TEXT) */
static void asn1_pem(sqlite3_context *context, int count, sqlite3_value **values) {
    char refusal[] = "the first block of PEM isn't base64, or has no last line", *error = NULL;
    query front = {NULL, SOQ_DER, NULL, 0, 0, NULL};
    size_t left = 0;
    soq_status status = SOQ_ABSENT;
    int type = sqlite3_value_type(values[0]), code = SQLITE_OK;
    if (has_null(count, values)) {
        return;
    }
    if (type != SQLITE_TEXT && type != SQLITE_BLOB) {
        code = wrong_kind("a text of PEM is a TEXT or a BLOB, not %s", values[0], &error);
    } else {
        code = octets_of(values[0], &front.octets, &left);
    }
    for (; code == SQLITE_OK && status == SOQ_ABSENT && left != 0; left -= front.length, front.octets += front.length) {
        front.length = soq_pem_front((const char *)front.octets, left);
        status = deliver(context, &front, write_block, FORM_BLOB, NULL);
    }
    if (code == SQLITE_OK) {
        code = code_of(status, "", refusal, &error);
    }
    finish(context, code, error);
}

/* Modules. */

/* Returns SQLITE_OK if the text of modules has no fault: then it has no type without a name. */
static int check_module(const soq_texts *module, char **error) {
    char text[MESSAGE] = "";
    size_t size;
    soq_status status = soq_compile(module, 1, "", NULL, 0, &size, NULL, text, sizeof text);
    return status == SOQ_UNKNOWN_TYPE ? SQLITE_OK : code_of(status, "", text, error);
}

/* Adds a module, whose name and text are copied, to those that are registered. */
static int add_module(connection *shared, const soq_texts *module) {
    size_t count = shared->registered;
    char *copy = sqlite3_malloc64(module->name_length + module->text_length + 1);
    soq_texts *texts = sqlite3_realloc64(shared->texts, (count + 1 + STANDARD_MODULES) * sizeof *texts);
    shared->texts = texts == NULL ? shared->texts : texts;
    if (copy == NULL || texts == NULL) {
        sqlite3_free(copy);
        return SQLITE_NOMEM;
    }
    memcpy(copy, module->name, module->name_length);
    if (module->text_length != 0) {
        memcpy(copy + module->name_length, module->text, module->text_length);
    }
    texts[count] = (soq_texts){copy, module->name_length, copy + module->name_length, module->text_length};
    memcpy(texts + count + 1, standard_modules, sizeof standard_modules);
    shared->registered = count + 1;
    return SQLITE_OK;
}

static int are_equal(const char *octets, size_t length, const char *others, size_t other_length) {
    return length == other_length && (length == 0 || memcmp(octets, others, length) == 0);
}

/* Registers a module, unless it is registered already. A name has one text. */
static int register_module(connection *shared, const soq_texts *module, char **error) {
    for (size_t index = 0; index < shared->registered; index++) {
        const soq_texts *known = &shared->texts[index];
        if (!are_equal(known->name, known->name_length, module->name, module->name_length)) {
            continue;
        }
        if (are_equal(known->text, known->text_length, module->text, module->text_length)) {
            return SQLITE_OK;
        }
        *error = sqlite3_mprintf("%s: another text is registered by this name", module->name);
        return *error == NULL ? SQLITE_NOMEM : SQLITE_ERROR;
    }
    int code = check_module(module, error);
    return code == SQLITE_OK ? add_module(shared, module) : code;
}

/* asn1_module(NAME, TEXT) */
static void asn1_module(sqlite3_context *context, int count, sqlite3_value **values) {
    char *error = NULL;
    const uint8_t *octets = NULL;
    soq_texts module = {NULL, 0, NULL, 0};
    if (has_null(count, values)) {
        return;
    }
    int code = word_of(values[0], "a module's name is a TEXT, not %s", &module.name, &error), type = sqlite3_value_type(values[1]);
    if (code == SQLITE_OK && type != SQLITE_TEXT && type != SQLITE_BLOB) {
        code = wrong_kind("a module's text is a TEXT or a BLOB, not %s", values[1], &error);
    } else if (code == SQLITE_OK) {
        code = octets_of(values[1], &octets, &module.text_length);
    }
    if (code == SQLITE_OK) {
        module.name_length = strlen(module.name);
        module.text = octets == NULL ? "" : (const char *)octets;
        code = register_module(sqlite3_user_data(context), &module, &error);
    }
    finish(context, code, error);
}

/* The table asn1_parts(TYPE, OCTETS [, RULES]). */

enum {
    COLUMN_PATH,
    COLUMN_NAME,
    COLUMN_KIND,
    COLUMN_DEPTH,
    COLUMN_TAG_CLASS,
    COLUMN_TAG_NUMBER,
    COLUMN_CONSTRUCTED,
    COLUMN_OFFSET,
    COLUMN_HEADER,
    COLUMN_CONTENTS,
    COLUMN_LENGTH,
    COLUMN_VALUE,
    COLUMN_OCTETS,
    /* The arguments. */
    COLUMN_TYPE,
    COLUMN_MESSAGE,
    COLUMN_RULES,
    ARGUMENTS = COLUMN_RULES + 1 - COLUMN_TYPE
};

static const char columns[] = "CREATE TABLE asn1_parts(path TEXT, name TEXT, kind TEXT, depth INTEGER, tag_class INTEGER, tag_number INTEGER, "
                              "constructed INTEGER, offset INTEGER, header INTEGER, contents INTEGER, length INTEGER, value, octets BLOB, "
                              "type HIDDEN, message HIDDEN, rules HIDDEN)";

typedef struct parts_table {
    sqlite3_vtab base;
    connection *shared;
} parts_table;

/* A part on the way to the one that the cursor is at: where its path ends, and its kind. */
typedef struct level {
    size_t end;
    uint32_t kind;
} level;

typedef struct parts_cursor {
    sqlite3_vtab_cursor base;
    sqlite3_value *arguments[ARGUMENTS];
    query asked;
    listing listed;
    size_t at;
    /* The path to the part, and its levels from the message itself on. */
    char *path;
    size_t capacity;
    level *levels;
} parts_cursor;

static const char *kind_text(uint32_t kind) {
    switch (kind) {
    case SOQ_PART_BOOLEAN: return "BOOLEAN";
    case SOQ_PART_INTEGER: return "INTEGER";
    case SOQ_PART_BIT_STRING: return "BIT STRING";
    case SOQ_PART_OCTET_STRING: return "OCTET STRING";
    case SOQ_PART_NULL: return "NULL";
    case SOQ_PART_OBJECT_IDENTIFIER: return "OBJECT IDENTIFIER";
    case SOQ_PART_REAL: return "REAL";
    case SOQ_PART_ENUMERATED: return "ENUMERATED";
    case SOQ_PART_UTF8: return "UTF8String";
    case SOQ_PART_RELATIVE_OID: return "RELATIVE-OID";
    case SOQ_PART_TIME: return "TIME";
    case SOQ_PART_SEQUENCE: return "SEQUENCE";
    case SOQ_PART_SET: return "SET";
    case SOQ_PART_NUMERIC: return "NumericString";
    case SOQ_PART_PRINTABLE: return "PrintableString";
    case SOQ_PART_IA5: return "IA5String";
    case SOQ_PART_UTC_TIME: return "UTCTime";
    case SOQ_PART_GENERALIZED_TIME: return "GeneralizedTime";
    case SOQ_PART_VISIBLE: return "VisibleString";
    case SOQ_PART_ANY_OCTETS: return "other string";
    case SOQ_PART_UNIVERSAL: return "UniversalString";
    case SOQ_PART_BMP: return "BMPString";
    case SOQ_PART_DATE: return "DATE";
    case SOQ_PART_TIME_OF_DAY: return "TIME-OF-DAY";
    case SOQ_PART_DATE_TIME: return "DATE-TIME";
    case SOQ_PART_DURATION: return "DURATION";
    case SOQ_PART_SEQUENCE_OF: return "SEQUENCE OF";
    case SOQ_PART_SET_OF: return "SET OF";
    case SOQ_PART_CHOICE: return "CHOICE";
    case SOQ_PART_TAGGED: return "explicit tag";
    case SOQ_PART_ANY: return "open type";
    case SOQ_PART_UNKNOWN: return "unknown";
    default: return NULL;
    }
}

static int parts_connect(sqlite3 *database, void *data, int count, const char *const *words, sqlite3_vtab **made, char **error) {
    parts_table *table = sqlite3_malloc64(sizeof *table);
    int code = table == NULL ? SQLITE_NOMEM : sqlite3_declare_vtab(database, columns);
    (void)count, (void)words, (void)error;
    if (code != SQLITE_OK) {
        sqlite3_free(table);
        return code;
    }
    memset(table, 0, sizeof *table);
    table->shared = data;
    *made = &table->base;
    return sqlite3_vtab_config(database, SQLITE_VTAB_INNOCUOUS);
}

static int parts_disconnect(sqlite3_vtab *table) {
    sqlite3_free(table);
    return SQLITE_OK;
}

/* Asks for the arguments in their order. A plan in which one isn't known yet isn't used. */
static int parts_best_index(sqlite3_vtab *table, sqlite3_index_info *plan) {
    int given = 0, unusable = 0;
    for (int index = 0; index < plan->nConstraint; index++) {
        int argument = plan->aConstraint[index].iColumn - COLUMN_TYPE;
        if (argument < 0 || plan->aConstraint[index].op != SQLITE_INDEX_CONSTRAINT_EQ) {
            continue;
        }
        if (!plan->aConstraint[index].usable) {
            unusable = 1;
        } else if ((given & 1 << argument) == 0) {
            given |= 1 << argument;
            plan->aConstraintUsage[index].argvIndex = argument + 1;
            plan->aConstraintUsage[index].omit = 1;
        }
    }
    if (unusable) {
        return SQLITE_CONSTRAINT;
    }
    if ((given & 3) != 3) {
        table->zErrMsg = sqlite3_mprintf("asn1_parts has two arguments, a type's name and octets, and may have a third one, rules");
        return table->zErrMsg == NULL ? SQLITE_NOMEM : SQLITE_ERROR;
    }
    plan->estimatedCost = 1000;
    plan->estimatedRows = 100;
    return SQLITE_OK;
}

static int parts_open(sqlite3_vtab *table, sqlite3_vtab_cursor **made) {
    parts_cursor *cursor = sqlite3_malloc64(sizeof *cursor);
    (void)table;
    if (cursor == NULL) {
        return SQLITE_NOMEM;
    }
    memset(cursor, 0, sizeof *cursor);
    *made = &cursor->base;
    return SQLITE_OK;
}

/* Frees what a cursor holds of a message. */
static void forget(parts_cursor *cursor) {
    for (int index = 0; index < ARGUMENTS; index++) {
        sqlite3_value_free(cursor->arguments[index]);
        cursor->arguments[index] = NULL;
    }
    free_listing(&cursor->listed);
    sqlite3_free(cursor->path);
    sqlite3_free(cursor->levels);
    cursor->path = NULL;
    cursor->levels = NULL;
    cursor->capacity = cursor->at = 0;
}

static int parts_close(sqlite3_vtab_cursor *base) {
    forget((parts_cursor *)base);
    sqlite3_free(base);
    return SQLITE_OK;
}

/* Ensures that a path of so many octets fits, with a zero at its end. */
static int reserve(parts_cursor *cursor, size_t length) {
    if (length < cursor->capacity) {
        return SQLITE_OK;
    }
    char *larger = sqlite3_realloc64(cursor->path, 2 * length + SMALL);
    if (larger == NULL) {
        return SQLITE_NOMEM;
    }
    cursor->path = larger;
    cursor->capacity = 2 * length + SMALL;
    return SQLITE_OK;
}

/* Makes the path to the part that the cursor is at of that to the one which it is in, where there is one. */
static int write_path(parts_cursor *cursor) {
    if (cursor->at >= cursor->listed.count) {
        return SQLITE_OK;
    }
    const soq_listed_part *row = &cursor->listed.parts[cursor->at];
    level *here = &cursor->levels[row->depth];
    size_t end = row->depth == 0 ? 0 : here[-1].end;
    if (reserve(cursor, end + row->name_length + sizeof ".[18446744073709551615]") != SQLITE_OK) {
        return SQLITE_NOMEM;
    }
    if (row->name_length != 0) {
        sqlite3_snprintf((int)(row->name_length + 2), cursor->path + end, "%s%s", end == 0 ? "" : ".", cursor->listed.names + row->name);
    } else if (row->depth != 0 && here[-1].kind != SOQ_PART_TAGGED) {
        sqlite3_snprintf(sizeof "[18446744073709551615]", cursor->path + end, "[%llu]", (unsigned long long)row->index);
    } else {
        cursor->path[end] = 0;
    }
    here->end = end + strlen(cursor->path + end);
    here->kind = row->part.kind;
    return SQLITE_OK;
}

/* Lists the parts of the message of a cursor, and begins with the first. */
static int begin(parts_cursor *cursor, char **error) {
    char text[MESSAGE] = "";
    size_t deepest = 0;
    int code = code_of(list_parts(&cursor->asked, &cursor->listed, text), "", text, error);
    if (code != SQLITE_OK) {
        return code;
    }
    for (size_t index = 0; index < cursor->listed.count; index++) {
        deepest = cursor->listed.parts[index].depth > deepest ? cursor->listed.parts[index].depth : deepest;
    }
    cursor->levels = sqlite3_malloc64((deepest + 1) * sizeof *cursor->levels);
    return cursor->levels == NULL ? SQLITE_NOMEM : write_path(cursor);
}

static int parts_filter(sqlite3_vtab_cursor *base, int number, const char *text, int count, sqlite3_value **values) {
    parts_cursor *cursor = (parts_cursor *)base;
    char *error = NULL;
    (void)number, (void)text;
    forget(cursor);
    if (has_null(count, values)) {
        return SQLITE_OK;
    }
    for (int index = 0; index < count; index++) {
        cursor->arguments[index] = sqlite3_value_dup(values[index]);
        if (cursor->arguments[index] == NULL) {
            return SQLITE_NOMEM;
        }
    }
    connection *shared = ((parts_table *)base->pVtab)->shared;
    int code = read_query(shared, cursor->arguments, cursor->arguments[2], &cursor->asked, &error);
    if (code == SQLITE_OK) {
        code = begin(cursor, &error);
    }
    if (error != NULL) {
        sqlite3_free(base->pVtab->zErrMsg);
        base->pVtab->zErrMsg = error;
    }
    return code;
}

static int parts_next(sqlite3_vtab_cursor *base) {
    parts_cursor *cursor = (parts_cursor *)base;
    cursor->at++;
    return write_path(cursor);
}

static int parts_eof(sqlite3_vtab_cursor *base) {
    const parts_cursor *cursor = (const parts_cursor *)base;
    return cursor->at >= cursor->listed.count;
}

static int parts_rowid(sqlite3_vtab_cursor *base, sqlite3_int64 *number) {
    *number = (sqlite3_int64)((const parts_cursor *)base)->at;
    return SQLITE_OK;
}

static void put_name(sqlite3_context *context, const parts_cursor *cursor) {
    const soq_listed_part *row = &cursor->listed.parts[cursor->at];
    if (row->name_length != 0) {
        sqlite3_result_text64(context, cursor->listed.names + row->name, row->name_length, SQLITE_TRANSIENT, SQLITE_UTF8);
    }
}

static void put_size(sqlite3_context *context, size_t size) {
    sqlite3_result_int64(context, (sqlite3_int64)size);
}

static int put_row_value(sqlite3_context *context, const parts_cursor *cursor) {
    query inner = within(&cursor->asked, innermost(&cursor->listed, cursor->at));
    char text[] = "", *error = NULL;
    int code = code_of(put_value(context, &inner), "", text, &error);
    finish(context, code, error);
    return SQLITE_OK;
}

static int parts_column(sqlite3_vtab_cursor *base, sqlite3_context *context, int column) {
    const parts_cursor *cursor = (const parts_cursor *)base;
    const soq_listed_part *row = &cursor->listed.parts[cursor->at];
    const soq_part *part = &row->part;
    query inner = within(&cursor->asked, part);
    switch (column) {
    case COLUMN_PATH: sqlite3_result_text64(context, cursor->path, cursor->levels[row->depth].end, SQLITE_TRANSIENT, SQLITE_UTF8); break;
    case COLUMN_NAME: put_name(context, cursor); break;
    case COLUMN_KIND: sqlite3_result_text(context, kind_text(part->kind), -1, SQLITE_STATIC); break;
    case COLUMN_DEPTH: put_size(context, row->depth); break;
    case COLUMN_TAG_CLASS: put_size(context, part->tag_class); break;
    case COLUMN_TAG_NUMBER: put_size(context, part->tag_number); break;
    case COLUMN_CONSTRUCTED: put_size(context, part->constructed); break;
    case COLUMN_OFFSET: put_size(context, part->offset); break;
    case COLUMN_HEADER: put_size(context, part->header); break;
    case COLUMN_CONTENTS: put_size(context, part->contents); break;
    case COLUMN_LENGTH: put_size(context, part->length); break;
    case COLUMN_VALUE: return put_row_value(context, cursor);
    case COLUMN_OCTETS: put_octets(context, &inner); break;
    default:
        if (cursor->arguments[column - COLUMN_TYPE] != NULL) {
            sqlite3_result_value(context, cursor->arguments[column - COLUMN_TYPE]);
        }
    }
    return SQLITE_OK;
}

/* A table that is there without CREATE VIRTUAL TABLE, and can't be made by it. */
static const sqlite3_module parts_module = {
    .xConnect = parts_connect,
    .xBestIndex = parts_best_index,
    .xDisconnect = parts_disconnect,
    .xOpen = parts_open,
    .xClose = parts_close,
    .xFilter = parts_filter,
    .xNext = parts_next,
    .xEof = parts_eof,
    .xColumn = parts_column,
    .xRowid = parts_rowid,
};

/* Registration. */

typedef struct function {
    const char *name;
    /* How many arguments it has at least and at most. */
    int least, most;
    int flags;
    void (*call)(sqlite3_context *context, int count, sqlite3_value **values);
} function;

enum { PURE = SQLITE_UTF8 | SQLITE_DETERMINISTIC | SQLITE_INNOCUOUS };

static const function functions[] = {
    {"asn1_json", 2, 3, PURE, asn1_json},
    {"asn1_get", 3, 4, PURE, asn1_get},
    {"asn1_check", 2, 3, PURE, asn1_check},
    {"asn1_name", 1, 2, PURE, asn1_name},
    {"asn1_extension", 2, 3, PURE, asn1_extension},
    {"asn1_pem", 1, 1, PURE, asn1_pem},
    {"asn1_module", 2, 2, SQLITE_UTF8 | SQLITE_DIRECTONLY, asn1_module},
};

static int create_function(sqlite3 *database, const function *made, connection *shared) {
    int code = SQLITE_OK;
    for (int count = made->least; count <= made->most && code == SQLITE_OK; count++) {
        shared->users++;
        code = sqlite3_create_function_v2(database, made->name, count, made->flags, shared, made->call, NULL, NULL, free_connection);
    }
    return code;
}

int sqlite3_soqavisesqlite_init(sqlite3 *database, char **error, const sqlite3_api_routines *routines);

int sqlite3_soqavisesqlite_init(sqlite3 *database, char **error, const sqlite3_api_routines *routines) {
    SQLITE_EXTENSION_INIT2(routines);
    if (sqlite3_libversion_number() < 3031000) {
        *error = sqlite3_mprintf("SQLite 3.31 or later is needed");
        return SQLITE_ERROR;
    }
    connection *shared = sqlite3_malloc64(sizeof *shared);
    if (shared == NULL) {
        return SQLITE_NOMEM;
    }
    *shared = (connection){1, NULL, 0, NULL};
    int code = SQLITE_OK;
    for (size_t index = 0; index < sizeof functions / sizeof *functions && code == SQLITE_OK; index++) {
        code = create_function(database, &functions[index], shared);
    }
    if (code == SQLITE_OK) {
        shared->users++;
        code = sqlite3_create_module_v2(database, "asn1_parts", &parts_module, shared, free_connection);
    }
    free_connection(shared);
    return code;
}
