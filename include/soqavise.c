/*
 * The functions of soqavise.h. They test pointers and lengths, and pass them to the functions of the
 * crate rasn_c, `soq_proved_..`, which are proved. No proof covers what is in this file. None of
 * these functions has a state, or calls anything else than `strlen`. The loops go over the pieces of
 * memory of a call.
 */
#include "soqavise.h"

#include <string.h>

/* The functions of rasn_c. A pointer must not be null, even if its length is 0, a length must be
 * below 2^63, and memory that is written must not overlap other memory of the call. */
uint32_t soq_proved_skip(uint32_t rule, const uint8_t *octets, size_t length, soq_passed *passed);
uint32_t soq_proved_check(uint32_t type, const uint8_t *octets, size_t length);
uint32_t soq_proved_normalise(uint32_t type, uint32_t rule, const uint8_t *octets, size_t length,
                              uint8_t *buffer, size_t capacity, size_t *needed);
uint32_t soq_proved_decode_error(uint32_t type, uint32_t rule, const uint8_t *octets, size_t length,
                                 soq_fault *fault, uint8_t *text, size_t capacity);
uint32_t soq_proved_next(uint32_t rule, const uint8_t *octets, size_t length, soq_encoding *encoding);
uint32_t soq_proved_integer_i64(uint32_t rule, const uint8_t *octets, size_t length, int64_t *number);
uint32_t soq_proved_integer_octets(uint32_t rule, const uint8_t *octets, size_t length, uint8_t *buffer,
                                   size_t capacity, size_t *needed);
uint32_t soq_proved_oid_text(uint32_t rule, const uint8_t *octets, size_t length, uint8_t *buffer,
                             size_t capacity, size_t *needed);
uint32_t soq_proved_time(uint32_t type, uint32_t rule, const uint8_t *octets, size_t length,
                         soq_time_fields *time);

uint32_t soq_proved_seconds(uint32_t type, uint32_t rule, const uint8_t *octets, size_t length,
                            soq_instant *instant);
uint32_t soq_proved_utf8(uint32_t kind, uint32_t rule, const uint8_t *octets, size_t length,
                         uint8_t *buffer, size_t capacity, size_t *needed);
uint32_t soq_proved_bits(uint32_t rule, const uint8_t *octets, size_t length, uint8_t *buffer,
                         size_t capacity, size_t *needed, size_t *bits);
uint32_t soq_proved_compile(const soq_texts *texts, size_t count, const uint8_t *type, size_t type_length,
                            uint8_t *buffer, size_t capacity, size_t *needed, soq_reason *reason,
                            uint8_t *text, size_t text_capacity);
uint32_t soq_proved_check_by(const uint8_t *schema, size_t schema_length, uint32_t rule,
                             uint32_t open_types, const uint8_t *octets, size_t length,
                             soq_reason *reason, uint8_t *text, size_t text_capacity);
uint32_t soq_proved_find(const uint8_t *schema, size_t schema_length, uint32_t rule,
                         const uint8_t *octets, size_t length, const uint8_t *path, size_t path_length,
                         soq_part *part, soq_reason *reason, uint8_t *text, size_t text_capacity);
uint32_t soq_proved_parts(const uint8_t *schema, size_t schema_length, uint32_t rule,
                          const uint8_t *octets, size_t length, soq_listed_part *parts, size_t count,
                          uint8_t *names, size_t names_capacity, soq_counts *counts,
                          soq_reason *reason, uint8_t *text, size_t text_capacity);
uint32_t soq_proved_json(const uint8_t *schema, size_t schema_length, uint32_t rule, uint32_t lines,
                         const uint8_t *octets, size_t length, uint8_t *buffer, size_t capacity,
                         size_t *needed, soq_reason *reason, uint8_t *text, size_t text_capacity);
uint32_t soq_proved_encode(const uint8_t *schema, size_t schema_length, uint32_t rule,
                           const uint8_t *json, size_t length, uint8_t *buffer, size_t capacity,
                           size_t *needed, soq_reason *reason, uint8_t *text, size_t text_capacity);
uint32_t soq_proved_normalise_by(const uint8_t *schema, size_t schema_length, uint32_t rule,
                                 const uint8_t *octets, size_t length, uint8_t *buffer,
                                 size_t capacity, size_t *needed, soq_reason *reason, uint8_t *text,
                                 size_t text_capacity);

const char *soq_version(void) { return SOQ_VERSION; }

/* Returns whether an object of this length can be at this address: SOQ_OK, SOQ_NULL_POINTER or
 * SOQ_TOO_LONG. */
static soq_status soq_tested(const void *at, size_t length) {
    if (length == 0) {
        return SOQ_OK;
    }
    if (at == NULL) {
        return SOQ_NULL_POINTER;
    }
    return length > (size_t)PTRDIFF_MAX || length - 1 > UINTPTR_MAX - (uintptr_t)at ? SOQ_TOO_LONG : SOQ_OK;
}

/* Returns whether two pieces of memory, which `soq_tested` accepts, have an octet in common. */
static int soq_overlap(const void *one, size_t length, const void *other, size_t other_length) {
    uintptr_t a = (uintptr_t)one, b = (uintptr_t)other;
    return length != 0 && other_length != 0 && (a <= b ? b - a < length : a - b < other_length);
}

/* Returns the pointer, or one that isn't null in place of a null pointer to no octets. */
static const uint8_t *soq_octets(const uint8_t *at) {
    static const uint8_t none = 0;
    return at == NULL ? &none : at;
}

/* Returns a buffer, or one of no octets in place of a null pointer. */
static uint8_t *soq_buffer(void *at) {
    static uint8_t none;
    return at == NULL ? &none : (uint8_t *)at;
}

/* Returns whether the octets can be read, and the result and the buffer be written: SOQ_OK, or why
 * not. A call without a buffer has a null pointer to no octets. */
static soq_status soq_ready(const uint8_t *octets, size_t length, const void *result, size_t size,
                            const void *buffer, size_t capacity) {
    soq_status status = result == NULL ? SOQ_NULL_POINTER : soq_tested(octets, length);
    if (status == SOQ_OK) {
        status = soq_tested(buffer, capacity);
    }
    if (status == SOQ_OK && (soq_overlap(buffer, capacity, octets, length)
                             || soq_overlap(buffer, capacity, result, size)
                             || soq_overlap(result, size, octets, length))) {
        return SOQ_OVERLAP;
    }
    return status;
}

soq_status soq_skip(soq_rule rule, const uint8_t *octets, size_t length, soq_passed *passed) {
    soq_status status = soq_ready(octets, length, passed, sizeof *passed, NULL, 0);
    if (status != SOQ_OK) {
        return status;
    }
    return (soq_status)soq_proved_skip((uint32_t)rule, soq_octets(octets), length, passed);
}

soq_status soq_check(soq_type type, const uint8_t *octets, size_t length) {
    soq_status status = soq_tested(octets, length);
    if (status != SOQ_OK) {
        return status;
    }
    return (soq_status)soq_proved_check((uint32_t)type, soq_octets(octets), length);
}

soq_status soq_normalise(soq_type type, soq_rule rule, const uint8_t *octets, size_t length,
                         uint8_t *buffer, size_t capacity, size_t *needed) {
    soq_status status = soq_ready(octets, length, needed, sizeof *needed, buffer, capacity);
    if (status != SOQ_OK) {
        return status;
    }
    return (soq_status)soq_proved_normalise((uint32_t)type, (uint32_t)rule, soq_octets(octets),
                                            length, soq_buffer(buffer), capacity, needed);
}

soq_status soq_decode_error(soq_type type, soq_rule rule, const uint8_t *octets, size_t length,
                            soq_fault *fault, char *text, size_t capacity) {
    soq_status status = soq_ready(octets, length, fault, sizeof *fault, text, capacity);
    if (status != SOQ_OK) {
        return status;
    }
    return (soq_status)soq_proved_decode_error((uint32_t)type, (uint32_t)rule, soq_octets(octets),
                                               length, fault, soq_buffer(text), capacity);
}

soq_status soq_next(soq_rule rule, const uint8_t *octets, size_t length, soq_encoding *encoding) {
    soq_status status = soq_ready(octets, length, encoding, sizeof *encoding, NULL, 0);
    if (status != SOQ_OK) {
        return status;
    }
    return (soq_status)soq_proved_next((uint32_t)rule, soq_octets(octets), length, encoding);
}

soq_status soq_integer_i64(soq_rule rule, const uint8_t *octets, size_t length, int64_t *number) {
    soq_status status = soq_ready(octets, length, number, sizeof *number, NULL, 0);
    if (status != SOQ_OK) {
        return status;
    }
    return (soq_status)soq_proved_integer_i64((uint32_t)rule, soq_octets(octets), length, number);
}

soq_status soq_integer_octets(soq_rule rule, const uint8_t *octets, size_t length, uint8_t *buffer,
                              size_t capacity, size_t *needed) {
    soq_status status = soq_ready(octets, length, needed, sizeof *needed, buffer, capacity);
    if (status != SOQ_OK) {
        return status;
    }
    return (soq_status)soq_proved_integer_octets((uint32_t)rule, soq_octets(octets), length,
                                                 soq_buffer(buffer), capacity, needed);
}

soq_status soq_oid_text(soq_rule rule, const uint8_t *octets, size_t length, char *text,
                        size_t capacity, size_t *needed) {
    soq_status status = soq_ready(octets, length, needed, sizeof *needed, text, capacity);
    if (status != SOQ_OK) {
        return status;
    }
    return (soq_status)soq_proved_oid_text((uint32_t)rule, soq_octets(octets), length,
                                           soq_buffer(text), capacity, needed);
}

soq_status soq_time(soq_type type, soq_rule rule, const uint8_t *octets, size_t length,
                    soq_time_fields *time) {
    soq_status status = soq_ready(octets, length, time, sizeof *time, NULL, 0);
    if (status != SOQ_OK) {
        return status;
    }
    return (soq_status)soq_proved_time((uint32_t)type, (uint32_t)rule, soq_octets(octets), length, time);
}

soq_status soq_seconds(soq_type type, soq_rule rule, const uint8_t *octets, size_t length,
                       soq_instant *instant) {
    soq_status status = soq_ready(octets, length, instant, sizeof *instant, NULL, 0);
    if (status != SOQ_OK) {
        return status;
    }
    return (soq_status)soq_proved_seconds((uint32_t)type, (uint32_t)rule, soq_octets(octets), length, instant);
}

soq_status soq_utf8(soq_part_kind kind, soq_rule rule, const uint8_t *octets, size_t length, char *text,
                    size_t capacity, size_t *needed) {
    soq_status status = soq_ready(octets, length, needed, sizeof *needed, text, capacity);
    if (status != SOQ_OK) {
        return status;
    }
    return (soq_status)soq_proved_utf8((uint32_t)kind, (uint32_t)rule, soq_octets(octets), length,
                                       soq_buffer(text), capacity, needed);
}

/* A piece of memory of a call. */
typedef struct soq_piece {
    const void *at;
    size_t length;
} soq_piece;

/* Returns whether all pieces can be there, and the first `written` of them overlap no other: SOQ_OK,
 * or why not. */
static soq_status soq_separate(const soq_piece *pieces, size_t written, size_t count) {
    size_t i, j;
    for (i = 0; i < count; i++) {
        soq_status status = soq_tested(pieces[i].at, pieces[i].length);
        if (status != SOQ_OK) {
            return status;
        }
    }
    for (i = 0; i < written; i++) {
        for (j = i + 1; j < count; j++) {
            if (soq_overlap(pieces[i].at, pieces[i].length, pieces[j].at, pieces[j].length)) {
                return SOQ_OVERLAP;
            }
        }
    }
    return SOQ_OK;
}

soq_status soq_bits(soq_rule rule, const uint8_t *octets, size_t length, uint8_t *buffer,
                    size_t capacity, size_t *needed, size_t *bits) {
    soq_piece pieces[] = {{buffer, capacity}, {needed, sizeof *needed}, {bits, sizeof *bits}, {octets, length}};
    soq_status status = soq_separate(pieces, 3, 4);
    if (status != SOQ_OK) {
        return status;
    }
    return (soq_status)soq_proved_bits((uint32_t)rule, soq_octets(octets), length, soq_buffer(buffer),
                                       capacity, needed, bits);
}

/* Returns whether no text of modules overlaps what is written. */
static soq_status soq_texts_apart(const soq_texts *texts, size_t count, const soq_piece *pieces,
                                  size_t written) {
    size_t i, j;
    for (i = 0; i < count; i++) {
        soq_piece both[] = {{texts[i].name, texts[i].name_length}, {texts[i].text, texts[i].text_length}};
        soq_status status = soq_separate(both, 0, 2);
        if (status != SOQ_OK) {
            return status;
        }
        if (texts[i].name == NULL || texts[i].text == NULL) {
            return SOQ_NULL_POINTER;
        }
        for (j = 0; j < 2 * written; j++) {
            if (soq_overlap(pieces[j / 2].at, pieces[j / 2].length, both[j % 2].at, both[j % 2].length)) {
                return SOQ_OVERLAP;
            }
        }
    }
    return SOQ_OK;
}

soq_status soq_compile(const soq_texts *texts, size_t count, const char *type, uint8_t *buffer,
                       size_t capacity, size_t *needed, soq_reason *reason, char *text,
                       size_t text_capacity) {
    static const soq_texts none = {"", 0, "", 0};
    soq_reason unread;
    size_t type_length = type == NULL ? 1 : strlen(type);
    soq_piece pieces[] = {
        {buffer, capacity}, {needed, sizeof *needed}, {reason == NULL ? &unread : reason, sizeof unread},
        {text, text_capacity}, {texts, count > SIZE_MAX / sizeof *texts ? SIZE_MAX : count * sizeof *texts},
        {type, type_length}};
    soq_status status = soq_separate(pieces, 4, 6);
    if (status == SOQ_OK) {
        status = soq_texts_apart(texts, count, pieces, 4);
    }
    if (status != SOQ_OK) {
        return status;
    }
    return (soq_status)soq_proved_compile(count == 0 ? &none : texts, count, (const uint8_t *)type,
                                          type_length, soq_buffer(buffer), capacity, needed,
                                          reason == NULL ? &unread : reason, soq_buffer(text),
                                          text_capacity);
}

soq_status soq_check_by(const uint8_t *schema, size_t schema_length, soq_rule rule, int open_types,
                        const uint8_t *octets, size_t length, soq_reason *reason, char *text,
                        size_t capacity) {
    soq_reason unread;
    soq_piece pieces[] = {{reason == NULL ? &unread : reason, sizeof unread}, {text, capacity},
                          {schema, schema_length}, {octets, length}};
    soq_status status = soq_separate(pieces, 2, 4);
    if (status != SOQ_OK) {
        return status;
    }
    return (soq_status)soq_proved_check_by(soq_octets(schema), schema_length, (uint32_t)rule,
                                           open_types != 0, soq_octets(octets), length,
                                           reason == NULL ? &unread : reason, soq_buffer(text), capacity);
}

soq_status soq_find(const uint8_t *schema, size_t schema_length, soq_rule rule, const uint8_t *octets,
                    size_t length, const char *path, soq_part *part, soq_reason *reason, char *text,
                    size_t capacity) {
    soq_reason unread;
    size_t path_length = path == NULL ? 1 : strlen(path);
    soq_piece pieces[] = {{part, sizeof *part}, {reason == NULL ? &unread : reason, sizeof unread},
                          {text, capacity}, {schema, schema_length}, {octets, length}, {path, path_length}};
    soq_status status = soq_separate(pieces, 3, 6);
    if (status != SOQ_OK) {
        return status;
    }
    return (soq_status)soq_proved_find(soq_octets(schema), schema_length, (uint32_t)rule,
                                       soq_octets(octets), length, (const uint8_t *)path, path_length,
                                       part, reason == NULL ? &unread : reason, soq_buffer(text), capacity);
}

soq_status soq_parts(const uint8_t *schema, size_t schema_length, soq_rule rule, const uint8_t *octets,
                     size_t length, soq_listed_part *parts, size_t count, char *names,
                     size_t names_capacity, soq_counts *counts, soq_reason *reason, char *text,
                     size_t capacity) {
    static soq_listed_part none;
    soq_reason unread;
    soq_piece pieces[] = {
        {parts, count > SIZE_MAX / sizeof *parts ? SIZE_MAX : count * sizeof *parts},
        {names, names_capacity}, {counts, sizeof *counts}, {reason == NULL ? &unread : reason, sizeof unread},
        {text, capacity}, {schema, schema_length}, {octets, length}};
    soq_status status = soq_separate(pieces, 5, 7);
    if (status != SOQ_OK) {
        return status;
    }
    return (soq_status)soq_proved_parts(soq_octets(schema), schema_length, (uint32_t)rule,
                                        soq_octets(octets), length, count == 0 ? &none : parts, count,
                                        soq_buffer(names), names_capacity, counts,
                                        reason == NULL ? &unread : reason, soq_buffer(text), capacity);
}

soq_status soq_json(const uint8_t *schema, size_t schema_length, soq_rule rule, int lines,
                    const uint8_t *octets, size_t length, char *json, size_t capacity, size_t *needed,
                    soq_reason *reason, char *text, size_t text_capacity) {
    soq_reason unread;
    soq_piece pieces[] = {{json, capacity}, {needed, sizeof *needed},
                          {reason == NULL ? &unread : reason, sizeof unread}, {text, text_capacity},
                          {schema, schema_length}, {octets, length}};
    soq_status status = soq_separate(pieces, 4, 6);
    if (status != SOQ_OK) {
        return status;
    }
    return (soq_status)soq_proved_json(soq_octets(schema), schema_length, (uint32_t)rule, lines != 0,
                                       soq_octets(octets), length, soq_buffer(json), capacity, needed,
                                       reason == NULL ? &unread : reason, soq_buffer(text), text_capacity);
}

soq_status soq_encode(const uint8_t *schema, size_t schema_length, soq_rule rule, const char *json,
                      size_t length, uint8_t *buffer, size_t capacity, size_t *needed,
                      soq_reason *reason, char *text, size_t text_capacity) {
    soq_reason unread;
    soq_piece pieces[] = {{buffer, capacity}, {needed, sizeof *needed},
                          {reason == NULL ? &unread : reason, sizeof unread}, {text, text_capacity},
                          {schema, schema_length}, {json, length}};
    soq_status status = soq_separate(pieces, 4, 6);
    if (status != SOQ_OK) {
        return status;
    }
    return (soq_status)soq_proved_encode(soq_octets(schema), schema_length, (uint32_t)rule,
                                         soq_octets((const uint8_t *)json), length, soq_buffer(buffer),
                                         capacity, needed, reason == NULL ? &unread : reason,
                                         soq_buffer(text), text_capacity);
}

soq_status soq_normalise_by(const uint8_t *schema, size_t schema_length, soq_rule rule,
                            const uint8_t *octets, size_t length, uint8_t *buffer, size_t capacity,
                            size_t *needed, soq_reason *reason, char *text, size_t text_capacity) {
    soq_reason unread;
    soq_piece pieces[] = {{buffer, capacity}, {needed, sizeof *needed},
                          {reason == NULL ? &unread : reason, sizeof unread}, {text, text_capacity},
                          {schema, schema_length}, {octets, length}};
    soq_status status = soq_separate(pieces, 4, 6);
    if (status != SOQ_OK) {
        return status;
    }
    return (soq_status)soq_proved_normalise_by(soq_octets(schema), schema_length, (uint32_t)rule,
                                               soq_octets(octets), length, soq_buffer(buffer), capacity,
                                               needed, reason == NULL ? &unread : reason,
                                               soq_buffer(text), text_capacity);
}

uint32_t soq_proved_name_text(uint32_t rule, const uint8_t *octets, size_t length, uint8_t *buffer,
                              size_t capacity, size_t *needed);
uint32_t soq_proved_pem(const uint8_t *text, size_t length, size_t index, soq_block *block,
                        uint8_t *buffer, size_t capacity, size_t *needed);
uint32_t soq_proved_extension(uint32_t rule, const uint8_t *octets, size_t length, const uint8_t *identifier,
                              size_t identifier_length, uint8_t *buffer, size_t capacity, size_t *needed);

soq_status soq_name_text(soq_rule rule, const uint8_t *octets, size_t length, char *text,
                         size_t capacity, size_t *needed) {
    soq_status status = soq_ready(octets, length, needed, sizeof *needed, text, capacity);
    if (status != SOQ_OK) {
        return status;
    }
    return (soq_status)soq_proved_name_text((uint32_t)rule, soq_octets(octets), length,
                                            soq_buffer(text), capacity, needed);
}

soq_status soq_pem(const char *text, size_t length, size_t index, soq_block *block, uint8_t *buffer,
                   size_t capacity, size_t *needed) {
    soq_piece pieces[] = {{block, sizeof *block}, {buffer, capacity}, {needed, sizeof *needed}, {text, length}};
    soq_status status = soq_separate(pieces, 3, 4);
    if (status != SOQ_OK) {
        return status;
    }
    return (soq_status)soq_proved_pem(soq_octets((const uint8_t *)text), length, index, block,
                                      soq_buffer(buffer), capacity, needed);
}

soq_status soq_extension(soq_rule rule, const uint8_t *octets, size_t length, const char *identifier,
                         uint8_t *buffer, size_t capacity, size_t *needed) {
    size_t identifier_length = identifier == NULL ? 1 : strlen(identifier);
    soq_piece pieces[] = {{buffer, capacity}, {needed, sizeof *needed}, {octets, length}, {identifier, identifier_length}};
    soq_status status = soq_separate(pieces, 2, 4);
    if (status != SOQ_OK) {
        return status;
    }
    return (soq_status)soq_proved_extension((uint32_t)rule, soq_octets(octets), length,
                                            (const uint8_t *)identifier, identifier_length,
                                            soq_buffer(buffer), capacity, needed);
}
