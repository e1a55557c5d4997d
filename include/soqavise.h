/*
 * Soqavise for C11: BER, CER and DER (ITU-T X.690), read and written by a library whose functions are proved to meet their contracts.
 *
 * Each function checks pointers and lengths, and passes them to a function of the crate rasn_c, which is proved. The comment before it says
 * what it guarantees, and names the contract that the guarantee rests on. The contracts assume that no pointer is null and that no memory
 * overlaps. No proof covers that; the checks, which are in soqavise.c, ensure it. The functions at the end, which are `static inline`, are
 * compiled with the program and call the others; no proof covers them.
 *
 * Every function:
 * - has no state and keeps nothing, so any number of threads may call it at the same time. A signal handler must not call it.
 * - returns for every input and doesn't abort. It uses the memory that the caller passes, its stack, and `malloc`, `realloc` and `free`;
 *   it frees all that it allocates. It returns SOQ_OUT_OF_MEMORY if an allocation fails.
 * - accepts a null pointer if its length is 0. Otherwise it returns SOQ_NULL_POINTER for a null pointer, SOQ_TOO_LONG for a length that
 *   no object can have, and SOQ_OVERLAP if memory that it would write overlaps other memory of the call. It then writes nothing.
 *   A `reason` may be null: then it isn't reported.
 *
 * Link libsoqavise.a, which needs only the C library: cc -std=c11 program.c libsoqavise.a. Or link libsoqavise.so: cc program.c -lsoqavise.
 */
#ifndef SOQAVISE_H
#define SOQAVISE_H

#include <stddef.h>
#include <stdint.h>
#include <string.h>

#define SOQ_VERSION "0.33.0"

#ifdef __cplusplus
extern "C" {
#endif

/* Returns SOQ_VERSION of the library that is linked, which a program compares with that of the header. */
const char *soq_version(void);

/* The status that a function returns. */
typedef enum soq_status {
    SOQ_OK = 0,
    /* The octets aren't what the call asks for. */
    SOQ_REFUSED = 1,
    SOQ_OUT_OF_MEMORY = 2,
    SOQ_BUFFER_TOO_SMALL = 3,
    SOQ_UNKNOWN_TYPE = 4,
    SOQ_UNKNOWN_RULE = 5,
    /* The octets of a schema aren't those of one. */
    SOQ_BAD_SCHEMA = 6,
    /* No value of the type has a part with this path, or the text isn't a path. */
    SOQ_UNKNOWN_PATH = 7,
    /* The value doesn't have the part, which others of its type have. */
    SOQ_ABSENT = 8,
    /* What is wrong with the arguments of a call. */
    SOQ_NULL_POINTER = 16,
    SOQ_OVERLAP = 17,
    SOQ_TOO_LONG = 18
} soq_status;

/* The encoding rules. */
typedef enum soq_rule {
    SOQ_BER = 0,
    SOQ_CER = 1,
    SOQ_DER = 2
} soq_rule;

/* The kinds of errors: those of `DecodeErrorKind` of the crate `rasn`. A later version may have more. */
typedef enum soq_kind {
    SOQ_KIND_NONE = 0,
    SOQ_KIND_INCOMPLETE = 1,
    SOQ_KIND_UNEXPECTED_EXTRA_DATA = 2,
    SOQ_KIND_UNEXPECTED_EMPTY_INPUT = 3,
    SOQ_KIND_EXCEEDS_MAX_PARSE_DEPTH = 4,
    SOQ_KIND_REAL_NOT_SUPPORTED = 5,
    SOQ_KIND_OUT_OF_MEMORY = 6,
    SOQ_KIND_LENGTH_EXCEEDS_PLATFORM_WIDTH = 7,
    SOQ_KIND_INVALID_BOOL = 8,
    SOQ_KIND_MISMATCHED_LENGTH = 9,
    SOQ_KIND_INTEGER_OVERFLOW = 10,
    SOQ_KIND_DISCRIMINANT_VALUE_NOT_FOUND = 11,
    SOQ_KIND_INVALID_BIT_STRING = 12,
    SOQ_KIND_SIZE_CONSTRAINT_NOT_SATISFIED = 13,
    SOQ_KIND_VALUE_CONSTRAINT_NOT_SATISFIED = 14,
    SOQ_KIND_PERMITTED_ALPHABET_ERROR = 15,
    SOQ_KIND_STRING_CONVERSION_FAILED = 16,
    SOQ_KIND_NO_VALID_CHOICE = 17,
    SOQ_KIND_MISSING_FIELD = 18,
    SOQ_KIND_DUPLICATE_FIELD = 19,
    SOQ_KIND_TRAILING_ZERO_BITS = 20,
    /* causes of X.690 8, under all three rules */
    SOQ_KIND_UNSUPPORTED_TAG_NUMBER = 32,
    SOQ_KIND_UNSUPPORTED_OBJECT_IDENTIFIER_ARC = 33,
    SOQ_KIND_UNEXPECTED_END_OF_CONTENTS = 34,
    SOQ_KIND_MISSING_END_OF_CONTENTS = 35,
    SOQ_KIND_INDEFINITE_LENGTH_NOT_ALLOWED = 36,
    SOQ_KIND_RESERVED_LENGTH_OCTET = 37,
    SOQ_KIND_MISMATCHED_TAG = 38,
    SOQ_KIND_INVALID_CONSTRUCTED_IDENTIFIER = 39,
    SOQ_KIND_INVALID_OBJECT_IDENTIFIER = 40,
    SOQ_KIND_INVALID_DATE = 41,
    /* causes of X.690 10 and 11, under DER */
    SOQ_KIND_CONSTRUCTED_ENCODING_NOT_ALLOWED = 64,
    SOQ_KIND_NON_MINIMAL_TAG_NUMBER = 65,
    SOQ_KIND_CONSTRUCTED_BIT_MISMATCH = 66,
    SOQ_KIND_NON_MINIMAL_LENGTH = 67,
    SOQ_KIND_NON_MINIMAL_INTEGER = 68,
    SOQ_KIND_NON_MINIMAL_ARC = 69,
    SOQ_KIND_NONZERO_UNUSED_BITS = 70,
    SOQ_KIND_DEFAULT_VALUE_PRESENT = 71,
    SOQ_KIND_SET_COMPONENTS_OUT_OF_ORDER = 72,
    SOQ_KIND_SET_OF_OUT_OF_ORDER = 73,
} soq_kind;

/* The types, each with its name in X.680 or in its standard. A later version may have more. */
typedef enum soq_type {
    SOQ_BOOL = 0,          /* BOOLEAN */
    SOQ_INTEGER = 1,       /* INTEGER */
    SOQ_BITS = 2,          /* BIT STRING */
    SOQ_OCTETS = 3,        /* OCTET STRING */
    SOQ_NULL = 4,          /* NULL */
    SOQ_OID = 5,           /* OBJECT IDENTIFIER */
    SOQ_UTF8 = 6,          /* UTF8String */
    SOQ_PRINTABLE = 7,     /* PrintableString */
    SOQ_IA5 = 8,           /* IA5String */
    SOQ_UTCTIME = 9,       /* UTCTime */
    SOQ_GENTIME = 10,      /* GeneralizedTime */
    SOQ_ANY = 11,          /* one encoding of any type */
    SOQ_CERTIFICATE = 12,  /* Certificate (RFC 5280) */
    SOQ_CRL = 13,          /* CertificateList (RFC 5280) */
    SOQ_REQUEST = 14,      /* CertificationRequest (RFC 2986) */
    SOQ_CMS = 15,          /* ContentInfo of SignedData (RFC 5652) */
    SOQ_SNMP = 16,         /* Message of SNMP with a community (RFC 1901) */
    SOQ_LDAP = 17          /* LDAPMessage (RFC 4511) */
} soq_type;

/* One whole encoding that was skipped. */
typedef struct soq_passed {
    /* The number of its octets. */
    size_t consumed;
    /* The number of steps that skipping it took, at most half the number of octets: 0 for a value of definite length, otherwise one for
     * each value inside and one for each pair of end-of-contents octets. */
    size_t steps;
} soq_passed;

/* The reason why octets aren't one value. */
typedef struct soq_fault {
    /* A soq_kind. */
    uint32_t kind;
    /* The offset of the octets that follow the value; 0 if no value is read. */
    size_t offset;
    /* The length of the error's text, without the zero at its end. */
    size_t text_length;
} soq_fault;

/* One whole encoding: its tag, and where its contents are (X.690 8.1). */
typedef struct soq_encoding {
    /* The class of the tag: 0 is universal, 1 application, 2 context-specific, 3 private. */
    uint32_t tag_class;
    uint32_t tag_number;
    /* 1 if the encoding is constructed, otherwise 0. */
    uint32_t constructed;
    /* The number of identifier and length octets, that of contents octets after them, and that of all octets. With an indefinite length two
     * end-of-contents octets follow the contents. */
    size_t header;
    size_t contents;
    size_t length;
} soq_encoding;

/* An instant, by its fields in UTC. */
typedef struct soq_time_fields {
    /* That of a UTCTime is from 1970 to 2069, as the crate `rasn` has it. In certificates the years 50 to 69 mean 1950 to 1969 (RFC 5280
     * 4.1.2.5.1). */
    int32_t year;
    /* From 1. */
    uint32_t month;
    uint32_t day;
    uint32_t hour;
    uint32_t minute;
    uint32_t second;
    /* From 1,000,000,000 on they are in a leap second after the second 59. */
    uint32_t nanosecond;
} soq_time_fields;

/* An instant, as seconds since 1970. */
typedef struct soq_instant {
    /* Since the start of 1970 in UTC, without leap seconds. */
    int64_t seconds;
    /* From 1,000,000,000 on they are in a leap second after the second. */
    uint32_t nanosecond;
} soq_instant;

/* A text of modules of ASN.1, and the name that faults have for it, as that of its file. Both are UTF-8. Here no pointer may be null. */
typedef struct soq_texts {
    const char *name;
    size_t name_length;
    const char *text;
    size_t text_length;
} soq_texts;

/* Why a call by a schema has no result. If it has one, all fields are 0. */
typedef struct soq_reason {
    /* A soq_kind: why octets are refused. SOQ_KIND_NONE for another reason. */
    uint32_t kind;
    /* The line and the column of a fault in a module or in JSON, counted from 1; otherwise 0. */
    uint32_t line;
    uint32_t column;
    /* Where the value begins that is refused, in octets from the start of the message. */
    size_t offset;
    /* The text begins with the path to the part, of so many octets, such as `tbsCertificate.validity`. */
    size_t path_length;
    /* The length of the text, without the zero at its end. */
    size_t text_length;
} soq_reason;

/* The kinds of types: the number of the universal tag (X.680 8.4), and others for a list and for a type that has none. */
typedef enum soq_part_kind {
    SOQ_PART_BOOLEAN = 1,
    SOQ_PART_INTEGER = 2,
    SOQ_PART_BIT_STRING = 3,
    SOQ_PART_OCTET_STRING = 4,
    SOQ_PART_NULL = 5,
    SOQ_PART_OBJECT_IDENTIFIER = 6,
    SOQ_PART_REAL = 9,
    SOQ_PART_ENUMERATED = 10,
    SOQ_PART_UTF8 = 12,
    SOQ_PART_RELATIVE_OID = 13,
    SOQ_PART_TIME = 14,
    SOQ_PART_SEQUENCE = 16,
    SOQ_PART_SET = 17,
    SOQ_PART_NUMERIC = 18,
    SOQ_PART_PRINTABLE = 19,
    SOQ_PART_IA5 = 22,
    SOQ_PART_UTC_TIME = 23,
    SOQ_PART_GENERALIZED_TIME = 24,
    SOQ_PART_VISIBLE = 26,
    /* GeneralString, GraphicString, TeletexString or VideotexString */
    SOQ_PART_ANY_OCTETS = 27,
    SOQ_PART_UNIVERSAL = 28,
    SOQ_PART_BMP = 30,
    SOQ_PART_DATE = 31,
    SOQ_PART_TIME_OF_DAY = 32,
    SOQ_PART_DATE_TIME = 33,
    SOQ_PART_DURATION = 34,
    SOQ_PART_SEQUENCE_OF = 48,
    SOQ_PART_SET_OF = 49,
    /* The alternative that is chosen has the octets, and the tag is its tag. */
    SOQ_PART_CHOICE = 64,
    /* An explicit tag: its contents are the encoding that it holds. */
    SOQ_PART_TAGGED = 65,
    /* An open type: one encoding of any type. */
    SOQ_PART_ANY = 66,
    /* The encodings that an extensible SEQUENCE of this version doesn't name, none or some. */
    SOQ_PART_UNKNOWN = 67
} soq_part_kind;

/* A part of a message. */
typedef struct soq_part {
    /* Where it begins, in octets from the start of the message. */
    size_t offset;
    /* The number of its identifier and length octets, that of contents octets after them, and that of all octets. With an indefinite length
     * two end-of-contents octets follow the contents. */
    size_t header;
    size_t contents;
    size_t length;
    /* The class of its tag: 0 is universal, 1 application, 2 context-specific, 3 private. */
    uint32_t tag_class;
    uint32_t tag_number;
    /* 1 if it is constructed, otherwise 0. */
    uint32_t constructed;
    /* A soq_part_kind. */
    uint32_t kind;
} soq_part;

/* A part among all parts of a message. */
typedef struct soq_listed_part {
    soq_part part;
    /* How many parts it is in. */
    size_t depth;
    /* Its index in the part that it is in: of a component, an alternative or an element, counted from 0. */
    size_t index;
    /* Where its name is among the names, and how many octets it has; 0 for an element and for what an explicit tag holds. A zero follows
     * each name. */
    size_t name;
    size_t name_length;
} soq_listed_part;

/* How many parts a message has, and how many octets their names have with a zero after each. */
typedef struct soq_counts {
    size_t parts;
    size_t names;
} soq_counts;

/*
 * Skips the one whole encoding at the front of the octets, of any type and nested to any depth. It doesn't recurse, and doesn't check the
 * contents of a definite length.
 *
 * SOQ_OK: the encoding has `passed->consumed` octets; the octets begin with no other whole encoding.
 * SOQ_REFUSED: the octets don't begin with a whole encoding. `soq_decode_error` with SOQ_ANY reports why.
 * For SOQ_REFUSED and SOQ_UNKNOWN_RULE both counts are 0. The function allocates no memory.
 *
 * Contract: AnswersSkip (crates/rasn_c/specs/Skipping.antt), from that of `Decoder::skip_value`.
 */
soq_status soq_skip(soq_rule rule, const uint8_t *octets, size_t length, soq_passed *passed);

/*
 * Returns whether the octets are the one DER encoding of a value of the type.
 *
 * It doesn't check inside open types, such as the parameters of an algorithm and the values in a name, nor inside the octets of an
 * extension. The filter of a search is an open type of SOQ_LDAP: a broken one passes. `soq_check_by` with a schema of LDAPMessage looks into
 * filters. An open type is an identifier and a definite length, in any form, and any contents. SOQ_ANY is one: for `02 81 01 05` the
 * function returns SOQ_OK, although the length isn't in the fewest octets.
 *
 * SOQ_OK: they are. All of them are one value under DER, and its encoding is these octets and no others.
 * SOQ_REFUSED: they aren't. `soq_decode_error` with SOQ_DER reports why.
 *
 * Contract: AnswersCheck (crates/rasn_c/specs/Canonical.antt), from that of `der::is_canonical`.
 */
soq_status soq_check(soq_type type, const uint8_t *octets, size_t length);

/*
 * Writes the one DER encoding of the value that all of the octets encode under these rules to the front of the buffer.
 *
 * SOQ_OK: the DER encoding has `*needed` octets. The rest of the buffer is unchanged.
 * SOQ_BUFFER_TOO_SMALL: the DER encoding has `*needed` octets, which is more than `capacity`. The buffer is unchanged, so a null pointer
 * and a capacity of 0 ask for the number alone.
 * SOQ_REFUSED: there is no DER encoding. `soq_decode_error` with the same rules reports why; it returns SOQ_OK if the octets are read
 * but their value has no DER encoding.
 * For SOQ_REFUSED, SOQ_OUT_OF_MEMORY, SOQ_UNKNOWN_TYPE and SOQ_UNKNOWN_RULE `*needed` is 0 and the buffer is unchanged.
 *
 * Contract: AnswersNormalise (crates/rasn_c/specs/Normal.antt), from that of `rasn::normalise`.
 */
soq_status soq_normalise(soq_type type, soq_rule rule, const uint8_t *octets, size_t length, uint8_t *buffer,
                         size_t capacity, size_t *needed);

/*
 * Reports why the octets aren't exactly one value of the type under these rules.
 *
 * SOQ_OK: they are one.
 * SOQ_REFUSED: they aren't, and `fault` and `text` report why. If a value is read and octets follow it, the kind is
 * SOQ_KIND_UNEXPECTED_EXTRA_DATA, and the offset is that of the octets that follow. Otherwise the kind is that of the error for which no
 * value is read, and the offset is 0, where the value begins: the part of it that is refused isn't reported.
 * The text is truncated if the buffer can't hold it and the zero at its end; with a capacity of 0 no text is written. For SOQ_OK,
 * SOQ_OUT_OF_MEMORY, SOQ_UNKNOWN_TYPE and SOQ_UNKNOWN_RULE the fields of `fault` are 0 and the text is empty.
 *
 * Contract: AnswersError, HoldsText (crates/rasn_c/specs/Errors.antt), from that of `Decode::decode`. The text is the error's own: the
 * rules, and what is wrong.
 */
soq_status soq_decode_error(soq_type type, soq_rule rule, const uint8_t *octets, size_t length, soq_fault *fault,
                            char *text, size_t capacity);

/*
 * Returns the parts of the one whole encoding at the front of the octets, of any type. The contents of a constructed encoding are encodings
 * again, one after another. As in an open type, the identifier and the length may be in any number of octets.
 *
 * SOQ_OK: the encoding has `encoding->length` octets: `header` octets, `contents` octets after them, and, if its length is indefinite, two
 * end-of-contents octets.
 * SOQ_REFUSED: the octets don't begin with a whole encoding.
 * For SOQ_REFUSED and SOQ_UNKNOWN_RULE all fields are 0. The function allocates no memory.
 *
 * Contract: AnswersNext (crates/rasn_c/specs/Encodings.antt), from those of `Decoder::skip_value` and `Decoder::open`.
 */
soq_status soq_next(soq_rule rule, const uint8_t *octets, size_t length, soq_encoding *encoding);

/*
 * Returns the number of the INTEGER that all of the octets are. Its tag may be any, so that a component with a tag of its own is read too:
 * the caller knows the type.
 *
 * SOQ_OK: they are one, and `*number` is its number.
 * SOQ_REFUSED: they aren't one under these rules, or its number is below -2^63 or above 2^63 - 1.
 * For each other status `*number` is 0. SOQ_OUT_OF_MEMORY is never returned.
 *
 * Contract: AnswersInteger (crates/rasn_c/specs/Leaves.antt), from that of `Decoder::decode_integer`.
 */
soq_status soq_integer_i64(soq_rule rule, const uint8_t *octets, size_t length, int64_t *number);

/*
 * Writes the number of the INTEGER that all of the octets are to the buffer, in two's complement in the fewest octets, the first of them
 * first (X.690 8.3.3): also one that 64 bits don't hold, such as most serial numbers of certificates. Its tag may be any.
 *
 * SOQ_OK: the number has `*needed` octets, at least one. The rest of the buffer is unchanged.
 * SOQ_BUFFER_TOO_SMALL: it has `*needed` octets, which is more than `capacity`. The buffer is unchanged.
 * SOQ_REFUSED: the octets aren't an INTEGER under these rules.
 * SOQ_OUT_OF_MEMORY: only for a number of more than 23 octets.
 * For SOQ_REFUSED, SOQ_OUT_OF_MEMORY and SOQ_UNKNOWN_RULE `*needed` is 0 and the buffer is unchanged.
 *
 * Contract: AnswersNumber (crates/rasn_c/specs/Leaves.antt), from that of `Decoder::decode_integer`.
 */
soq_status soq_integer_octets(soq_rule rule, const uint8_t *octets, size_t length, uint8_t *buffer, size_t capacity,
                              size_t *needed);

/*
 * Writes the OBJECT IDENTIFIER that all of the octets are to the buffer, as `1.2.840.113549` and a zero. Its tag may be any.
 *
 * SOQ_OK: the text has `*needed` octets with its zero. The rest of the buffer is unchanged.
 * SOQ_BUFFER_TOO_SMALL: it has `*needed` octets, which is more than `capacity`. The buffer is unchanged.
 * SOQ_REFUSED: the octets aren't an OBJECT IDENTIFIER under these rules, or one of its numbers is 2^32 or more.
 * For SOQ_REFUSED, SOQ_OUT_OF_MEMORY and SOQ_UNKNOWN_RULE `*needed` is 0 and the buffer is unchanged.
 *
 * Contract: AnswersIdentifier (crates/rasn_c/specs/Leaves.antt), from that of `Decoder::decode_object_identifier`.
 */
soq_status soq_oid_text(soq_rule rule, const uint8_t *octets, size_t length, char *text, size_t capacity,
                          size_t *needed);

/*
 * Returns the instant of the UTCTime or the GeneralizedTime (SOQ_UTCTIME, SOQ_GENTIME) that all of the octets are. Its tag may be any.
 *
 * SOQ_OK: they are one.
 * SOQ_REFUSED: they aren't one under these rules.
 * SOQ_UNKNOWN_TYPE: the type is neither of the two.
 * For each other status all fields are 0.
 *
 * Contract: AnswersTime (crates/rasn_c/specs/Leaves.antt), from those of `Decoder::decode_utc_time` and `decode_generalized_time`.
 */
soq_status soq_time(soq_type type, soq_rule rule, const uint8_t *octets, size_t length, soq_time_fields *time);

/*
 * Returns the instant of the UTCTime or the GeneralizedTime (SOQ_UTCTIME, SOQ_GENTIME) that all of the octets are, as seconds since 1970.
 * Its tag may be any. The statuses are those of `soq_time`.
 *
 * Contract: AnswersSeconds (crates/rasn_c/specs/Seconds.antt).
 */
soq_status soq_seconds(soq_type type, soq_rule rule, const uint8_t *octets, size_t length, soq_instant *instant);

/*
 * Writes the characters of the string that all of the octets are to the buffer, in UTF-8, and a zero. Its tag may be any; `kind` says its
 * type: SOQ_PART_UTF8, SOQ_PART_NUMERIC, SOQ_PART_PRINTABLE, SOQ_PART_IA5 or SOQ_PART_VISIBLE.
 *
 * SOQ_OK: the text has `*needed` octets with its zero. A character of it may be a zero too.
 * SOQ_BUFFER_TOO_SMALL: it has `*needed` octets, which is more than `capacity`. The buffer is unchanged.
 * SOQ_REFUSED: the octets aren't such a string under these rules.
 * SOQ_UNKNOWN_TYPE: the kind is none of these.
 * For each other status `*needed` is 0 and the buffer is unchanged.
 *
 * Contract: AnswersCharacters (crates/rasn_c/specs/Strings.antt).
 */
soq_status soq_utf8(soq_part_kind kind, soq_rule rule, const uint8_t *octets, size_t length, char *text, size_t capacity,
                    size_t *needed);

/*
 * Writes the bits of the BIT STRING that all of the octets are to the buffer, the first bit of each octet first, and their number. Its tag
 * may be any. Bits of the last octet that aren't used are 0.
 *
 * SOQ_OK: there are `*bits` bits in `*needed` octets.
 * SOQ_BUFFER_TOO_SMALL: the same, and `*needed` is more than `capacity`. The buffer is unchanged.
 * SOQ_REFUSED: the octets aren't a BIT STRING under these rules.
 * For each other status both numbers are 0 and the buffer is unchanged.
 *
 * Contract: AnswersBits (crates/rasn_c/specs/Strings.antt).
 */
soq_status soq_bits(soq_rule rule, const uint8_t *octets, size_t length, uint8_t *buffer, size_t capacity, size_t *needed,
                    size_t *bits);

/*
 * Calls by a schema. A schema is octets in a buffer of the caller's, which `soq_compile` writes. Whenever it is read again, it is checked:
 * for octets that aren't a schema the calls return SOQ_BAD_SCHEMA, and the text says why. The form of the octets may change with the
 * version of the library.
 *
 * Each call reports in `reason` and `text` why it has no result. The text is truncated if the buffer can't hold it and the zero at its end;
 * with a capacity of 0 no text is written.
 */

/*
 * Writes the schema of a type of modules to the buffer. `type` is `TYPE`, the first of this name in the texts, or `MODULE.TYPE`. A text has
 * any number of modules; docs/MODULES.md says what of X.680 is read.
 *
 * SOQ_OK: the schema has `*needed` octets.
 * SOQ_BUFFER_TOO_SMALL: it has `*needed` octets, which is more than `capacity`. The buffer is unchanged.
 * SOQ_REFUSED: a text or its name isn't UTF-8, or the modules have faults. The text then has a line `NAME:LINE:COLUMN: what is wrong` for each
 * fault, and `reason` the place of the first.
 * SOQ_UNKNOWN_TYPE: no module has a type of this name, or the name isn't UTF-8.
 * For each other status `*needed` is 0 and the buffer is unchanged.
 *
 * Contract: AnswersCompile (crates/rasn_c/specs/Compiling.antt), from those of `Modules::schema` and `rasn_schema_octets::write`.
 */
soq_status soq_compile(const soq_texts *texts, size_t count, const char *type, uint8_t *buffer, size_t capacity, size_t *needed,
                       soq_reason *reason, char *text, size_t text_capacity);

/*
 * Returns whether all of the octets are one value of the type under these rules. Under SOQ_DER it is then the one DER encoding of its
 * value. If `open_types` isn't 0, under SOQ_DER the octets inside open types are looked into too, such as the values in a name; under the
 * other rules the argument is ignored.
 *
 * SOQ_OK: they are.
 * SOQ_REFUSED: they aren't. The text is `PATH, byte OFFSET: RULES: what is wrong`.
 *
 * Contract: AnswersCheckBy (crates/rasn_c/specs/Checking.antt), from those of `rasn_lint::check` and `rasn_dynamic::check_or_locate`.
 */
soq_status soq_check_by(const uint8_t *schema, size_t schema_length, soq_rule rule, int open_types, const uint8_t *octets,
                        size_t length, soq_reason *reason, char *text, size_t capacity);

/*
 * Finds the part of the value at the front of the octets to which a path leads: `tbsCertificate.validity.notAfter`, with names of components
 * and alternatives, and `extensions[1].extnValue`, with the index of an element counted from 0. The empty path leads to the value itself. An
 * explicit tag on the way has no name; one at the end is the part, and its contents are the encoding that it holds. Parts after it aren't
 * read.
 *
 * A CHOICE is of the kind SOQ_PART_CHOICE, whatever alternative is chosen: `tbsCertificate.validity.notAfter` is never SOQ_PART_UTC_TIME.
 * Which one it is, `part->tag_class` and `part->tag_number` say, 0 and 23 for a UTCTime; or a path that goes on with the name of an
 * alternative, which is SOQ_OK for the one that is chosen, with its kind, and SOQ_ABSENT for another; or `soq_parts`, which lists the
 * alternative with its name after the CHOICE.
 *
 * SOQ_OK: the octets at `part->offset` of `part->length` octets are those from which the part at this path of the value was read.
 * SOQ_ABSENT: a component on the way is absent, another alternative is chosen, or there are fewer elements.
 * SOQ_UNKNOWN_PATH: no value of the type has a part with this path, or the text isn't a path.
 * SOQ_REFUSED: a part before it, or the part itself, can't be read. The text is as that of `soq_check_by`.
 * For each status other than SOQ_OK all fields of `part` are 0.
 *
 * Contract: AnswersFind (crates/rasn_c/specs/Finding.antt), from those of `rasn_dynamic::find_part` and `path_named`.
 */
soq_status soq_find(const uint8_t *schema, size_t schema_length, soq_rule rule, const uint8_t *octets, size_t length,
                    const char *path, soq_part *part, soq_reason *reason, char *text, size_t capacity);

/*
 * Lists all parts of the value at the front of the octets in the order of their octets, each before those inside it, beginning with the
 * value itself.
 *
 * SOQ_OK: there are `counts->parts` parts, and `counts->names` octets of names.
 * SOQ_BUFFER_TOO_SMALL: the same, and one of the two is more than its buffer holds. Both buffers are unchanged.
 * SOQ_REFUSED: the octets don't begin with a value. The text is as that of `soq_check_by`.
 * For each other status both counts are 0 and the buffers are unchanged.
 *
 * Contract: AnswersParts (crates/rasn_c/specs/Listing.antt), from that of `rasn_dynamic::parts_of`.
 */
soq_status soq_parts(const uint8_t *schema, size_t schema_length, soq_rule rule, const uint8_t *octets, size_t length,
                     soq_listed_part *parts, size_t count, char *names, size_t names_capacity, soq_counts *counts,
                     soq_reason *reason, char *text, size_t capacity);

/*
 * Writes the value that all of the octets are to the buffer as JSON (X.697), in UTF-8, and a zero: with a line for each member and element
 * if `lines` isn't 0.
 *
 * SOQ_OK: the text has `*needed` octets with its zero.
 * SOQ_BUFFER_TOO_SMALL: it has `*needed` octets, which is more than `capacity`. The buffer is unchanged.
 * SOQ_REFUSED: the octets aren't one value of the type, or the value has no JSON.
 * For each other status `*needed` is 0 and the buffer is unchanged.
 *
 * Contract: AnswersJson (crates/rasn_c/specs/Converting.antt), from that of `rasn_json::json`.
 */
soq_status soq_json(const uint8_t *schema, size_t schema_length, soq_rule rule, int lines, const uint8_t *octets, size_t length,
                    char *json, size_t capacity, size_t *needed, soq_reason *reason, char *text, size_t text_capacity);

/*
 * Writes the octets, by these rules, of the value that a JSON text is to the buffer. The text is UTF-8, of `length` octets, without a zero.
 *
 * SOQ_OK: there are `*needed` octets.
 * SOQ_BUFFER_TOO_SMALL: the same, and this is more than `capacity`. The buffer is unchanged.
 * SOQ_REFUSED: the text isn't the JSON of a value of the type, or the value has no octets. The text begins with the path to the part.
 * For each other status `*needed` is 0 and the buffer is unchanged.
 *
 * Contract: AnswersEncode (crates/rasn_c/specs/Converting.antt), from that of `rasn_json::encode`.
 */
soq_status soq_encode(const uint8_t *schema, size_t schema_length, soq_rule rule, const char *json, size_t length,
                      uint8_t *buffer, size_t capacity, size_t *needed, soq_reason *reason, char *text, size_t text_capacity);

/*
 * Writes the one DER encoding of the value that all of the octets are by these rules to the buffer. The statuses are those of
 * `soq_normalise`, with why octets are refused in the text.
 *
 * Contract: AnswersNormaliseBy (crates/rasn_c/specs/Converting.antt), from that of `rasn_dynamic::normalise`.
 */
soq_status soq_normalise_by(const uint8_t *schema, size_t schema_length, soq_rule rule, const uint8_t *octets, size_t length,
                            uint8_t *buffer, size_t capacity, size_t *needed, soq_reason *reason, char *text,
                            size_t text_capacity);

/*
 * Writes the text of the Name (RFC 5280 4.1.2.4) that all of the octets are to the buffer, as RFC 4514 2 has it, in UTF-8 and with a zero:
 * `CN=example.org,O=Example,C=DE`, the last relative distinguished name first. CN, L, ST, O, OU, C, STREET, DC and UID are short names
 * (RFC 4514 3), and the value of such an attribute is text if it is a UTF8String, a PrintableString or an IA5String; of its characters
 * only those of RFC 4514 2.4 and the control characters of ASCII are escaped. Another type is its numbers with points between them, and
 * another value, such as a TeletexString or one of another type, the hexadecimal digits of its octets after `#`.
 *
 * SOQ_OK: the text has `*needed` octets with its zero. The rest of the buffer is unchanged.
 * SOQ_BUFFER_TOO_SMALL: it has `*needed` octets, which is more than `capacity`. The buffer is unchanged.
 * SOQ_REFUSED: the octets aren't a Name under these rules.
 * For SOQ_REFUSED, SOQ_OUT_OF_MEMORY and SOQ_UNKNOWN_RULE `*needed` is 0 and the buffer is unchanged.
 *
 * Contract: AnswersName (crates/rasn_c/specs/Names.antt), from that of `rasn_text::name_text`.
 */
soq_status soq_name_text(soq_rule rule, const uint8_t *octets, size_t length, char *text, size_t capacity, size_t *needed);

/* Where a block of PEM is in a text. */
typedef struct soq_block {
    /* Where its label begins, in octets from the start of the text, and the number of octets of the label. */
    size_t label;
    size_t label_length;
    /* The number of its first line, counted from 1. */
    size_t line;
} soq_block;

/*
 * Writes the octets of the block of PEM (RFC 7468) with this index, counted from 0, to the buffer, and where it is to `block`. The text has
 * `length` octets, without a zero. A block begins with a line `-----BEGIN LABEL-----`; other lines between blocks are skipped.
 *
 * Each call decodes all blocks of its text. To call it with 0, 1 and so on takes time that grows with the square of their number: go through
 * a text of many blocks by `soq_pem_front`.
 *
 * SOQ_OK: the block has `*needed` octets. The rest of the buffer is unchanged.
 * SOQ_BUFFER_TOO_SMALL: it has `*needed` octets, which is more than `capacity`. The buffer is unchanged.
 * SOQ_REFUSED: there is the block, but no line `-----END LABEL-----` before the next line of dashes, or its lines aren't base64. `*needed`
 * is 0, and the buffer is unchanged.
 * SOQ_ABSENT: the text has fewer blocks.
 * For SOQ_ABSENT and SOQ_OUT_OF_MEMORY `*needed` and all fields of `block` are 0 and the buffer is unchanged.
 *
 * Contract: AnswersBlock (crates/rasn_c/specs/Blocks.antt), from that of `rasn_text::blocks`.
 */
soq_status soq_pem(const char *text, size_t length, size_t index, soq_block *block, uint8_t *buffer, size_t capacity,
                   size_t *needed);

/*
 * Writes the octets of `extnValue` of the first extension with this identifier of the Extensions (RFC 5280 4.1) that all of the octets are
 * to the buffer: for the Extensions of a certificate, the contents of the OCTET STRING. `identifier` is its text with a zero, `2.5.29.17`.
 *
 * SOQ_OK: there are `*needed` octets. The rest of the buffer is unchanged.
 * SOQ_BUFFER_TOO_SMALL: there are `*needed` octets, which is more than `capacity`. The buffer is unchanged.
 * SOQ_ABSENT: no extension has the identifier.
 * SOQ_REFUSED: the octets aren't Extensions under these rules.
 * For SOQ_ABSENT, SOQ_REFUSED, SOQ_OUT_OF_MEMORY and SOQ_UNKNOWN_RULE `*needed` is 0 and the buffer is unchanged.
 *
 * Contract: AnswersExtension (crates/rasn_c/specs/Extensions.antt), from that of `rasn::decode`.
 */
soq_status soq_extension(soq_rule rule, const uint8_t *octets, size_t length, const char *identifier, uint8_t *buffer,
                         size_t capacity, size_t *needed);

/*
 * Returns how many octets the front of the text has: up to the second line that may be the first of a block, or up to the first if the text
 * doesn't begin with one. It isn't 0 unless `length` is. No block goes on beyond such a line, so these are all blocks of a text, in time
 * that grows with its length:
 *
 *     for (; length != 0; text += front, length -= front) {
 *         front = soq_pem_front(text, length);
 *         status = soq_pem(text, front, 0, &block, buffer, capacity, &needed);
 *         .. there is no block in this front if the status is SOQ_ABSENT ..
 *     }
 *
 * `block.label` and `block.line` count from the start of the front. The text isn't null, unless `length` is 0; that isn't tested.
 */
static inline size_t soq_pem_front(const char *text, size_t length) {
    static const char begin[] = "-----BEGIN ";
    const size_t size = sizeof begin - 1;
    const char *line = text;
    size_t left = length;
    while (left > size) {
        const char *feed = (const char *)memchr(line, '\n', left);
        if (feed == NULL) {
            break;
        }
        left -= (size_t)(feed - line) + 1;
        line = feed + 1;
        if (left >= size && memcmp(line, begin, size) == 0) {
            return length - left;
        }
    }
    return length;
}

/*
 * Returns the value of the BOOLEAN that all of the octets are: 0 or 1. Its tag may be any.
 *
 * SOQ_OK: they are one. Under SOQ_DER and SOQ_CER the contents octet is then 00 or FF.
 * SOQ_REFUSED: they aren't one under these rules.
 * For each other status `*value` is 0; the others are those of `soq_integer_i64`, which reads the octet (X.690 8.2 and 8.3).
 */
static inline soq_status soq_bool(soq_rule rule, const uint8_t *octets, size_t length, int *value) {
    soq_encoding encoding;
    int64_t number;
    soq_status status = value == NULL ? SOQ_NULL_POINTER : soq_integer_i64(rule, octets, length, &number);
    if (value != NULL) {
        *value = 0;
    }
    if (status == SOQ_OK) {
        status = soq_next(rule, octets, length, &encoding);
    }
    if (status != SOQ_OK) {
        return status;
    }
    if (encoding.contents != 1 || (rule != SOQ_BER && number != 0 && number != -1)) {
        return SOQ_REFUSED;
    }
    *value = number != 0;
    return SOQ_OK;
}

/* Counts the octets of these segments of an OCTET STRING and, unless the buffer is null, copies them there. */
static inline soq_status soq_segments(soq_rule rule, const uint8_t *octets, size_t length, uint8_t *buffer, size_t *found) {
    size_t at = 0;
    *found = 0;
    while (at < length) {
        soq_encoding segment;
        soq_status status;
        if (length - at >= 2 && octets[at] == 0 && octets[at + 1] == 0) {
            at += 2; /* the end-of-contents octets of a segment that is in segments */
            continue;
        }
        status = soq_next(rule, octets + at, length - at, &segment);
        if (status != SOQ_OK) {
            return status;
        }
        if (segment.tag_class != 0 || segment.tag_number != 4) {
            return SOQ_REFUSED;
        }
        at += segment.header;
        if (!segment.constructed) {
            if (buffer != NULL && segment.contents != 0) {
                memcpy(buffer + *found, octets + at, segment.contents);
            }
            *found += segment.contents;
            at += segment.contents;
        }
    }
    return SOQ_OK;
}

/*
 * Writes the octets of an OCTET STRING to the buffer, also of one in segments (X.690 8.7.3), which may be in segments again. It is a part
 * of the kind SOQ_PART_OCTET_STRING of a message that a call by a schema has read by the same rules; its tag may be any. Of other octets
 * SOQ_OK doesn't say that they are an OCTET STRING; nothing is read or written outside of what is passed, whatever they are.
 *
 * SOQ_OK: there are `*needed` octets. The rest of the buffer is unchanged.
 * SOQ_BUFFER_TOO_SMALL: there are `*needed` octets, which is more than `capacity`. The buffer is unchanged, so a null pointer and a capacity
 * of 0 ask for the number alone.
 * SOQ_REFUSED: the octets aren't one encoding, or aren't in segments that are OCTET STRINGs.
 * For each other status `*needed` is 0 and the buffer is unchanged. The buffer must not overlap the octets, which isn't tested.
 */
static inline soq_status soq_octet_string(soq_rule rule, const uint8_t *octets, size_t length, uint8_t *buffer, size_t capacity,
                                          size_t *needed) {
    soq_encoding whole;
    soq_status status;
    size_t found;
    if (needed == NULL) {
        return SOQ_NULL_POINTER;
    }
    *needed = 0;
    status = buffer == NULL && capacity != 0 ? SOQ_NULL_POINTER : soq_next(rule, octets, length, &whole);
    if (status != SOQ_OK) {
        return status;
    }
    if (whole.length != length) {
        return SOQ_REFUSED;
    }
    octets += whole.header;
    found = whole.contents;
    if (whole.constructed) {
        status = soq_segments(rule, octets, whole.contents, NULL, &found);
        if (status != SOQ_OK) {
            return status;
        }
    }
    *needed = found;
    if (found > capacity) {
        return SOQ_BUFFER_TOO_SMALL;
    }
    if (whole.constructed) {
        return soq_segments(rule, octets, whole.contents, buffer, &found);
    }
    if (found != 0) {
        memcpy(buffer, octets, found);
    }
    return SOQ_OK;
}

#ifdef __cplusplus
}
#endif

#endif
