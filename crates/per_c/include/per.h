/*
 * per.h: a codec for ASN.1's Packed Encoding Rules (ITU-T X.691, 02/2021; sections in parentheses are its own).
 *
 * Octets of a stranger go in; out comes whether they are an encoding of a value of a type, and the one canonical
 * encoding of that value, or its JSON (X.697), or why not. Each call is proved to answer so, for any octets
 * (crates/per_c/src/calls.rt).
 *
 * Of a caller:
 * - A pointer with a count points to so many octets that nothing else changes during the call; with a count of 0 it may
 *   be NULL, and nothing is read there or written. A count is at most PTRDIFF_MAX. Each other pointer leads to what it
 *   is declared to. What a call writes to overlaps nothing else that it is given.
 * - The installed library (`make install`: libper.so, libper.a) refuses any other NULL: before all else, a call returns
 *   PER_NULL_POINTER, and reads and writes nothing then; `per_free(NULL)` does nothing. This is C, tried and not proved
 *   (crates/per_c/pointers.c). The bare library (`rt lib`: libper_c.a) has the proved calls alone, to which no other
 *   NULL may be given.
 * - Calls take memory by `malloc` and `realloc`, those of the C library, and give all of it back by `free` before they
 *   return. Where memory runs out, they answer PER_OUT_OF_MEMORY.
 * - Calls keep no state, so several threads may make them at once; but no signal handler may, nor the forked child of a
 *   process with threads.
 */
#ifndef PER_H
#define PER_H

#include <stddef.h>
#include <stdint.h>

#ifdef __cplusplus
extern "C" {
#endif

/** The variant (7), and which padding and spare bits are read. A canonical encoding has zeros there. */
enum per_options {
    PER_UNALIGNED = 0, /* UNALIGNED; padding of any value. */
    PER_ALIGNED = 1, /* ALIGNED; padding of any value. */
    PER_UNALIGNED_ZERO_PADDED = 2, /* UNALIGNED; padding must be zero, else PER_DECODE_PARSER_FAIL. */
    PER_ALIGNED_ZERO_PADDED = 3 /* ALIGNED; padding must be zero, else PER_DECODE_PARSER_FAIL. */
};

/** Why a call has no answer. A later version may add codes behind these, and changes none. */
enum per_refusal {
    PER_OK = 0, /* There is an answer. */
    PER_OUT_OF_MEMORY = 1, /* Memory ran out. */
    PER_UNKNOWN_OPTIONS = 2, /* The options are none of `enum per_options`. */
    PER_UNKNOWN_TYPE = 3, /* The number is none of `enum per_type`'s. */
    PER_NO_ROOM = 4, /* The answer is longer than the room for it. */

    /* Octets are no encoding of a value of the type. */
    PER_DECODE_INCOMPLETE = 5, /* The octets end within a field. */
    PER_DECODE_PARSER_FAIL = 6, /* The bits spell no value of any type. */
    PER_DECODE_UNEXPECTED_EXTRA_DATA = 7, /* Whole octets are left over, at the end or in an open type (11.1, 11.2). */
    PER_DECODE_MISSING_TAG = 8, /* A part was asked for out of turn. */
    PER_DECODE_TYPE_NOT_EXTENSIBLE = 9, /* An addition was asked for in a type that has none. */
    PER_DECODE_EXCEEDS_MAX_LENGTH = 10, /* There are more items than can be counted. */
    PER_DECODE_INTEGER_OVERFLOW = 11, /* A number doesn't fit its type. */
    PER_DECODE_SIZE_CONSTRAINT_NOT_SATISFIED = 12, /* The size of a string or a list is outside its bounds. */
    PER_DECODE_VALUE_CONSTRAINT_NOT_SATISFIED = 13, /* A number is outside its bounds. */
    PER_DECODE_PERMITTED_ALPHABET = 14, /* No permitted character has the code (30.5). */
    PER_DECODE_ENUMERATION_INDEX_NOT_FOUND = 15, /* The type has no such item (14). */
    PER_DECODE_CHOICE_INDEX_NOT_FOUND = 16, /* The type has no such alternative (23). */
    PER_DECODE_CHOICE_INDEX_EXCEEDS_PLATFORM_WIDTH = 17, /* The index of an alternative is past 64 bits (23). */
    PER_DECODE_REQUIRED_EXTENSION_NOT_PRESENT = 18, /* A required addition is absent (19). */
    PER_DECODE_EXCEEDS_MAX_PARSE_DEPTH = 19, /* Values stand deeper inside one another than 128 levels. */
    PER_DECODE_STRING_CONVERSION_FAILED = 20, /* The octets of a UTF8String aren't UTF-8. */
    PER_DECODE_INVALID_DATE = 21, /* There is no such day. */
    PER_DECODE_REAL_NOT_SUPPORTED = 22, /* REAL is not supported. */
    PER_DECODE_BELOW = 23, /* An object identifier or a time is malformed. */
    PER_DECODE_UNEXPECTED_EMPTY_INPUT = 24, /* A number has no octets (11.8). */
    PER_DECODE_ALREADY_FAILED = 25, /* The decoder had refused before. */

    /* A value has no canonical encoding. */
    PER_ENCODE_SIZE_CONSTRAINT_NOT_SATISFIED = 26, /* The size of a string or a list is outside its bounds. */
    PER_ENCODE_VALUE_CONSTRAINT_NOT_SATISFIED = 27, /* A number is outside its bounds (13). */
    PER_ENCODE_ALPHABET_CONSTRAINT_NOT_SATISFIED = 28, /* A character is not permitted (30.5). */
    PER_ENCODE_INTEGER_TYPE_CONVERSION_FAILED = 29, /* A number lies within its bounds but is past 128 bits. */
    PER_ENCODE_VARIANT_NOT_IN_CHOICE = 30, /* A tag is none of an alternative's (23). */
    PER_ENCODE_REAL_NOT_SUPPORTED = 31, /* REAL is not supported. */
    PER_ENCODE_TOO_MANY_ADDITIONS = 32, /* A record has more additions than its schema lists (19). */
    PER_ENCODE_BELOW = 33, /* An identifier or a time has no encoding. */
    PER_ENCODE_ALREADY_FAILED = 34, /* The encoder had refused before. */
    PER_ENCODE_OUT_OF_TURN = 35, /* A part was presented out of turn. */

    /* A value has no JSON. */
    PER_JSON_NO_JSON = 36, /* It has a REAL, or a time or a character that no text holds. */
    PER_JSON_VARIANT_NOT_IN_CHOICE = 37, /* A tag is none of an alternative's. */
    PER_JSON_ALREADY_FAILED = 38, /* The encoder had refused before. */
    PER_JSON_OUT_OF_TURN = 39, /* A part was presented out of turn. */
    PER_ENCODE_WRONG_KIND = 40, /* A value is of another kind than its type. */

    /* Of tables of types. */
    PER_NO_TYPES = 41, /* The handle holds no table: none was loaded, or it was freed. */
    PER_ALREADY_LOADED = 42, /* The handle holds a table already. */
    PER_BAD_SCHEMA = 43, /* The text is no schema file. */
    PER_OTHER_TYPE = 44, /* An open type has a value of another type than its object set tells. */

    /* A text is no JSON of a value of the type. */
    PER_FROM_JSON_NOT_JSON = 45, /* It is no JSON in UTF-8, or nests more than 128 arrays and objects. */
    PER_FROM_JSON_DUPLICATE_MEMBER = 46, /* An object has two members of one name. */
    PER_FROM_JSON_UNKNOWN_MEMBER = 47, /* An object has a member that its type doesn't have. */
    PER_FROM_JSON_MISSING_MEMBER = 48, /* An object lacks a member that has to be there. */
    PER_FROM_JSON_UNKNOWN_ITEM = 49, /* A string isn't the name of an item of the type. */
    PER_FROM_JSON_UNKNOWN_ALTERNATIVE = 50, /* The member of an object isn't an alternative of the type. */
    PER_FROM_JSON_WRONG_KIND = 51, /* The JSON is of another kind than the type asks for. */
    PER_FROM_JSON_BAD_NUMBER = 52, /* A number isn't whole, is past 128 bits, or doesn't fit the digits beside it. */
    PER_FROM_JSON_BAD_HEXADECIMAL = 53, /* A string isn't the hexadecimal digits of octets. */
    PER_FROM_JSON_BAD_CHARACTER = 54, /* A string has a character that its type can't have. */
    PER_FROM_JSON_BAD_TIME = 55, /* A string isn't the canonical text of a time. */
    PER_FROM_JSON_NO_TYPE = 56, /* No type stands at the place. */
    PER_FROM_JSON_BAD_IDENTIFIER = 57, /* A string isn't the arcs of an object, such as `1.2.840`. */

    /* Of what a call is given. The bare library doesn't answer it, and has no name for it. */
    PER_NULL_POINTER = 58 /* A pointer is NULL that may not be. */
};

/** How many codes there are, PER_OK among them. */
#define PER_REFUSALS 59

/** The version of these declarations. A later one may add to them, and changes none. */
#define PER_VERSION 1

/** The types, as docs/TYPES.md describes them. A later version may add types behind these, and changes none. */
enum per_type {
    PER_TYPE_BOOLEAN = 0,
    PER_TYPE_NULL = 1,
    PER_TYPE_INTEGER = 2,
    PER_TYPE_UPTO = 3,
    PER_TYPE_FROM = 4,
    PER_TYPE_NATURAL = 5,
    PER_TYPE_I65536 = 6,
    PER_TYPE_IEXT = 7,
    PER_TYPE_FOUR = 8,
    PER_TYPE_SEVEN = 9,
    PER_TYPE_DEFAULT = 10,
    PER_TYPE_VIS = 11,
    PER_TYPE_FIVE = 12,
    PER_TYPE_BITS = 13,
    PER_TYPE_OCTETS = 14,
    PER_TYPE_ONLYX = 15,
    PER_TYPE_ITEMS = 16,
    PER_TYPE_BYTE = 17,
    PER_TYPE_EMPTY = 18,
    PER_TYPE_NESTED = 19,
    PER_TYPE_NEST = 20,
    PER_TYPE_DEEP = 21,
    PER_TYPE_BYTES = 22,
    PER_TYPE_NULLS = 23,
    PER_TYPE_NULLLIST = 24,
    PER_TYPE_ELEMENTS = 25,
    PER_TYPE_OUTER1 = 26,
    PER_TYPE_OUTER2 = 27,
    PER_TYPE_OUTER3 = 28,
    PER_TYPE_GROUP = 29,
    PER_TYPE_NEED0 = 30,
    PER_TYPE_NEED = 31,
    PER_TYPE_ADDD = 32,
    PER_TYPE_REL1 = 33,
    PER_TYPE_REL3 = 34,
    PER_TYPE_DV1 = 35,
    PER_TYPE_DV2 = 36,
    PER_TYPE_GRP1 = 37,
    PER_TYPE_GRP2 = 38,
    PER_TYPE_COL1 = 39,
    PER_TYPE_COL2 = 40,
    PER_TYPE_DEF1 = 41,
    PER_TYPE_DEF3 = 42,
    PER_TYPE_ALT1 = 43,
    PER_TYPE_ALT2 = 44,
    PER_TYPE_ALTERNATIVES = 45,
    PER_TYPE_MANY = 46,
    PER_TYPE_BAG = 47,
    PER_TYPE_UTC = 48,
    PER_TYPE_CONNECT = 49,
    PER_TYPE_SET = 50,
    PER_TYPE_SETOPT = 51,
    PER_TYPE_SETCHOICE = 52,
    PER_TYPE_DATE = 53,
    PER_TYPE_DNEST = 54,
    PER_TYPE_SPARE = 55,
    PER_TYPE_PICK = 56,
    PER_TYPE_PICKED = 57,
    PER_TYPE_SIGNALS = 58,
    PER_TYPE_CAM = 59
};

/** How many types there are. */
#define PER_TYPES 60

/** A text of at most 31 octets, with zeros behind it. */
struct per_name {
    char text[32];
};

/**
 * Whether `count` octets are a complete encoding (11.1), canonical or not, of a value of a type, and this value has a
 * canonical encoding.
 *
 * Returns PER_OK where they are, else the code of a refusal that stands: of `enum per_refusal`, but PER_NO_ROOM.
 * `options` is one of `enum per_options`, `type` of `enum per_type`.
 */
uint32_t per_check(uint32_t options, uint32_t type, const uint8_t *octets, size_t count);

/**
 * The canonical encoding of the value that `count` octets spell, as `per_check` reads them.
 *
 * Returns PER_OK, with the encoding in the first `*written` of the `capacity` octets at `out`; or PER_NO_ROOM, where
 * it has `*written` octets, which are more than `capacity`; or the code of another refusal, with 0 in `*written`. The
 * other octets at `out`, and in these two cases all of them, stay as they were. With a `capacity` of 0 only the length
 * is asked for.
 */
uint32_t per_recode(uint32_t options, uint32_t type, const uint8_t *octets, size_t count, uint8_t *out, size_t capacity,
                    size_t *written);

/**
 * The JSON text (X.697) of the value that `count` octets spell, as `per_check` reads them: in UTF-8, without spaces,
 * and with no zero behind it. It shows the value's normal form, with the members of a SET OF in the order in which they
 * were read. The value needs no canonical encoding.
 *
 * Returns PER_OK, with the text in the first `*written` of the `capacity` octets at `out`; or PER_NO_ROOM, where it has
 * `*written` octets, which are more than `capacity`; or the code of another refusal, none of PER_ENCODE_.., with 0 in
 * `*written`. The other octets at `out`, and in these two cases all of them, stay as they were. With a `capacity` of 0
 * only the length is asked for.
 */
uint32_t per_json(uint32_t options, uint32_t type, const uint8_t *octets, size_t count, uint8_t *out, size_t capacity,
                  size_t *written);

/**
 * A handle of a table of types, which `per_load` makes of a schema file (docs/SCHEMA-FILE.md), or of none: begin with
 * `struct per_types types = PER_EMPTY_HANDLE;`. Its members are the library's. It isn't copied, one call at a time uses
 * it, and calls that use it one after another are ordered (by a lock, or a thread's start or end). Several threads use
 * one table at once by a handle for each, from `per_share`. What a call needs beside the table is its own memory.
 */
struct per_types {
    void *table;
    uint8_t is_loaded;
};
#define PER_EMPTY_HANDLE {NULL, 0}

/**
 * Loads the table of a schema file's text of `length` octets into a handle that holds none.
 *
 * Returns PER_OK; PER_BAD_SCHEMA, with the number of the line that is wrong in `*line`, from 1; PER_ALREADY_LOADED; or
 * PER_OUT_OF_MEMORY. In other cases than the second 0 is in `*line`. Where it doesn't return PER_OK, the handle stays.
 */
uint32_t per_load(const uint8_t *text, size_t length, struct per_types *types, size_t *line);

/** Takes the table from a handle, which then holds none, and gives its memory back where no other handle has it. */
void per_free(struct per_types *types);

/** Gives the table of a handle to `*other` too, which holds none. Returns PER_OK, PER_NO_TYPES, PER_ALREADY_LOADED or
 * PER_OUT_OF_MEMORY. */
uint32_t per_share(struct per_types *types, struct per_types *other);

/**
 * The place of the type with a name of `length` octets, as "NGAP-PDU-Descriptions.NGAP-PDU", in `*place`.
 *
 * Returns PER_OK, PER_NO_TYPES, or PER_UNKNOWN_TYPE, and then leaves `*place`.
 */
uint32_t per_find(struct per_types *types, const uint8_t *name, size_t length, size_t *place);

/**
 * `per_check` and `per_recode` of the type at a place of a table. `options` is PER_UNALIGNED or PER_ALIGNED, else the
 * code is PER_UNKNOWN_OPTIONS; PER_NO_TYPES is another code.
 */
uint32_t per_check_by(struct per_types *types, uint32_t options, size_t place, const uint8_t *octets, size_t count);
uint32_t per_recode_by(struct per_types *types, uint32_t options, size_t place, const uint8_t *octets, size_t count,
                       uint8_t *out, size_t capacity, size_t *written);

/**
 * How many of `count` octets the encoding has that they begin with, of one value of the type at a place of a table, in
 * `*size`. The other calls take these octets; the next value may begin behind them.
 *
 * Returns PER_OK, or the code of a refusal, as `per_check_by` answers it, and then 0 is in `*size`.
 */
uint32_t per_first_length(struct per_types *types, uint32_t options, size_t place, const uint8_t *octets, size_t count,
                          size_t *size);

/**
 * The JSON text (X.697) of the value of the type at a place of a table that octets spell: in UTF-8, without spaces, and
 * with no zero behind it. Where an object set tells the type of an open type, and its octets are an encoding of one, it
 * has that value, else the octets. Answers, and is put in `out`, as by `per_json`.
 */
uint32_t per_to_json(struct per_types *types, uint32_t options, size_t place, const uint8_t *octets, size_t count,
                     uint8_t *out, size_t capacity, size_t *written);

/** The canonical encoding of the value of the type at a place that a text of JSON tells, put as by `per_recode`. */
uint32_t per_from_json(struct per_types *types, uint32_t options, size_t place, const uint8_t *text, size_t length,
                       uint8_t *out, size_t capacity, size_t *written);

/** Where a bit stands: how many octets stand in front of its own, and how many bits of that, at most 7. */
struct per_bit {
    size_t octet;
    uint32_t bit;
};

/**
 * Where `count` octets are refused by the type at a place of a table, in `*bit` and as the identifiers and the numbers
 * of elements from the whole message to what had begun there, as "protocolIEs.3.value"; empty for the message itself.
 * Of octets that aren't refused, where the value ends. The path is put in the `capacity` octets at `path` as by
 * `per_recode`. Returns PER_OK, PER_NO_ROOM, PER_NO_TYPES, PER_UNKNOWN_OPTIONS or PER_OUT_OF_MEMORY.
 */
uint32_t per_refused_at(struct per_types *types, uint32_t options, size_t place, const uint8_t *octets, size_t count,
                        uint8_t *path, size_t capacity, size_t *written, struct per_bit *bit);

/**
 * Where a text of JSON tells no value of the type at a place of a table: the path to what is refused, as
 * "protocolIEs.3.value", put in the `capacity` octets at `path` as by `per_recode`, and in `*octet` how many octets of
 * the text stand in front of where it stops to be JSON, `length` where it is. Of a text that isn't refused the path is
 * empty. Returns PER_OK, PER_NO_ROOM, PER_NO_TYPES or PER_OUT_OF_MEMORY.
 */
uint32_t per_json_refused_at(struct per_types *types, size_t place, const uint8_t *text, size_t length, uint8_t *path,
                             size_t capacity, size_t *written, size_t *octet);

/** The word that names a type in docs/TYPES.md, by its number, as "integer"; empty where there is no such type. */
struct per_name per_type_name(uint32_t type);

/** The name of a refusal, by its code, as "OutOfMemory"; empty where it is the code of none. */
struct per_name per_refusal_name(uint32_t code);

#ifdef __cplusplus
}
#endif

#endif
