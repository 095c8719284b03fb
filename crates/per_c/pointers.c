/*
 * The calls of per.h that have pointers, as the installed library has them: where one is NULL that may not be, they
 * refuse it by PER_NULL_POINTER, and else they are the proved calls, which the Makefile renames to proved_per_*.
 */
#include "per.h"

/* Whether a pointer to so many octets is NULL that may not be. */
static int lacks(const void *octets, size_t count) {
    return !octets && count != 0;
}

/* Declares a proved call, and defines the call of per.h, which refuses where a pointer is NULL, and else makes it. */
#define CALL(name, parameters, arguments, is_null)                                                                     \
    uint32_t proved_##name parameters;                                                                                 \
    uint32_t name parameters {                                                                                         \
        return (is_null) ? PER_NULL_POINTER : proved_##name arguments;                                                 \
    }

/* Calls that put what they answer to octets, by a type that is built in, and by the type at a place of a table. */
#define PUTTING(name)                                                                                                  \
    CALL(name, (uint32_t options, uint32_t type, const uint8_t *octets, size_t count, uint8_t *out, size_t capacity,   \
                size_t *written),                                                                                      \
         (options, type, octets, count, out, capacity, written),                                                       \
         lacks(octets, count) || lacks(out, capacity) || !written)
#define PUTTING_BY(name)                                                                                               \
    CALL(name, (struct per_types *types, uint32_t options, size_t place, const uint8_t *octets, size_t count,          \
                uint8_t *out, size_t capacity, size_t *written),                                                       \
         (types, options, place, octets, count, out, capacity, written),                                               \
         !types || lacks(octets, count) || lacks(out, capacity) || !written)

CALL(per_check, (uint32_t options, uint32_t type, const uint8_t *octets, size_t count), (options, type, octets, count),
     lacks(octets, count))
PUTTING(per_recode)
PUTTING(per_json)
CALL(per_load, (const uint8_t *text, size_t length, struct per_types *types, size_t *line), (text, length, types, line),
     lacks(text, length) || !types || !line)
CALL(per_share, (struct per_types *types, struct per_types *other), (types, other), !types || !other)
CALL(per_find, (struct per_types *types, const uint8_t *name, size_t length, size_t *place),
     (types, name, length, place), !types || lacks(name, length) || !place)
CALL(per_check_by, (struct per_types *types, uint32_t options, size_t place, const uint8_t *octets, size_t count),
     (types, options, place, octets, count), !types || lacks(octets, count))
PUTTING_BY(per_recode_by)
CALL(per_first_length, (struct per_types *types, uint32_t options, size_t place, const uint8_t *octets, size_t count,
                        size_t *size),
     (types, options, place, octets, count, size), !types || lacks(octets, count) || !size)
PUTTING_BY(per_to_json)
PUTTING_BY(per_from_json)
CALL(per_refused_at, (struct per_types *types, uint32_t options, size_t place, const uint8_t *octets, size_t count,
                      uint8_t *path, size_t capacity, size_t *written, struct per_bit *bit),
     (types, options, place, octets, count, path, capacity, written, bit),
     !types || lacks(octets, count) || lacks(path, capacity) || !written || !bit)
CALL(per_json_refused_at, (struct per_types *types, size_t place, const uint8_t *text, size_t length, uint8_t *path,
                           size_t capacity, size_t *written, size_t *octet),
     (types, place, text, length, path, capacity, written, octet),
     !types || lacks(text, length) || lacks(path, capacity) || !written || !octet)

void proved_per_free(struct per_types *types);

void per_free(struct per_types *types) {
    if (types)
        proved_per_free(types);
}

struct per_name proved_per_refusal_name(uint32_t code);

struct per_name per_refusal_name(uint32_t code) {
    static const struct per_name null_pointer = {"NullPointer"};
    return code == PER_NULL_POINTER ? null_pointer : proved_per_refusal_name(code);
}
