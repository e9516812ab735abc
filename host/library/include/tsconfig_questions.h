/*
 * The questions about a book of tsconfig records, as proved C functions: link libquestions.a, which `host/staticlib.sh` makes.
 *
 * A book is two slices. `commands` has the records, at most 32,768 bytes; `text` has the bytes that their strings are parts of, at most
 * 65,535. Every slice is an address and a length, and may hold any bytes: what is no book, no path or no specifier is refused. No address
 * may be NULL, not even that of a slice of length 0, and `out` overlaps none of the others. The functions allocate nothing, keep nothing
 * after they return, may be called from several threads at once, and the deepest calls found need less than 128 KiB of stack.
 *
 * Where `number` is not 0 the question is refused, and `out` has its old bytes:
 *
 *   number  place                  what it means
 *   1       0                      a slice of the book is over its size
 *   2       a command's offset     an unknown byte, operands cut short, or a record left open (place: the length of `commands`)
 *   3       a command's offset     out of order, repeated, or an id or value out of range
 *   4       a command's offset     a string breaks its rule or leaves the text
 *   5       a command's offset     one too many
 *   6       a command's offset     a path or a key given before, or a record's path above or below another's
 *   7       0                      an asked path is not normal or holds `?` or `#`, or a path or the specifier breaks the string rule
 *   8       a record               it extends or references a config that is not in the book; 65,535: the asked path means none
 *   9       a record               it is met again among the configs that it extends
 *   10      a record               it references itself
 *   11      a record               it has an empty extends entry
 *   12      a record               it has an extends entry that starts with neither `/` nor `.`
 *   13      the bytes needed       the answer is longer than `out`
 */
#ifndef TSCONFIG_QUESTIONS_H
#define TSCONFIG_QUESTIONS_H

#include <stddef.h>
#include <stdint.h>

#ifdef __cplusplus
extern "C" {
#endif

/* What stands for no record: the place of 8 where the asked path means no config, and both of owner's numbers where nothing owns the path. */
#define TSCONFIG_NONE 65535

/* A refusal's number and place, or 0 and 0 with the answer's two numbers and the bytes written to `out`. */
typedef struct tsconfig_numbers {
    uint64_t number;
    uint64_t place;
    uint64_t first;
    uint64_t second;
    uint64_t bytes;
} tsconfig_numbers;

/*
 * The config that a path means, merged with what it extends and built. `first` is its record, `second` how many merges were made. `out` gets
 * lines, each ended by a newline: a name alone for a list that is present and empty, else a name, `=` and a value.
 */
tsconfig_numbers tsconfig_build(
    const uint8_t *commands, size_t commands_len,
    const uint8_t *text, size_t text_len,
    const uint8_t *path, size_t path_len,
    uint8_t *out, size_t out_len);

/* The config that owns a file: `first` is the record found, `second` its solution; both are TSCONFIG_NONE where nothing owns it. */
tsconfig_numbers tsconfig_owner(
    const uint8_t *commands, size_t commands_len,
    const uint8_t *text, size_t text_len,
    const uint8_t *path, size_t path_len);

/*
 * The paths that a specifier is mapped to by the config that `path` means, in order. `first` is how many there are. `out` gets each path as its
 * length in two bytes, low byte first, and its bytes.
 */
tsconfig_numbers tsconfig_candidates(
    const uint8_t *commands, size_t commands_len,
    const uint8_t *text, size_t text_len,
    const uint8_t *path, size_t path_len,
    const uint8_t *specifier, size_t specifier_len,
    uint8_t *out, size_t out_len);

/*
 * The paths that would be tested, in order, for a specifier in a file of `directory`, as if that directory alone existed. `first` is how many
 * there are; `out` gets them as tsconfig_candidates writes its own.
 */
tsconfig_numbers tsconfig_tries(
    const uint8_t *commands, size_t commands_len,
    const uint8_t *text, size_t text_len,
    const uint8_t *path, size_t path_len,
    const uint8_t *directory, size_t directory_len,
    const uint8_t *specifier, size_t specifier_len,
    uint8_t *out, size_t out_len);

#ifdef __cplusplus
}
#endif

#endif
