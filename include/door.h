/*
 * The ticket engine's calls for C.
 *
 * Build the library with `rt lib` in crates/door, and link crates/door/out/libdoor.a
 * and the kit's c/liblibc_c.a, in this order.
 *
 * Rows. A row is a pointer and a count of items. No pointer may be null, not even
 * with the count 0; `out` must not overlap another row; and rows must stay as they
 * are through the call. Nothing else is asked: any numbers and bytes may be given.
 *
 * Forms, by number:
 *
 *     number  values                                       coefficients  bytes
 *     0       tower of one extension at 4093                          2      3
 *     1       tower of one extension at 1021                          2      3
 *     2       tower of three extensions at 4093                       8     12
 *     3       tower of three extensions at 1021                       8     10
 *     4       polynomial basis at 4093                                8     12
 *     5       polynomial basis at 1021                                8     10
 *
 * Coefficients stand by power of X in every form, power 0 first.
 *
 * Answers. A call answers 0 when it is done. Else it writes nothing and answers its
 * fault (docs/REFUSALS.md): the refusal in the lowest byte, the part in the byte
 * above it, the place in the bits above that. It answers WZ_NO_SUCH_FORM, which is
 * no fault, where no form has the number.
 */
#ifndef DOOR_H
#define DOOR_H

#include <stddef.h>
#include <stdint.h>

#ifdef __cplusplus
extern "C" {
#endif

#define WZ_NO_SUCH_FORM UINT64_MAX
#define WZ_NO_MEMORY UINT64_MAX

#define WZ_REFUSAL(answer) ((uint8_t)(answer))
#define WZ_PART(answer) ((uint8_t)((answer) >> 8))
#define WZ_PLACE(answer) ((uint64_t)(answer) >> 16)

/* Writes the product of two values. Refused, in this order: 3 and 1 for a, 3 and 1
 * for b, 3 where out_len is not the count of coefficients. */
uint64_t wz_product(uint8_t form, const uint16_t *a, size_t a_len,
                    const uint16_t *b, size_t b_len,
                    uint16_t *out, size_t out_len);

/* Writes the inverse of a value. Refused: 3 and 1 for a, 2 for zero, 3 for out_len. */
uint64_t wz_inverse(uint8_t form, const uint16_t *a, size_t a_len,
                    uint16_t *out, size_t out_len);

/* Writes the bytes that encode a value. Refused: 3 and 1 for a, 3 where out_len is
 * not the count of bytes. */
uint64_t wz_encode(uint8_t form, const uint16_t *a, size_t a_len,
                   uint8_t *out, size_t out_len);

/* Writes the coefficients of the value that bytes encode. Refused: 3, 1 and 4 for
 * the bytes, 3 for out_len. */
uint64_t wz_decode(uint8_t form, const uint8_t *bytes, size_t bytes_len,
                   uint16_t *out, size_t out_len);

/* Writes the encoded tag of a body under an encoded key and an encoded pad. Refused:
 * 3, 1 and 4 for the key (part 1), the same for the pad (part 2), 5 for a body of
 * fewer than 2 or more than 440 bytes, 3 for out_len. */
uint64_t wz_tag(uint8_t form, const uint8_t *key, size_t key_len,
                const uint8_t *pad, size_t pad_len,
                const uint8_t *body, size_t body_len,
                uint8_t *out, size_t out_len);

/* Plays a whole shift: input is what the program `shift` reads, and the text what it
 * writes, faults of the input included. Answers how many bytes the text has. If
 * they fit out_len, the text stands first in out; else nothing is written. Answers
 * WZ_NO_MEMORY, with nothing written, where malloc gives too little. */
uint64_t wz_shift(const uint8_t *input, size_t input_len,
                  uint8_t *out, size_t out_len);

#ifdef __cplusplus
}
#endif

#endif
