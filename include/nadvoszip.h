/* The C interface of nadvoszip, an instruction scheduler for the order core.
 *
 * Link with libhost.a, which `host/build` writes to target/staticlib/. No call allocates, keeps a pointer or
 * fails in any other way than by the number that it answers. A slice is a pointer and its length in elements; it
 * must point at that many numbers, and where its length is 0 nothing is read or written through it.
 */
#ifndef NADVOSZIP_H
#define NADVOSZIP_H

#include <stddef.h>
#include <stdint.h>

#ifdef __cplusplus
extern "C" {
#endif

/* Unpacks one instruction word.
 *
 * Answers 0 where the word is an instruction. The front of `fields` then holds kind, width, d, a, b, home and imm,
 * in this order, as many of the seven as `length` has room for; what is behind them stays as it was.
 * Otherwise answers why the word is refused, by the first rule that it breaks, and writes nothing:
 *   11  the kind is above 19
 *   12  the width is above 2, or not 0 in a kind without one
 *   13  a register that the kind uses is outside its range
 *   14  an unused field or a zero bit is not 0
 */
uint64_t nadvoszip_unpack(uint64_t word, uint64_t *fields, size_t length);

#ifdef __cplusplus
}
#endif

#endif
