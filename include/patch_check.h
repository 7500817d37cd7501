/* The check of a patch text for programs in C and C++. docs/PATCH_TEXT.md has all rules of a text. */
#ifndef PATCH_CHECK_H
#define PATCH_CHECK_H

#include <stddef.h>
#include <stdint.h>

/* The two parts of an answer other than 0; of the answer 0 both are 0. */
#define PATCH_REFUSAL(answer) ((uint32_t)(answer) >> 16)
#define PATCH_LINE(answer) ((uint32_t)(answer) & UINT32_C(0xFFFF))

#ifdef __cplusplus
extern "C" {
#endif

/* Checks the `length` bytes at `text` as one patch text.
 *
 * The answer is 0 if the text is accepted, otherwise refusal * 65,536 + line for the first fault found. The refusals:
 *
 *   1  the text is empty, longer than 8,192 bytes, or does not end in a line feed
 *   2  a line is empty or its letter may not stand there, a line follows the G frame, or there is no G frame
 *   3  a frame has too few or too many digits, or a byte that is none of 0 to 9 and A to F
 *   4  a unit number is out of order or not below the count, or that unit's taps allow no such tap frame here
 *   5  a figure is out of its range
 *   6  the source of a tap is not there
 *
 * No other refusal is answered. Lines are counted from 1. Refusal 1 is about the whole text and has line 0; a text that
 * ends before its G frame has the line after its last one. A line is always below 65,536, so the two parts never mix.
 *
 * What the call does: it reads those `length` bytes and nothing else of the caller's memory. It writes nothing, keeps
 * no pointer and allocates nothing. It returns for every text, and the answer depends on the bytes alone.
 *
 * What the caller does: the bytes are the caller's before, during and after the call, and stay unchanged while it runs.
 * The text needs no zero byte at its end, and zero bytes in it are bytes like others. `text` must be a valid pointer,
 * not null, even where `length` is 0.
 *
 * There is no state, so several threads may call at once, on the same bytes too.
 */
uint32_t patch_check(const uint8_t *text, size_t length);

#ifdef __cplusplus
}
#endif

#endif
