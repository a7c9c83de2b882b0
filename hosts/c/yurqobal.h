/* The answer call of Yurqobal for hosts written in C.
 *
 * Build the static library with `tools/build library` (target/staticlib/libanswer.a) and link with it; nothing else is needed.
 *
 *   int64_t n = yurqobal_answer(text, text_length, out, out_length);
 *
 * `text` is a DIMACS CNF text of at most 32,768 bytes over at most 64 atoms and 1,024 clauses. The call decides it and prints the
 * answer into `out`: the lines "s SATISFIABLE", "s UNSATISFIABLE" or "s UNKNOWN"; if satisfiable, "v" with the literals of atoms 1 to N
 * and 0; then "r" with given entries, derivations, settings, and the fill of its 1,024 places in percent. A text that is refused prints
 * "e", the number of the refusal and its place (a byte of the text, from 0). Lines end in the byte 0A hex; no byte 0 is written after them.
 *
 * It returns the printed length, at most 512, or minus the number of a refusal: -12 where out_length is below 512 (then nothing is
 * written). Bytes of `out` beyond the printed length stay as they were. It takes at most 2,000,000 steps, so it always returns.
 *
 * What the caller must see to, since no proof can: `text` points to text_length readable bytes and `out` to out_length writable ones
 * (both may be any valid non-null pointer where the length is 0), the two do not overlap, nobody writes to either during the call, no
 * length exceeds INT64_MAX, and some 64 KiB of stack are free (the places are a local array; there is no heap and no global state, so
 * calls from several threads on buffers of their own do not meet).
 */
#ifndef YURQOBAL_H
#define YURQOBAL_H

#include <stddef.h>
#include <stdint.h>

#ifdef __cplusplus
extern "C" {
#endif

/* The shortest buffer that the call takes. */
#define YURQOBAL_ANSWER_BYTES 512

int64_t yurqobal_answer(const uint8_t *text, size_t text_length, uint8_t *out, size_t out_length);

#ifdef __cplusplus
}
#endif

#endif
