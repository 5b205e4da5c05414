/* The card for programs in other languages: the function of crates/embedded/out/libembedded.a, an archive for x86-64 Linux
   that `rt lib` proves and writes in crates/embedded. */
#ifndef AMBERDRONE_H
#define AMBERDRONE_H

#include <stddef.h>
#include <stdint.h>

#ifdef __cplusplus
extern "C" {
#endif

/* Plays the lines of a script on a new bench and writes their answers, each with its LF. README has the lines, under "Lines of
   the bench".

   script, script_length   the script: lines, each ended by LF. A last line without LF is not played.
   out, out_length         where the answers go, from its first character on.
   read                    is set to the number of characters of the script that the answers answer, LFs included.
   result                  the number of characters of the answers.

   Where not all answers fit into out, the leading ones are written, each of them whole; *read and the result count just
   those. What stands in out behind the answers stays as it was, and the script is not changed.

   A call keeps nothing for the next: each starts with the same new card, so a script whose answers did not fit is played
   again from its start, with more room. An answer has at most 1,025 characters, its LF included.

   All three belong to the caller, before, during and after the call: the function keeps no pointer, allocates nothing, and
   reads and writes nothing else. So it may be called from several threads, each with an out and a read of its own.

   No pointer may be NULL, also where a length is 0. out and *read overlap neither each other nor the script. These are the
   caller's to see to; there is no script, however long or broken, that the function does not answer. */
size_t amberdrone_bench(const uint8_t *script, size_t script_length, uint8_t *out, size_t out_length, size_t *read);

#ifdef __cplusplus
}
#endif

#endif
