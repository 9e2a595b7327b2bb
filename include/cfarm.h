/* cfarm.h: the commands of cfarm for programs in C.

   Each function answers what the command of its name answers, over bytes in memory: it gives the command's status, and puts what the
   command writes, and behind that the line that it tells on standard error, into a block of memory. Proved of each: these are what the
   command answers, unless memory is refused.

   What a caller owes
     - A pointer and the length behind it name so many readable bytes, which nobody changes during the call. Where the length is 0 the
       pointer may be null. A length above 2^63 - 1 is answered as memory that is refused.
     - `answer` points to a cfarm_answer that begins as CFARM_ANSWER, or that an earlier call filled; nobody else uses it during the call.
     - malloc, realloc and free of the program come from one allocator. No call is made from a signal handler, nor in a child that a
       process with threads has forked.

   What a caller gets
     - The status, as of the command: 0 done; 1 refused; 2 no schedule, or no such form; 5 the program went wrong, or did not end as
       expected; 6 its bound was reached; 7 no memory. Any bytes are answered, and where the status is not 0 a line is told.
     - In `answer` the bytes: the first `written` of `length` are what the command writes, the others the line that it tells, with its
       end. Where memory is refused nothing is written, and the line is `memory`, or none where there is no memory for it.
     - The bytes are the caller's, until it gives them to cfarm_free. A later call with the same `answer` does not free them.

   No function starts a thread, opens a file or keeps a state; calls may be made at once from many threads. */
#ifndef CFARM_H
#define CFARM_H

#include <stddef.h>
#include <stdint.h>

#ifdef __cplusplus
extern "C" {
#endif

struct cfarm_answer {
    const uint8_t *bytes;
    size_t length;
    size_t written;
};

#define CFARM_ANSWER { (const uint8_t *)"", 0, 0 }

/* The forms that cfarm_emit writes. Any other number is told as `form`, with status 2. */
enum { CFARM_CMINOR, CFARM_RTL, CFARM_LTL, CFARM_LINEAR, CFARM_BUNDLE };

/* check: how many functions and globals the C text has, or its first fault. */
uint32_t cfarm_check(const uint8_t *text, size_t length, struct cfarm_answer *answer);

/* interpret --depth DEPTH (100000 for the command's own): what the program of the C text writes, and how it closes. */
uint32_t cfarm_interpret(const uint8_t *text, size_t length, uint32_t depth, struct cfarm_answer *answer);

/* exec --limit LIMIT (1000000 for the command's own), and where `ends` is not 0 --expect VALUE: what the linked program writes, and how
   it closes. */
uint32_t cfarm_exec(const uint8_t *program, size_t length, uint64_t limit, uint32_t ends, int32_t value, struct cfarm_answer *answer);

/* emit: the program of the C text in a form; where `drawn` is not 0 with --seed SEED. */
uint32_t cfarm_emit(const uint8_t *text, size_t length, uint32_t form, uint32_t drawn, uint64_t seed, struct cfarm_answer *answer);

/* show: the text of a program or of an offer. */
uint32_t cfarm_show(const uint8_t *program, size_t length, struct cfarm_answer *answer);

/* verify: whether the bundle proves that the program means what the C text means. Lines call the two files `program` and `bundle`. */
uint32_t cfarm_verify(const uint8_t *text, size_t text_length, const uint8_t *program, size_t program_length, const uint8_t *bundle,
                      size_t bundle_length, struct cfarm_answer *answer);

/* sim: what a schedule shows; where `drawing` is not 0 with --svg. */
uint32_t cfarm_simulate(const uint8_t *schedule, size_t length, uint32_t drawing, struct cfarm_answer *answer);

/* --version: two lines, the program's name with its version, and the logic of its proofs. */
uint32_t cfarm_version(struct cfarm_answer *answer);

/* Frees a block, as free does. A program that is not in C calls it for the bytes of an answer whose length is not 0. */
void rattle_dealloc(const uint8_t *bytes);

/* Gives the bytes of an answer back, with their length. Where the length is 0 there is nothing to give back, and nothing is done. Each
   block is given back once, and nobody looks at it any more. */
static inline void cfarm_free(const uint8_t *bytes, size_t length) {
    if (length != 0) rattle_dealloc(bytes);
}

#ifdef __cplusplus
}
#endif

#endif
