/*
 * Jigsorrel for firmware: the static library libfirmware.a.
 *
 * No function allocates, and none keeps any state between calls: each opens what it needs on the stack and lets go of it
 * before it returns. They may be called from several threads at once. None asks anything of its arguments but that each
 * pointer leads to as many bytes as the length after it says; where a length is 0 the pointer is not followed, but must
 * not be null. Nothing is read or written beyond these bytes, and nothing after the call.
 *
 * What jobs, lines and refusals are: docs/jobs.md and docs/refusals.md.
 */
#ifndef JIGSORREL_H
#define JIGSORREL_H

#include <stddef.h>
#include <stdint.h>

#ifdef __cplusplus
extern "C" {
#endif

/* What jigsorrel_run_job answers where the text buffer is too short. */
#define JIGSORREL_TOO_SHORT UINT64_MAX

/* The shortest text buffer for a job of so many bytes: 16 for each, and 64 at least. */
#define JIGSORREL_TEXT_ROOM(job_len) ((job_len) < 4 ? (size_t)64 : 16 * (size_t)(job_len))

/* The two parts of a verdict: the number of the refusal, 0 where the job is accepted, and the offset that it names. */
#define JIGSORREL_REFUSAL(verdict) ((unsigned)((verdict) >> 32))
#define JIGSORREL_OFFSET(verdict) ((uint32_t)(verdict))

/*
 * Judges a whole job without running it.
 *
 * Answers 0 where the job is accepted, else the number of the refusal (10 to 14) times 2^32 plus the offset that it
 * names. Needs less than 1 KB of stack.
 */
uint64_t jigsorrel_verdict(const uint8_t *job, size_t job_len);

/*
 * Runs a whole job on a new plan with room for 256 blocks, and writes what planrun prints to the front of `text`: a line
 * for each field, or one line where the verdict refuses the job, of which nothing is run then.
 *
 * Answers the length of the text. The text is not ended by a zero byte, and the bytes after it stay as they were. Where
 * text_len is less than JIGSORREL_TEXT_ROOM(job_len), it answers JIGSORREL_TOO_SHORT, runs nothing and writes nothing.
 * The job and the text must not overlap.
 *
 * The plan lies on the stack: 256 rows of 92 bytes, less than 32 KB in all with what the calls below need (26 KB were
 * measured on x86-64).
 */
uint64_t jigsorrel_run_job(const uint8_t *job, size_t job_len, uint8_t *text, size_t text_len);

/*
 * For tests.
 *
 * These three open a plan, make `count` calls that are drawn from the seed, and tell what came of them. The first `size`
 * calls are inserts that fill the plan; those after them are by `mix`: 1 replacements, 2 deletions and insertions,
 * 3 overrides of 64 blocks, each in turn with a question for a junction's speed; any other number, every call there is,
 * some of them refused.
 *
 * A plan over a tree has 4,096 rows and takes less than 400 KB of stack; one over a flat list has 256 slots and takes
 * less than 16 KB.
 */

/* The digest of the answers of a plan over a tree. */
uint64_t jigsorrel_calls_on_tree(uint64_t seed, uint16_t size, uint8_t mix, uint32_t count);

/* The digest of the answers of a plan over a flat list. */
uint64_t jigsorrel_calls_on_list(uint64_t seed, uint16_t size, uint8_t mix, uint32_t count);

/* The depth of the tree after the same calls, 0 where it is empty. */
uint8_t jigsorrel_depth_after(uint64_t seed, uint16_t size, uint8_t mix, uint32_t count);

#ifdef __cplusplus
}
#endif

#endif
