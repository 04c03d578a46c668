/*
 * The scope-dependency stage, for callers in C and C++ on x86-64.
 *
 * Five operations take a job and an out buffer: the answer (the returned paths),
 * the sheet (all nodes of paths, and each block's set of them), both also by the strict
 * propagation, and the thin job (the job without repeated paths). docs/FORMAT.md has the
 * bytes of all of them.
 *
 * Link with libstage.a, which `bin/library` proves and writes to target/staticlib.
 */
#ifndef SCOPE_DEPS_H
#define SCOPE_DEPS_H

#include <stddef.h>
#include <stdint.h>

#ifdef __cplusplus
extern "C" {
#endif

/* For answers and sheets: an out buffer of fewer bytes is refused by 1, and none is longer. */
#define SCOPE_DEPS_OUT_BYTES 24576

/* The same for a thin job. */
#define SCOPE_DEPS_THIN_OUT_BYTES 32768

/* A job of more bytes is refused by 2. */
#define SCOPE_DEPS_JOB_BYTES 32768

/* The refusals, named as in the stage's own code. Each is returned as its negative. */
enum scope_deps_refusal {
  SCOPE_DEPS_SHORT_BUFFER = 1,  /* the out buffer has fewer than 24,576 bytes, or fewer than 32,768 where a thin job is to be written */
  SCOPE_DEPS_LONG_JOB = 2,      /* the job has more than 32,768 bytes */
  SCOPE_DEPS_MISSING_BYTE = 3,  /* a field needs a byte past the job's end */
  SCOPE_DEPS_WRONG_MARK = 4,    /* another mark stands where one is due */
  SCOPE_DEPS_OUT_OF_RANGE = 5,  /* a field's value is outside its range */
  SCOPE_DEPS_EXTRA_BYTE = 6,    /* a byte follows the last candidate */
  SCOPE_DEPS_REPEATED_ID = 7,   /* two blocks have one id, or one block names a predecessor twice */
  SCOPE_DEPS_UNKNOWN_BLOCK = 8, /* a predecessor, or the scope block, is no block of the job */
  SCOPE_DEPS_MANY_NODES = 9,    /* the registry has more than 512 nodes when propagation ends */
  SCOPE_DEPS_LARGEST_START = 10 /* a range start is 4,294,967,295, where start + 1 would not fit */
};

/*
 * Writes the answer of `job` to the start of `out`.
 *
 * Returns the number of bytes written, or minus the number of the refusal. Bytes
 * of `out` beyond that number stay as they were; at a refusal all of them do.
 *
 * The job may hold any bytes, and either length may be any number, 0 included.
 * What the caller owes is what the two pointers say:
 * - neither is NULL, not even where its length is 0;
 * - `job` points to `job_len` bytes that can be read, `out` to `out_len` bytes
 *   that can be read and written;
 * - the two do not overlap, and nothing else writes to either during the call.
 *
 * The call takes no memory but stack, at most 64 KiB as measured, and keeps nothing after it
 * returns. So calls on different buffers may run at the same time.
 */
int64_t scope_deps_answer(const uint8_t *job, size_t job_len, uint8_t *out, size_t out_len);

/*
 * Writes the sheet of `job`, on the same terms. It is refused where the answer is. The last field
 * of its head, the u16 at byte 8, says how many nodes there were before the first round; the nodes
 * from that number on were added by reduction.
 */
int64_t scope_deps_sheet(const uint8_t *job, size_t job_len, uint8_t *out, size_t out_len);

/*
 * Writes the answer of `job` by the strict propagation, on the same terms. A block then takes
 * paths over from the blocks before it, or after it, only where there are such and all of them
 * are finished. So no returned path throws where the job has loops, either, on any finite run
 * from a block with no predecessor, by way of the scope block, to a block with no successor,
 * where what the run's blocks assume is there. Where the job has no loops the bytes are those of
 * scope_deps_answer. With loops a returned path may be shorter, or where optional chains are
 * assumed longer.
 *
 * Refusal 9 counts the nodes of the strict propagation, which may be more or fewer, so that each
 * of the two may refuse a job that the other answers.
 */
int64_t scope_deps_strict_answer(const uint8_t *job, size_t job_len, uint8_t *out, size_t out_len);

/*
 * Writes the sheet by the strict propagation, on the same terms. It is refused where the strict
 * answer is.
 */
int64_t scope_deps_strict_sheet(const uint8_t *job, size_t job_len, uint8_t *out, size_t out_len);

/*
 * Writes the thin job of `job`, on the same terms: the same job, but in each block, and among
 * the candidates, without each path whose identifier and entries (optional marks counted, spans
 * and reactive not) an earlier path of the same list has, which stays as it is. Raw reads are
 * compared with nothing, and all stay. Its answer and its sheet are those of `job`, by either
 * propagation, or it is refused by 9 as `job` is. The thin job of a thin job is that job.
 *
 * Refusal 1 is that of a buffer shorter than SCOPE_DEPS_THIN_OUT_BYTES, and 9 does not occur.
 */
int64_t scope_deps_thin(const uint8_t *job, size_t job_len, uint8_t *out, size_t out_len);

#ifdef __cplusplus
}
#endif

#endif
