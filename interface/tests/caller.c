/* A caller in C: answers, sheets, a thin job and refusals, held to the bytes of document 01, of a
   loop to those of both propagations, of a job to which reduction adds a node, and of one with raw
   reads. */
#include "../scope_deps.h"

#include <stdio.h>
#include <string.h>

/* One block, 7, which assumes the path 1; the candidate 1.10. */
static const uint8_t job[] = {
    'H', 'D', 1, 0, 1, 0, 7, 0, 0, 0,
    'B', 'L', 7, 0, 0, 0, 0, 1, 0,
    'P', 'A', 1, 0, 0, 0, 1, 0, 0, 0, 0, 0,
    'C', 'A', 1, 0, 0, 0, 1, 5, 0, 0, 0, 1, 0, 0, 10, 0, 0, 0, 0, 0, 0, 0, 6, 0, 0, 0,
};

static const uint8_t answer[] = {
    'A', 'N', 1, 0, 1, 1,
    'D', 'E', 1, 0, 0, 0, 1, 6, 0, 0, 0, 1, 0, 0, 10, 0, 0, 0, 0, 0, 0, 0, 6, 0, 0, 0,
};

/* The same job with the path 1 a second time, not reactive and with a span, and with the candidate
   1.10 a second time, with other spans. */
static const uint8_t repeating[] = {
    'H', 'D', 1, 0, 2, 0, 7, 0, 0, 0,
    'B', 'L', 7, 0, 0, 0, 0, 2, 0,
    'P', 'A', 1, 0, 0, 0, 1, 0, 0, 0, 0, 0,
    'P', 'A', 1, 0, 0, 0, 0, 9, 0, 0, 0, 0,
    'C', 'A', 1, 0, 0, 0, 1, 5, 0, 0, 0, 1, 0, 0, 10, 0, 0, 0, 0, 0, 0, 0, 6, 0, 0, 0,
    'C', 'A', 1, 0, 0, 0, 1, 7, 0, 0, 0, 1, 0, 0, 10, 0, 0, 0, 0, 0, 0, 0, 8, 0, 0, 0,
};

/* Block 0, which assumes the path 1, and block 1, which comes after itself and after 0; the
   candidate 1.10 in block 1. */
static const uint8_t loop[] = {
    'H', 'D', 2, 0, 1, 0, 1, 0, 0, 0,
    'B', 'L', 0, 0, 0, 0, 0, 1, 0,
    'P', 'A', 1, 0, 0, 0, 1, 0, 0, 0, 0, 0,
    'B', 'L', 1, 0, 0, 0, 2, 0, 0, 1, 0, 0, 0, 0, 0, 0, 0,
    'C', 'A', 1, 0, 0, 0, 1, 5, 0, 0, 0, 1, 0, 0, 10, 0, 0, 0, 0, 0, 0, 0, 6, 0, 0, 0,
};

/* The answer of document 01 after two rounds. */
static const uint8_t loop_answer[] = {
    'A', 'N', 1, 0, 2, 1,
    'D', 'E', 1, 0, 0, 0, 1, 6, 0, 0, 0, 1, 0, 0, 10, 0, 0, 0, 0, 0, 0, 0, 6, 0, 0, 0,
};

/* Nothing joins block 1, so the path is cut at its root, after one round. */
static const uint8_t loop_strict_answer[] = {
    'A', 'N', 1, 0, 1, 1,
    'D', 'E', 1, 0, 0, 0, 1, 5, 0, 0, 0, 0,
};

/* A head of 10 bytes, a node of 23, and a set of 70 bytes in which node 0 is. */
enum { SHEET_BYTES = 10 + 23 + 70, SHEET_SET = 10 + 23 + 6 };

/* One block, 7, which assumes the paths 1 and 1?.10; no candidate. */
static const uint8_t optional[] = {
    'H', 'D', 1, 0, 0, 0, 7, 0, 0, 0,
    'B', 'L', 7, 0, 0, 0, 0, 2, 0,
    'P', 'A', 1, 0, 0, 0, 0, 0, 0, 0, 0, 0,
    'P', 'A', 1, 0, 0, 0, 0, 0, 0, 0, 0, 1, 1, 0, 10, 0, 0, 0, 0, 0, 0, 0, 0, 0, 0, 0,
};

/* The head of its sheet: 3 nodes, 1 block, 2 rounds, settled, 2 nodes before the first round. */
static const uint8_t optional_head[] = {'S', 'H', 3, 0, 1, 0, 2, 1, 2, 0};

/* One block, 7, which reads the path 1 at instruction 3, where it can no longer change: its range
   is 0 to 1; and the path 2 at instruction 3, where it can: its range is 0 to 2, and its scope 0 to
   9. The candidates 1.10 and 2.10. */
static const uint8_t reading[] = {
    'H', 'D', 1, 0, 2, 0, 7, 0, 0, 0,
    'B', 'L', 7, 0, 0, 0, 0, 0, 2,
    'R', 'D', 3, 0, 0, 0, 0, 0, 0, 0, 1, 0, 0, 0, 1, 0, 0, 0, 0, 9, 0, 0, 0, 0,
    1, 0, 0, 0, 1, 0, 0, 0, 0, 0,
    'R', 'D', 3, 0, 0, 0, 0, 0, 0, 0, 2, 0, 0, 0, 1, 0, 0, 0, 0, 9, 0, 0, 0, 0,
    2, 0, 0, 0, 1, 0, 0, 0, 0, 0,
    'C', 'A', 1, 0, 0, 0, 1, 5, 0, 0, 0, 1, 0, 0, 10, 0, 0, 0, 0, 0, 0, 0, 6, 0, 0, 0,
    'C', 'A', 2, 0, 0, 0, 1, 7, 0, 0, 0, 1, 0, 0, 10, 0, 0, 0, 0, 0, 0, 0, 8, 0, 0, 0,
};

/* Where the range of its second read starts, and where that read's last flag stands. */
enum { SECOND_READ = 10 + 9 + 34, SECOND_START = SECOND_READ + 6, SECOND_IMMUTABLE = SECOND_READ + 23 };

/* The first candidate is whole, and the second is cut at its root. */
static const uint8_t reading_answer[] = {
    'A', 'N', 2, 0, 1, 1,
    'D', 'E', 1, 0, 0, 0, 1, 6, 0, 0, 0, 1, 0, 0, 10, 0, 0, 0, 0, 0, 0, 0, 6, 0, 0, 0,
    'D', 'E', 2, 0, 0, 0, 1, 7, 0, 0, 0, 0,
};

/* With a second set, of block 1. */
enum { LOOP_SHEET_BYTES = SHEET_BYTES + 70, LOOP_SHEET_SET = SHEET_SET + 70 };

static uint8_t out[SCOPE_DEPS_THIN_OUT_BYTES];

static int failures;

static void expect(int holds, const char *what) {
  if (!holds) {
    fprintf(stderr, "caller.c: not so: %s\n", what);
    failures += 1;
  }
}

/* Whether all bytes of `out` from this one on are as they were. */
static int untouched_from(size_t start) {
  for (size_t i = start; i < sizeof out; i++) {
    if (out[i] != 0xA5) {
      return 0;
    }
  }
  return 1;
}

/* Reduction adds the node of 1.10, which takes the place of 1?.10 in the block's set. */
static void added_nodes(void) {
  enum { BYTES = 10 + 3 * 23 + 70, SET = 10 + 3 * 23 + 6 };
  memset(out, 0xA5, sizeof out);
  expect(scope_deps_sheet(optional, sizeof optional, out, sizeof out) == BYTES, "the sheet with an added node has its length");
  expect(memcmp(out, optional_head, sizeof optional_head) == 0, "its head counts the nodes, in the end and before the first round");
  expect(out[SET] == 5, "the block's set has 1 and 1.10");
  expect(untouched_from(BYTES), "bytes beyond the sheet with an added node are as they were");
  expect(scope_deps_strict_sheet(optional, sizeof optional, out, sizeof out) == BYTES, "its strict sheet has the same length");
  expect(memcmp(out, optional_head, sizeof optional_head) == 0, "and the same head");
}

/* A raw read counts where it is kept, and a range that starts at the largest number is refused. */
static void raw_reads(void) {
  uint8_t changed[sizeof reading];
  const size_t longer = sizeof reading_answer + 14;
  memset(out, 0xA5, sizeof out);
  expect(scope_deps_answer(reading, sizeof reading, out, sizeof out) == (int64_t)sizeof reading_answer,
         "the answer with raw reads has its length");
  expect(memcmp(out, reading_answer, sizeof reading_answer) == 0, "the read that is kept counts, and the other does not");
  expect(untouched_from(sizeof reading_answer), "bytes beyond the answer with raw reads are as they were");
  expect(scope_deps_thin(reading, sizeof reading, out, sizeof out) == (int64_t)sizeof reading, "the thin job has both reads");
  expect(memcmp(out, reading, sizeof reading) == 0, "as they were");

  memcpy(changed, reading, sizeof reading);
  changed[SECOND_IMMUTABLE] = 1;
  expect(scope_deps_answer(changed, sizeof changed, out, sizeof out) == (int64_t)longer, "a read of what is known to be immutable counts");

  memcpy(changed, reading, sizeof reading);
  memset(changed + SECOND_START, 0xFF, 4);
  memset(out, 0xA5, sizeof out);
  expect(scope_deps_answer(changed, sizeof changed, out, sizeof out) == -SCOPE_DEPS_LARGEST_START, "the largest range start is refused");
  expect(scope_deps_sheet(changed, sizeof changed, out, sizeof out) == -SCOPE_DEPS_LARGEST_START, "so it is by the sheet");
  expect(scope_deps_strict_answer(changed, sizeof changed, out, sizeof out) == -SCOPE_DEPS_LARGEST_START, "by the strict answer");
  expect(scope_deps_strict_sheet(changed, sizeof changed, out, sizeof out) == -SCOPE_DEPS_LARGEST_START, "by the strict sheet");
  expect(scope_deps_thin(changed, sizeof changed, out, sizeof out) == -SCOPE_DEPS_LARGEST_START, "and by the thin job");
  expect(scope_deps_answer(changed, SECOND_START + 4, out, sizeof out) == -SCOPE_DEPS_LARGEST_START,
         "it comes before a missing byte behind it");
  expect(scope_deps_answer(changed, SECOND_START + 3, out, sizeof out) == -SCOPE_DEPS_MISSING_BYTE, "and after one of its own");
  expect(untouched_from(0), "a refusal of a raw read leaves the buffer as it was");
}

static void thin_jobs(void) {
  memset(out, 0xA5, sizeof out);
  expect(scope_deps_thin(job, sizeof job, out, sizeof out - 1) == -SCOPE_DEPS_SHORT_BUFFER, "a buffer too short for a thin job is refused");
  expect(scope_deps_thin(job, sizeof job - 1, out, sizeof out) == -SCOPE_DEPS_MISSING_BYTE, "a cut job has no thin job");
  expect(untouched_from(0), "a refusal of thin leaves the buffer as it was");

  expect(scope_deps_thin(repeating, sizeof repeating, out, sizeof out) == (int64_t)sizeof job, "the thin job has its length");
  expect(memcmp(out, job, sizeof job) == 0, "the thin job is without the repeats");
  expect(untouched_from(sizeof job), "bytes beyond the thin job are as they were");
  expect(scope_deps_thin(job, sizeof job, out, sizeof out) == (int64_t)sizeof job, "a thin job stays as it is");
  expect(memcmp(out, job, sizeof job) == 0, "with all its bytes");
}

static void strict_answers(void) {
  memset(out, 0xA5, sizeof out);
  expect(scope_deps_strict_answer(loop, sizeof loop, out, SCOPE_DEPS_OUT_BYTES - 1) == -SCOPE_DEPS_SHORT_BUFFER,
         "a buffer too short for a strict answer is refused");
  expect(scope_deps_strict_sheet(loop, sizeof loop - 1, out, sizeof out) == -SCOPE_DEPS_MISSING_BYTE,
         "a cut job has no strict sheet");
  expect(untouched_from(0), "a refusal of a strict operation leaves the buffer as it was");

  expect(scope_deps_strict_answer(loop, sizeof loop, out, sizeof out) == (int64_t)sizeof loop_strict_answer,
         "the strict answer has its length");
  expect(memcmp(out, loop_strict_answer, sizeof loop_strict_answer) == 0, "the strict answer cuts the path");
  expect(untouched_from(sizeof loop_strict_answer), "bytes beyond the strict answer are as they were");
  expect(scope_deps_answer(loop, sizeof loop, out, sizeof out) == (int64_t)sizeof loop_answer, "the answer of a loop has its length");
  expect(memcmp(out, loop_answer, sizeof loop_answer) == 0, "the answer of a loop keeps the path");

  expect(scope_deps_strict_sheet(loop, sizeof loop, out, sizeof out) == LOOP_SHEET_BYTES, "the strict sheet has its length");
  expect(out[SHEET_SET] == 1 && out[LOOP_SHEET_SET] == 0, "the path stays in its block");
  expect(untouched_from(LOOP_SHEET_BYTES), "bytes beyond the strict sheet are as they were");
  expect(scope_deps_sheet(loop, sizeof loop, out, sizeof out) == LOOP_SHEET_BYTES, "the sheet of a loop has its length");
  expect(out[SHEET_SET] == 1 && out[LOOP_SHEET_SET] == 1, "the path comes to the block after it");

  expect(scope_deps_strict_answer(job, sizeof job, out, sizeof out) == (int64_t)sizeof answer,
         "without loops the strict answer has the length of the answer");
  expect(memcmp(out, answer, sizeof answer) == 0, "and its bytes");
}

int main(void) {
  memset(out, 0xA5, sizeof out);
  expect(scope_deps_answer(job, sizeof job, out, SCOPE_DEPS_OUT_BYTES - 1) == -SCOPE_DEPS_SHORT_BUFFER, "a short buffer is refused");
  expect(scope_deps_sheet(job, sizeof job - 1, out, sizeof out) == -SCOPE_DEPS_MISSING_BYTE, "a cut job is refused");
  expect(untouched_from(0), "a refusal leaves the buffer as it was");

  expect(scope_deps_answer(job, sizeof job, out, sizeof out) == (int64_t)sizeof answer, "the answer has its length");
  expect(memcmp(out, answer, sizeof answer) == 0, "the answer is document 01's");
  expect(untouched_from(sizeof answer), "bytes beyond the answer are as they were");

  expect(scope_deps_sheet(job, sizeof job, out, sizeof out) == SHEET_BYTES, "the sheet has its length");
  expect(memcmp(out, "SH", 2) == 0 && out[SHEET_SET] == 1, "the block's set has the path");
  expect(out[8] == 1 && out[9] == 0, "its node was there before the first round");
  expect(untouched_from(SHEET_BYTES), "bytes beyond the sheet are as they were");
  added_nodes();
  raw_reads();
  thin_jobs();
  strict_answers();
  return failures == 0 ? 0 : 1;
}
