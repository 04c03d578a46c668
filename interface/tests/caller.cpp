// A caller in C++: answers by both propagations and a thin job of the library, and the refusals
// that a small job can get.
#include "../scope_deps.h"

#include <cstdio>
#include <string>
#include <vector>

namespace {

// What the library made of a job: the bytes written, or the number of the refusal.
struct Outcome {
  std::vector<std::uint8_t> bytes;
  int refusal = 0;
};

using Operation = std::int64_t (*)(const std::uint8_t *, std::size_t, std::uint8_t *, std::size_t);

Outcome call(Operation operation, const std::vector<std::uint8_t> &job, std::size_t room) {
  // The library takes no null, and a vector without bytes may have no other pointer.
  static const std::uint8_t no_byte = 0;
  const std::uint8_t *start = job.empty() ? &no_byte : job.data();
  std::vector<std::uint8_t> out(room);
  const std::int64_t returned = operation(start, job.size(), out.data(), out.size());
  if (returned < 0) {
    return {{}, static_cast<int>(-returned)};
  }
  out.resize(static_cast<std::size_t>(returned));
  return {out, 0};
}

Outcome answer(const std::vector<std::uint8_t> &job) { return call(scope_deps_answer, job, SCOPE_DEPS_OUT_BYTES); }

Outcome strict_answer(const std::vector<std::uint8_t> &job) { return call(scope_deps_strict_answer, job, SCOPE_DEPS_OUT_BYTES); }

Outcome strict_sheet(const std::vector<std::uint8_t> &job) { return call(scope_deps_strict_sheet, job, SCOPE_DEPS_OUT_BYTES); }

Outcome thin(const std::vector<std::uint8_t> &job) { return call(scope_deps_thin, job, SCOPE_DEPS_THIN_OUT_BYTES); }

int failures = 0;

void expect(bool holds, const std::string &what) {
  if (!holds) {
    std::fprintf(stderr, "caller.cpp: not so: %s\n", what.c_str());
    failures += 1;
  }
}

void expect_refusal(const std::vector<std::uint8_t> &job, scope_deps_refusal refusal, const std::string &what) {
  for (const Outcome &outcome : {answer(job), strict_answer(job), strict_sheet(job), thin(job)}) {
    expect(outcome.bytes.empty() && outcome.refusal == refusal, what);
  }
}

// P3 of document 01: blocks 0, 1 (after 0, 3), 2 (after 1), 3 (after 1, 2), 4 (after 1); the path 5
// is assumed in 2, and 5.10 is a candidate in 3.
void expect_loop() {
  const std::vector<std::uint8_t> job = {
      'H', 'D', 5, 0, 1, 0, 3, 0, 0, 0,
      'B', 'L', 0, 0, 0, 0, 0, 0, 0,
      'B', 'L', 1, 0, 0, 0, 2, 0, 0, 0, 0, 0, 0, 3, 0, 0, 0,
      'B', 'L', 2, 0, 0, 0, 1, 1, 0, 1, 0, 0, 0,
      'P', 'A', 5, 0, 0, 0, 0, 0, 0, 0, 0, 0,
      'B', 'L', 3, 0, 0, 0, 2, 0, 0, 1, 0, 0, 0, 2, 0, 0, 0,
      'B', 'L', 4, 0, 0, 0, 1, 0, 0, 1, 0, 0, 0,
      'C', 'A', 5, 0, 0, 0, 0, 0, 0, 0, 0, 1, 0, 0, 10, 0, 0, 0, 0, 0, 0, 0, 0, 0, 0, 0,
  };
  const std::vector<std::uint8_t> due = {
      'A', 'N', 1, 0, 2, 1,
      'D', 'E', 5, 0, 0, 0, 0, 0, 0, 0, 0, 1, 0, 0, 10, 0, 0, 0, 0, 0, 0, 0, 0, 0, 0, 0,
  };
  const std::vector<std::uint8_t> strictly_due = {'A', 'N', 1, 0, 1, 1, 'D', 'E', 5, 0, 0, 0, 0, 0, 0, 0, 0, 0};
  expect(answer(job).bytes == due, "the answer of P3 keeps 5.10, though a run avoids block 2");
  expect(strict_answer(job).bytes == strictly_due, "the strict answer of P3 is 5");
  const std::vector<std::uint8_t> sheet = strict_sheet(job).bytes;
  for (std::size_t place = 0; place < 5; place++) {
    const std::size_t set = 10 + 23 + 70 * place + 6;
    expect(sheet.size() == 10 + 23 + 5 * 70 && sheet[set] == (place == 2 ? 1 : 0), "strictly, block 2 alone holds 5");
  }
}

}  // namespace

int main() {
  // One block, 0, without predecessors, raw reads and paths; no candidate.
  const std::vector<std::uint8_t> job = {'H', 'D', 1, 0, 0, 0, 0, 0, 0, 0, 'B', 'L', 0, 0, 0, 0, 0, 0, 0};
  const std::vector<std::uint8_t> due = {'A', 'N', 0, 0, 1, 1};
  const Outcome outcome = answer(job);
  expect(outcome.refusal == 0 && outcome.bytes == due, "a job without candidates has an empty answer");

  const Outcome strictly = strict_answer(job);
  expect(strictly.refusal == 0 && strictly.bytes == due, "and an empty strict answer");
  expect_loop();

  const Outcome thinned = thin(job);
  expect(thinned.refusal == 0 && thinned.bytes == job, "a job without repeats is its own thin job");
  expect(call(scope_deps_thin, job, SCOPE_DEPS_OUT_BYTES).refusal == SCOPE_DEPS_SHORT_BUFFER, "a thin job needs more room");

  const auto changed = [&job](std::size_t place, std::uint8_t byte) {
    std::vector<std::uint8_t> other = job;
    other.at(place) = byte;
    return other;
  };
  expect_refusal(std::vector<std::uint8_t>(SCOPE_DEPS_JOB_BYTES + 1), SCOPE_DEPS_LONG_JOB, "a long job is refused");
  expect_refusal({}, SCOPE_DEPS_MISSING_BYTE, "no bytes are refused");
  expect_refusal(changed(0, 'X'), SCOPE_DEPS_WRONG_MARK, "a wrong mark is refused");
  expect_refusal(changed(2, 0), SCOPE_DEPS_OUT_OF_RANGE, "a job without blocks is refused");
  expect_refusal(changed(6, 1), SCOPE_DEPS_UNKNOWN_BLOCK, "an unknown scope block is refused");
  std::vector<std::uint8_t> longer = job;
  longer.push_back(0);
  expect_refusal(longer, SCOPE_DEPS_EXTRA_BYTE, "a byte after the job is refused");
  // The block with one raw read, up to the start of its range.
  std::vector<std::uint8_t> reading = changed(18, 1);
  const std::uint8_t read[] = {'R', 'D', 3, 0, 0, 0, 255, 255, 255, 255};
  reading.insert(reading.end(), read, read + sizeof read);
  expect_refusal(reading, SCOPE_DEPS_LARGEST_START, "the largest range start is refused");
  reading.pop_back();
  expect_refusal(reading, SCOPE_DEPS_MISSING_BYTE, "a range start that is cut is refused before");
  return failures == 0 ? 0 : 1;
}
