//! Each refusal from 1 to 8, and 10, at its smallest job, and their order.

mod common;

use common::{block, hex, job, path};
use compare::job::{Job, limits};
use compare::notation::{dropped, kept, read};
use compare::reader::{largest_start, read_job};

fn refusal(bytes: &[u8]) -> Option<u8> {
    read_job(bytes, limits::OUT_BYTES).err()
}

/// One block, one assumed path of one entry, one candidate of one entry.
fn whole() -> Vec<u8> {
    job(7, vec![block(7, &[], "1.10")], "1.10").to_bytes()
}

#[test]
fn a_job_is_read_as_it_was_written() {
    let job = job(3, vec![block(3, &[4], "1?.10.11, 2"), block(4, &[3, 4], "")], "1.10, 5?.6");
    assert_eq!(read_job(&job.to_bytes(), limits::OUT_BYTES), Ok(job));
}

#[test]
fn one_and_two_come_before_all_others() {
    assert_eq!(read_job(&[0; 40_000], limits::OUT_BYTES - 1), Err(1));
    assert_eq!(read_job(&whole(), 0), Err(1));
    assert_eq!(refusal(&[0; 32_769]), Some(2));
    assert_eq!(refusal(&[0; 32_768]), Some(4));
}

#[test]
fn every_part_of_a_job_ends_too_early() {
    let bytes = whole();
    assert_eq!(refusal(&bytes), None);
    for length in 0..bytes.len() {
        assert_eq!(refusal(&bytes[..length]), Some(3), "{length} bytes");
    }
}

#[test]
fn a_mark_needs_both_bytes_before_it_is_compared() {
    assert_eq!(refusal(b"X"), Some(3));
    assert_eq!(refusal(b"HX"), Some(4));
    assert_eq!(refusal(b"XD"), Some(4));
    let bytes = whole();
    for (place, mark) in [(0, "HD"), (10, "BL"), (19, "PA"), (45, "CA")] {
        assert_eq!(&bytes[place..place + 2], mark.as_bytes());
        let mut wrong = bytes[..place + 2].to_vec();
        wrong[place + 1] = b'x';
        assert_eq!(refusal(&wrong), Some(4), "{mark}");
        assert_eq!(refusal(&wrong[..place + 1]), Some(3), "{mark}");
    }
}

#[test]
fn a_field_outside_its_range_is_refused_where_it_ends() {
    let bytes = whole();
    // Place of a field's last byte, and the first value outside its range there.
    let fields = [(2, 0), (2, 129), (3, 1), (4, 65), (5, 1), (16, 65), (25, 2), (30, 17), (31, 2), (32, 2)];
    let candidate = [(51, 2), (56, 17), (57, 2), (58, 2)];
    for (place, value) in fields.into_iter().chain(candidate) {
        let mut wrong = bytes[..=place.max(if place < 6 { place | 1 } else { 0 })].to_vec();
        wrong[place] = value;
        assert_eq!(refusal(&wrong), Some(5), "{value} at {place}");
        assert_eq!(refusal(&wrong[..wrong.len() - 1]), Some(3), "before {place}");
    }
}

#[test]
fn a_byte_after_the_last_candidate_is_refused() {
    let bytes = [whole(), vec![0]].concat();
    assert_eq!(refusal(&bytes), Some(6));
    let twice = job(7, vec![block(7, &[], ""), block(7, &[], "")], "").to_bytes();
    assert_eq!(refusal(&[twice, vec![0]].concat()), Some(6));
}

#[test]
fn ids_that_stand_twice_come_before_unknown_ones() {
    let refused = |job: Job| refusal(&job.to_bytes());
    assert_eq!(refused(job(7, vec![block(7, &[], ""), block(7, &[], "")], "")), Some(7));
    assert_eq!(refused(job(7, vec![block(7, &[7, 7], "")], "")), Some(7));
    assert_eq!(refused(job(8, vec![block(7, &[9, 9], "")], "")), Some(7));
    assert_eq!(refused(job(8, vec![block(7, &[9], ""), block(1, &[1, 1], "")], "")), Some(7));
    // The same predecessor in two blocks is no repeat.
    assert_eq!(refused(job(7, vec![block(7, &[1], ""), block(1, &[1], "")], "")), None);
}

#[test]
fn unknown_blocks_are_refused() {
    let refused = |job: Job| refusal(&job.to_bytes());
    assert_eq!(refused(job(8, vec![block(7, &[], "")], "")), Some(8));
    assert_eq!(refused(job(7, vec![block(7, &[8], "")], "")), Some(8));
    assert_eq!(refused(job(7, vec![block(7, &[7], "")], "")), None);
}

#[test]
fn the_limits_themselves_are_accepted() {
    let blocks = (0..128).map(|id| block(id, &[], "")).collect();
    assert_eq!(refusal(&job(0, blocks, "").to_bytes()), None);
    let blocks = (0..129).map(|id| block(id, &[], "")).collect();
    assert_eq!(refusal(&job(0, blocks, "").to_bytes()), Some(5));
    assert_eq!(refusal(&job(0, vec![], "").to_bytes()), Some(5));

    let with_candidates = |count: usize| {
        let mut job = job(7, vec![block(7, &[], "")], "");
        job.candidates = vec![path("1"); count];
        refusal(&job.to_bytes())
    };
    assert_eq!((with_candidates(64), with_candidates(65)), (None, Some(5)));

    let with_entries = |count: usize| {
        let mut job = job(7, vec![block(7, &[], "1.2")], "1.2");
        job.candidates[0].entries = vec![job.candidates[0].entries[0]; count];
        refusal(&job.to_bytes())
    };
    assert_eq!((with_entries(16), with_entries(17)), (None, Some(5)));

    let with_predecessors = |count: u32| {
        let mut blocks: Vec<_> = (0..count).map(|id| block(id, &[], "")).collect();
        blocks[0].predecessors = (0..count).collect();
        refusal(&job(0, blocks, "").to_bytes())
    };
    assert_eq!((with_predecessors(64), with_predecessors(65)), (None, Some(5)));

    let mut job = job(7, vec![block(7, &[], "")], "");
    job.blocks[0].assumed = vec![path("1"); 255];
    assert_eq!(refusal(&job.to_bytes()), None);
}

#[test]
fn the_smallest_refused_jobs() {
    assert_eq!(refusal(&[]), Some(3));
    assert_eq!(refusal(b"  "), Some(4));
    assert_eq!(refusal(&hex("4844 0000")), Some(5));
    let smallest = hex("4844 0100 0000 00000000 / 424C 00000000 00 00 00");
    assert_eq!(refusal(&smallest), None);
    assert_eq!(refusal(&[smallest, vec![7]].concat()), Some(6));
    assert_eq!(refusal(&hex("4844 0100 0000 00000000 / 424C 00000000 02 00 00 00000000 00000000")), Some(7));
    assert_eq!(refusal(&hex("4844 0100 0000 01000000 / 424C 00000000 00 00 00")), Some(8));
}

/// One block with one raw read of one entry, and an assumed path.
fn with_read() -> Vec<u8> {
    job(7, vec![block(7, &[], "1").reading(vec![read("1.10", 5, (1, 8), Some((4, 9)))])], "").to_bytes()
}

/// Where RD stands in it, and its range start.
const READ: usize = 19;
const START: usize = READ + 6;

fn with(at: usize, bytes: &[u8]) -> Vec<u8> {
    let mut job = with_read();
    job[at..at + bytes.len()].copy_from_slice(bytes);
    job
}

#[test]
fn a_raw_read_is_34_bytes_and_its_entries() {
    let due = "4844 0100 0000 07000000 / 424C 07000000 00 01 01 /
        5244 05000000 01000000 08000000 01 04000000 09000000 00 01000000 00 00000000 01 /
        00 00 0A00000000000000 00000000 / 5041 01000000 00 00000000 00";
    assert_eq!(with_read(), hex(due));
    let reads = vec![kept("reactive 1@5.10@6"), dropped("2"), read("3?.11", 1, (2, u32::MAX), None)];
    let job = job(3, vec![block(3, &[3], "4, 1?.10").reading(reads), block(4, &[], "")], "1.10");
    assert_eq!(read_job(&job.to_bytes(), limits::OUT_BYTES), Ok(job));
}

#[test]
fn every_part_of_a_job_with_a_raw_read_ends_too_early() {
    let bytes = with_read();
    assert_eq!(refusal(&bytes), None);
    for length in 0..bytes.len() {
        assert_eq!(refusal(&bytes[..length]), Some(3), "{length} bytes");
    }
}

#[test]
fn the_fields_of_a_raw_read_are_held_to_their_ranges() {
    for (at, value) in [(14, 2), (23, 2), (28, 2), (33, 17), (34, 2), (35, 2)] {
        let wrong = with(READ + at, &[value]);
        assert_eq!(refusal(&wrong), Some(5), "{value} at {at}");
        assert_eq!(refusal(&wrong[..=READ + at]), Some(5), "{value} at {at}");
        assert_eq!(refusal(&wrong[..READ + at]), Some(3), "before {at}");
    }
    // The numbers but for the range start hold any value.
    for at in [2, 10, 15, 19] {
        assert_eq!(refusal(&with(READ + at, &[0xff; 4])), None, "{at}");
    }
}

#[test]
fn raw_reads_come_before_assumed_paths() {
    assert_eq!(refusal(&with(READ, b"PA")), Some(4));
    assert_eq!(refusal(&with(17, &[1, 0])), Some(4));
    assert_eq!(refusal(&with(17, &[1, 2])), Some(4));
    assert_eq!(refusal(&with(17, &[0, 1])), Some(6));
    assert_eq!(refusal(&with(17, &[2, 1])), Some(3));
}

#[test]
fn the_largest_range_start_is_refused_where_it_ends() {
    let largest = with(START, &[0xff; 4]);
    assert_eq!((refusal(&largest), largest_start(&largest)), (Some(10), Some(START)));
    assert_eq!(refusal(&largest[..START + 4]), Some(10));
    assert_eq!(refusal(&largest[..START + 3]), Some(3));
    for byte in 0..4 {
        let mut smaller = largest.clone();
        smaller[START + byte] = 0xfe;
        assert_eq!((refusal(&smaller), largest_start(&smaller)), (None, None), "byte {byte}");
    }
}

#[test]
fn ten_is_found_field_by_field_with_3_to_5() {
    let and = |at: usize, bytes: &[u8]| {
        let mut job = with(START, &[0xff; 4]);
        job[at..at + bytes.len()].copy_from_slice(bytes);
        refusal(&job)
    };
    assert_eq!(and(READ, b"RX"), Some(4));
    assert_eq!(and(16, &[65]), Some(5));
    assert_eq!(and(4, &[65]), Some(5));
    for later in [14, 23, 28, 33, 34] {
        assert_eq!(and(READ + later, &[255]), Some(10), "{later}");
    }
    assert_eq!(and(READ + 48, b"PX"), Some(10));
    // The first of two faults counts, in whatever block it stands.
    let mut largest = kept("1");
    largest.range_start = u32::MAX;
    let blocks = || vec![block(7, &[], "1"), block(8, &[], "").reading(vec![largest.clone()])];
    let mut job = job(7, blocks(), "").to_bytes();
    assert_eq!(refusal(&job), Some(10));
    job[25] = 2;
    assert_eq!(refusal(&job), Some(5));
}

#[test]
fn ten_comes_before_6_to_8() {
    let mut largest = kept("1");
    largest.range_start = u32::MAX;
    let reading = |id, predecessors: &[u32]| block(id, predecessors, "").reading(vec![largest.clone()]);
    let job_of = |scope, blocks| job(scope, blocks, "").to_bytes();
    assert_eq!(refusal(&[job_of(7, vec![reading(7, &[])]), vec![0]].concat()), Some(10));
    assert_eq!(refusal(&job_of(7, vec![block(7, &[], ""), reading(7, &[])])), Some(10));
    assert_eq!(refusal(&job_of(7, vec![reading(7, &[7, 7])])), Some(10));
    assert_eq!(refusal(&job_of(8, vec![reading(7, &[9])])), Some(10));
    assert_eq!(read_job(&job_of(7, vec![reading(7, &[])]), 0), Err(1));
    let long = [job_of(7, vec![reading(7, &[])]), vec![0; limits::JOB_BYTES]].concat();
    assert_eq!(refusal(&long), Some(2));
}

#[test]
fn a_block_has_up_to_255_raw_reads() {
    for count in [254, 255] {
        let job = job(7, vec![block(7, &[], "").reading(vec![kept("1"); count])], "");
        assert_eq!(read_job(&job.to_bytes(), limits::OUT_BYTES), Ok(job));
    }
    let with_entries = |count: usize| {
        let mut long = kept("1.2");
        long.path.entries = vec![long.path.entries[0]; count];
        refusal(&job(7, vec![block(7, &[], "").reading(vec![long])], "").to_bytes())
    };
    assert_eq!((with_entries(16), with_entries(17)), (None, Some(5)));
}
