//! Refused jobs, each with its offset.

use crate::common::{hex, Random};
use crate::job::{text, Records, WORKED};

pub fn refused(job: &[u8]) -> (u32, usize) {
    let line = text(job);
    let words: Vec<&str> = line.strip_suffix('\n').unwrap().split(' ').collect();
    assert_eq!((words.len(), words[0], words[2]), (4, "refused", "at"));
    (words[1].parse().unwrap(), words[3].parse().unwrap())
}

pub fn of_hex(text: &str) -> (u32, usize) {
    refused(&hex(text))
}

#[test]
fn too_long_comes_first() {
    assert_eq!(refused(&vec![0xff; 32_769]), (31, 0));
    assert_eq!(refused(&vec![0xff; 32_768]), (21, 0));
    let mut job = Records::family(2).code("7f").start_a().end();
    job.resize(32_769, 0);
    assert_eq!(refused(&job), (31, 0));
}

#[test]
fn unknown_kinds_and_missing_end() {
    assert_eq!(of_hex(""), (21, 0));
    assert_eq!(of_hex("07"), (21, 0));
    assert_eq!(of_hex("ff"), (21, 0));
    assert_eq!(of_hex("0402"), (21, 2));
    assert_eq!(of_hex("040207"), (21, 2));
    let job = Records::family(2).code("7f").start_a().0;
    assert_eq!(refused(&job), (21, 20));
    assert_eq!(of_hex("040208 0000"), (21, 2));
}

#[test]
fn bodies_cut_short() {
    assert_eq!(of_hex("04"), (20, 0));
    assert_eq!(of_hex("01"), (20, 0));
    assert_eq!(of_hex("0402 04"), (20, 2));
    for (kind, length) in [(3u8, 8), (2, 8), (1, 16)] {
        for body in 0..length {
            let mut job = vec![4, 2, kind];
            job.extend(vec![0; body]);
            assert_eq!(refused(&job), (20, 2));
        }
    }
    let mut job = Records::family(2).row(0, 0, 0).0;
    job.pop();
    assert_eq!(refused(&job), (20, 2));
}

#[test]
fn out_of_order() {
    assert_eq!(of_hex("00"), (22, 0));
    assert_eq!(of_hex("0000"), (22, 0));
    assert_eq!(of_hex("03 0000000000000000"), (22, 0));
    let with = |records: Records| refused(&records.end());
    assert_eq!(with(Records(vec![]).write(0x1304, 0)), (22, 0));
    assert_eq!(with(Records(vec![]).row(0, 0, 0)), (22, 0));
    assert_eq!(
        with(Records::family(2).write(0x1304, 0).range(9, 0)),
        (22, 11)
    );
    assert_eq!(with(Records::family(2).row(1, 0, 0).range(0, 0)), (22, 19));
    assert_eq!(with(Records::family(2).row(1, 0, 0).write(3, 0)), (22, 19));
    let mut again = Records::family(2).range(0, 0);
    again.0.extend([4, 2]);
    assert_eq!(with(again), (22, 11));
}

#[test]
fn too_many() {
    assert_eq!(of_hex("0402 0402 00"), (23, 2));
    assert_eq!(of_hex("0402 0409 00"), (23, 2));
    let ranges = (0..64).fold(Records::family(2), |job, _| job.range(0, 0));
    assert_eq!(refused(&ranges.clone().end()), (32, 2 + 64 * 9));
    assert_eq!(refused(&ranges.range(1, 0).end()), (23, 2 + 64 * 9));
    let writes = (0..512).fold(Records::family(2), |job, _| job.write(0x1304, 0));
    assert_eq!(refused(&writes.clone().end()), (32, 2 + 512 * 9));
    assert_eq!(refused(&writes.write(3, 0).end()), (23, 2 + 512 * 9));
    let rows = (0..1024).fold(Records::family(2), |job, _| job.row(1, 0, 0));
    assert_eq!(refused(&rows.clone().end()), (32, 2 + 1024 * 17));
    assert_eq!(refused(&rows.row(0, 0, 0).end()), (23, 2 + 1024 * 17));
}

#[test]
fn the_largest_job_is_taken() {
    let job = (0..64).fold(Records::family(4), |job, _| job.range(0, u32::MAX));
    let job = (0..510)
        .fold(job, |job, _| job.write(0x1304, 0))
        .code("7f")
        .start_a();
    let job = (0..1024).fold(job, |job, _| job.row(1 << 48, 0, 0)).end();
    assert_eq!(job.len(), 22_595);
    assert_eq!(text(&job).lines().count(), 2 + 1024 + 2);
}

#[test]
fn bad_families() {
    for family in (0..=255u8).filter(|f| !(1..=4).contains(f)) {
        assert_eq!(refused(&[4, family]), (25, 0));
        assert_eq!(refused(&[4, family, 0]), (25, 0));
    }
}

#[test]
fn range_with_first_above_last() {
    assert_eq!(
        refused(&Records::family(1).range(0, 0).range(2, 1).end()),
        (26, 11)
    );
}

#[test]
fn registers_that_take_no_write() {
    for (family, address) in [
        (1, 0x1440),
        (2, 0x1480),
        (3, 0x1500),
        (4, 0x1500),
        (3, 0x1318),
        (3, 0x8_0000),
        (4, 0x8_0200),
        (4, 0x1308),
        (2, 0x1578),
        (2, 0x1099),
        (2, 0x1402),
        (2, 0),
    ] {
        assert_eq!(
            refused(&Records::family(family).write(address, 0).end()),
            (27, 2)
        );
        let executing = Records::family(family).start_a().write(address, 0).end();
        assert_eq!(refused(&executing), (27, 11));
    }
}

#[test]
fn writes_while_a_slot_executes() {
    for address in [0x1098, 0x1304, 0x1310, 0x1314, 0x1400] {
        let job = Records::family(1).start_a().write(address, 0).end();
        assert_eq!(refused(&job), (28, 11));
    }
    for trigger in [1, 3, 0xfd] {
        assert_eq!(
            refused(&Records::family(1).start_a().write(0x130c, trigger).end()),
            (28, 11)
        );
    }
}

#[test]
fn clocks_out_of_range() {
    for clocks in [0, (1 << 48) + 1, u64::MAX] {
        assert_eq!(
            refused(&Records::family(1).row(1, 0, 0).row(clocks, 0, 0).end()),
            (30, 19)
        );
    }
}

#[test]
fn bytes_after_end_and_nothing_started() {
    let mut job = Records::family(1).code("7f").start_a().end();
    assert!(text(&job).starts_with("family 1\n"));
    job.push(0);
    assert_eq!(refused(&job), (24, 20));
    assert_eq!(of_hex("0401 00 00"), (24, 2));
    assert_eq!(of_hex("0401 00 05"), (24, 2));
    assert_eq!(of_hex("0401 00"), (32, 2));
    let aborted = Records::family(1).start_a().write(0x130c, 2).end();
    assert_eq!(refused(&aborted), (32, 20));
}

#[test]
fn the_first_record_at_fault_wins() {
    let job = Records::family(1).range(2, 1).write(3, 3).row(0, 0, 0);
    assert_eq!(refused(&job.0), (26, 2));
    let job = Records::family(1).start_a().row(0, 0, 0).0;
    assert_eq!(refused(&job), (30, 11));
}

#[test]
fn every_prefix_of_the_worked_job_is_refused_at_its_last_record() {
    let job = hex(WORKED);
    let starts: Vec<usize> = [0].into_iter().chain((2..=65).step_by(9)).collect();
    assert_eq!(job.len(), 66);
    for length in 0..job.len() {
        let number = if starts.contains(&length) { 21 } else { 20 };
        let offset = *starts.iter().rfind(|&&start| start <= length).unwrap();
        assert_eq!(refused(&job[..length]), (number, offset));
    }
}

#[test]
fn any_input_gives_whole_lines() {
    let job = hex(WORKED);
    for at in 0..job.len() {
        for byte in 0..=255 {
            let mut changed = job.clone();
            changed[at] = byte;
            let report = text(&changed);
            assert!(report.ends_with('\n') && report.lines().count() != 0);
            let first = report.lines().next().unwrap();
            assert!(first == "family 3" || report.lines().count() <= 2 || at == 1);
        }
    }
    let mut random = Random::of(14);
    for _ in 0..5_000 {
        let length = random.below(60);
        let input: Vec<u8> = (0..length).map(|_| random.below(8) as u8).collect();
        assert!(text(&input).ends_with('\n'));
    }
}
