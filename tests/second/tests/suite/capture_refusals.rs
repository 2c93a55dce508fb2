//! Refused gates and captures, each with its offset.

use crate::captures::{exit, DEAD, INVERTED, NORMAL, PLAIN, WORKED};
use crate::common::hex;
use crate::job::{text, Records};
use crate::job_refusals::{of_hex, refused};

/// Offset after the host writes of `exit`.
const WRITTEN: usize = 20;
/// Length of a gate record.
const GATE: usize = 19;
/// Length of a capture record.
const CAPTURE: usize = 6;
/// Length of a row record.
const ROW: usize = 17;

const NOT_FINITE: [f32; 3] = [f32::NAN, f32::INFINITY, f32::NEG_INFINITY];

/// The refusal of records with an end.
fn with(records: Records) -> (u32, usize) {
    refused(&records.end())
}

fn gated() -> Records {
    exit().gate(0, NORMAL, PLAIN)
}

#[test]
fn bodies_cut_short() {
    for (kind, length) in [(5u8, 5), (6, 18)] {
        for body in 0..length {
            let mut first = vec![kind];
            // An event without a gate or above 31 is looked at in whole bodies alone.
            first.extend(vec![0xff; body]);
            assert_eq!(refused(&first), (20, 0));
            let mut later = vec![4, 2];
            later.extend(&first);
            assert_eq!(refused(&later), (20, 2));
            let mut after_row = exit().row(1, 0, 0).0;
            after_row.extend(&first);
            assert_eq!(refused(&after_row), (20, WRITTEN + ROW));
        }
    }
}

#[test]
fn other_kinds_stay_unknown() {
    for kind in 7..=255u8 {
        for mut job in [gated(), gated().capture(0, 1.0), gated().row(1, 0, 0)] {
            let offset = job.0.len();
            job.0.push(kind);
            assert_eq!(refused(&job.0), (21, offset));
        }
    }
}

#[test]
fn captures_at_the_end_of_input() {
    assert_eq!(
        refused(&gated().capture(0, 1.0).0),
        (21, WRITTEN + GATE + CAPTURE)
    );
    assert_eq!(refused(&gated().0), (21, WRITTEN + GATE));
}

#[test]
fn out_of_order_comes_before_all_that_is_in_the_body() {
    assert_eq!(with(Records(vec![]).gate(0, NORMAL, PLAIN)), (22, 0));
    assert_eq!(with(Records(vec![]).capture(0, 1.0)), (22, 0));
    assert_eq!(with(Records(vec![]).gate(32, 3, [f32::NAN; 4])), (22, 0));
    let begun = [gated(), gated().capture(0, 1.0), gated().row(1, 0, 0)];
    for job in begun {
        let offset = job.0.len();
        assert_eq!(with(job.clone().write(0x130c, 0)), (22, offset));
        assert_eq!(with(job.clone().write(3, 0)), (22, offset));
        assert_eq!(with(job.clone().range(0, 0)), (22, offset));
        assert_eq!(with(job.clone().range(1, 0)), (22, offset));
        let mut family = job;
        family.0.extend([4, 2]);
        assert_eq!(with(family), (22, offset));
    }
    for job in [
        gated().capture(0, 1.0),
        gated().row(1, 0, 0),
        exit().row(1, 0, 0),
    ] {
        let offset = job.0.len();
        assert_eq!(with(job.clone().gate(1, NORMAL, PLAIN)), (22, offset));
        assert_eq!(with(job.clone().gate(0, NORMAL, PLAIN)), (22, offset));
        assert_eq!(with(job.clone().gate(32, NORMAL, PLAIN)), (22, offset));
        assert_eq!(with(job.gate(1, NORMAL, [f32::NAN; 4])), (22, offset));
    }
}

#[test]
fn kinds_before_gates_may_be_left_out() {
    assert_eq!(
        with(Records::family(2).gate(0, NORMAL, PLAIN)),
        (32, 2 + GATE)
    );
    let row = Records::family(2)
        .gate(0, NORMAL, PLAIN)
        .capture(0, 1.0)
        .row(1, 0, 0);
    assert_eq!(with(row), (32, 2 + GATE + CAPTURE + ROW));
    assert_eq!(
        with(Records::family(2).range(0, 0).gate(0, DEAD, PLAIN)),
        (32, 11 + GATE)
    );
    // A capture without any gate is in its order, so it is its event that is at fault.
    assert_eq!(with(Records::family(2).capture(0, 1.0)), (33, 2));
}

#[test]
fn rows_are_counted_across_captures() {
    let rows = (0..1024).fold(gated(), |job, _| job.capture(0, 1.0).row(1, 0, 0));
    let offset = rows.0.len();
    assert_eq!(offset, WRITTEN + GATE + 1024 * (CAPTURE + ROW));
    assert_eq!(with(rows.clone().row(0, 0, 0)), (23, offset));
    let captured = rows.capture(0, 1.0);
    assert_eq!(with(captured.clone().row(1, 0, 0)), (23, offset + CAPTURE));
    // Captures have no number of their own: the last ones lack their row only at the end.
    assert_eq!(with(captured), (33, offset + CAPTURE));
}

#[test]
fn events_above_31() {
    for event in 32..=255 {
        assert_eq!(with(exit().gate(event, NORMAL, PLAIN)), (33, WRITTEN));
        assert_eq!(with(exit().gate(event, DEAD, PLAIN)), (33, WRITTEN));
        assert_eq!(with(gated().capture(event, 1.0)), (33, WRITTEN + GATE));
    }
    let last = exit().gate(31, NORMAL, PLAIN).capture(31, 1.0).row(1, 0, 0);
    assert!(text(&last.end()).starts_with("family 2\nverdict 0 "));
}

#[test]
fn captures_without_a_gate() {
    for event in 1..32 {
        assert_eq!(
            with(gated().capture(event, 1.0).row(1, 0, 0)),
            (33, WRITTEN + GATE)
        );
        let after = gated().capture(0, 1.0).capture(event, 1.0).row(1, 0, 0);
        assert_eq!(with(after), (33, WRITTEN + GATE + CAPTURE));
    }
}

#[test]
fn captured_twice_before_one_row() {
    let second = WRITTEN + 2 * GATE + CAPTURE;
    for (gate, raw) in [
        (NORMAL, 1.0),
        (INVERTED, 1.5),
        (DEAD, 1.0),
        (NORMAL, f32::NAN),
    ] {
        let job = exit()
            .gate(7, gate, PLAIN)
            .gate(8, gate, PLAIN)
            .capture(7, raw);
        assert_eq!(with(job.clone().capture(7, raw).row(1, 0, 0)), (33, second));
        let between = job.clone().capture(8, raw).capture(7, raw).row(1, 0, 0);
        assert_eq!(with(between), (33, second + CAPTURE));
        // Before another row it is a first one again.
        let again = job.row(1, 0, 0).capture(7, raw);
        assert!(text(&again.clone().row(1, 0, 0).end()).starts_with("family 2\n"));
        assert_eq!(with(again.capture(7, raw)), (33, second + ROW + CAPTURE));
    }
}

#[test]
fn gate_bytes_above_2() {
    for gate in 3..=255 {
        assert_eq!(with(exit().gate(0, gate, PLAIN)), (33, WRITTEN));
        assert_eq!(with(exit().gate(0, gate, [f32::NAN; 4])), (33, WRITTEN));
    }
}

#[test]
fn a_second_gate_for_an_event() {
    for (first, second) in [
        (NORMAL, NORMAL),
        (NORMAL, DEAD),
        (DEAD, INVERTED),
        (DEAD, DEAD),
    ] {
        let job = exit().gate(9, first, PLAIN);
        assert_eq!(
            with(job.clone().gate(9, second, PLAIN)),
            (33, WRITTEN + GATE)
        );
        let later = job.gate(10, first, PLAIN).gate(9, second, PLAIN);
        assert_eq!(with(later), (33, WRITTEN + 2 * GATE));
    }
    let all = (0..32).fold(exit(), |job, event| job.gate(event, NORMAL, PLAIN));
    assert_eq!(
        with(all.clone().gate(0, NORMAL, PLAIN)),
        (33, WRITTEN + 32 * GATE)
    );
    assert_eq!(with(all.gate(32, NORMAL, PLAIN)), (33, WRITTEN + 32 * GATE));
}

#[test]
fn captures_with_no_row_after_them() {
    let job = gated().capture(0, 1.5);
    assert_eq!(with(job), (33, WRITTEN + GATE + CAPTURE));
    let after_row = gated().row(1, 0, 0).capture(0, f32::NAN);
    assert_eq!(with(after_row), (33, WRITTEN + GATE + ROW + CAPTURE));
    let several = gated().gate(1, DEAD, PLAIN).capture(1, 0.0).capture(0, 1.5);
    assert_eq!(with(several), (33, WRITTEN + 2 * GATE + 2 * CAPTURE));
}

#[test]
fn no_row_comes_before_bytes_after_end_and_nothing_started() {
    let due = gated().capture(0, 1.0);
    let end = WRITTEN + GATE + CAPTURE;
    let mut more = due.end();
    more.push(0);
    assert_eq!(refused(&more), (33, end));
    let idle = Records::family(2).gate(0, NORMAL, PLAIN).capture(0, 1.0);
    assert_eq!(with(idle.clone()), (33, 2 + GATE + CAPTURE));
    let mut both = idle.end();
    both.push(5);
    assert_eq!(refused(&both), (33, 2 + GATE + CAPTURE));
    // With a row the other two show again.
    let mut more = gated().capture(0, 1.0).row(1, 0, 0).end();
    more.push(0);
    assert_eq!(refused(&more), (24, end + ROW));
}

#[test]
fn gates_that_16_forbids() {
    for wrong in NOT_FINITE {
        for gate in [NORMAL, INVERTED] {
            for floats in [[wrong, 2.0, 1.0, 0.0], [1.0, wrong, 1.0, 0.0]] {
                assert_eq!(with(exit().gate(0, gate, floats)), (16, WRITTEN));
            }
        }
        for gate in [NORMAL, INVERTED, DEAD] {
            for floats in [[1.0, 2.0, wrong, 0.0], [1.0, 2.0, 1.0, wrong]] {
                assert_eq!(with(exit().gate(0, gate, floats)), (16, WRITTEN));
                let later = gated().gate(1, gate, floats);
                assert_eq!(with(later), (16, WRITTEN + GATE));
            }
        }
    }
    for (low, high) in [
        (1.0, 1.0),
        (2.0, 1.0),
        (-0.0, 0.0),
        (0.0, -0.0),
        (f32::MAX, f32::MIN),
    ] {
        for gate in [NORMAL, INVERTED] {
            assert_eq!(
                with(exit().gate(0, gate, [low, high, 1.0, 0.0])),
                (16, WRITTEN)
            );
        }
    }
}

#[test]
fn gates_that_16_allows() {
    let tiny = f32::from_bits(1);
    for floats in [
        [0.0, tiny, 0.0, 0.0],
        [-tiny, -0.0, -0.0, -0.0],
        [f32::MIN, f32::MAX, f32::MAX, f32::MIN],
        [1.0, 1.0f32.next_up(), tiny, -tiny],
    ] {
        for gate in [NORMAL, INVERTED, DEAD] {
            let report = text(&exit().gate(0, gate, floats).end());
            assert!(report.contains("\nevent 0 least none greatest none between 0\n"));
        }
    }
    for levels in NOT_FINITE {
        let dead = exit().gate(0, DEAD, [levels, levels, 1.0, 0.0]).end();
        assert!(text(&dead).contains("\nevent 0 least none greatest none between 0\n"));
    }
}

#[test]
fn refusal_33_comes_before_16() {
    let forbidden = [2.0, 1.0, f32::NAN, 0.0];
    assert_eq!(with(exit().gate(32, NORMAL, forbidden)), (33, WRITTEN));
    assert_eq!(with(exit().gate(0, 3, forbidden)), (33, WRITTEN));
    assert_eq!(
        with(gated().gate(0, NORMAL, forbidden)),
        (33, WRITTEN + GATE)
    );
    assert_eq!(with(exit().gate(0, NORMAL, forbidden)), (16, WRITTEN));
}

#[test]
fn the_first_record_at_fault_wins() {
    let bad_gate = [1.0, 1.0, 1.0, 0.0];
    let gate_then_event = exit().gate(0, NORMAL, bad_gate).gate(32, NORMAL, PLAIN);
    assert_eq!(with(gate_then_event), (16, WRITTEN));
    let capture_then_row = exit().capture(0, 1.0).row(0, 0, 0);
    assert_eq!(with(capture_then_row), (33, WRITTEN));
    let row_then_capture = gated().capture(0, 1.0).row(0, 0, 0).capture(1, 1.0);
    assert_eq!(with(row_then_capture), (30, WRITTEN + GATE + CAPTURE));
    let write_then_gate = exit().write(0x1304, 0).gate(32, NORMAL, PLAIN);
    assert_eq!(with(write_then_gate), (28, WRITTEN));
    let mut long = exit().gate(32, NORMAL, PLAIN).end();
    long.resize(32_769, 0);
    assert_eq!(refused(&long), (31, 0));
}

#[test]
fn refused_jobs_in_hex() {
    // Gate byte 3; event 32; the second gate; a gain of NaN; the capture without a gate.
    assert_eq!(
        of_hex("0401 060003000000000000803f0000803f00000000 00"),
        (33, 2)
    );
    assert_eq!(
        of_hex("0401 062000000000000000803f0000803f00000000 00"),
        (33, 2)
    );
    let gate = "060002000000000000803f0000803f00000000";
    assert_eq!(of_hex(&format!("0401 {gate} {gate} 00")), (33, 21));
    assert_eq!(
        of_hex("0401 060002000000000000803f0000c07f00000000 00"),
        (16, 2)
    );
    assert_eq!(of_hex(&format!("0401 {gate} 050100000000 00")), (33, 21));
    assert_eq!(of_hex(&format!("0401 {gate} 050000000000 00")), (33, 27));
}

#[test]
fn every_prefix_of_the_worked_job_is_refused_at_its_last_record() {
    let job = hex(WORKED);
    let lengths = [2, 9, 9, GATE, CAPTURE, ROW, CAPTURE, ROW, CAPTURE, ROW];
    let mut starts = vec![0];
    starts.extend(lengths.iter().scan(0, |at, length| {
        *at += length;
        Some(*at)
    }));
    assert_eq!(job.len(), starts[lengths.len()] + 1);
    for length in 0..job.len() {
        let number = if starts.contains(&length) { 21 } else { 20 };
        let offset = *starts.iter().rfind(|&&start| start <= length).unwrap();
        assert_eq!(refused(&job[..length]), (number, offset));
    }
}
