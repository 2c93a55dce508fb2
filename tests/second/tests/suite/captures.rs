//! Reports on jobs with gates and captures.

use crate::common::hex;
use crate::job::{text, Records};

pub const NORMAL: u8 = 0;
pub const INVERTED: u8 = 1;
pub const DEAD: u8 = 2;

/// Levels 1 and 2 volts, and raw values that are volts already.
pub const PLAIN: [f32; 4] = [1.0, 2.0, 1.0, 0.0];

/// Waits for event 3 to be 1 under a normal gate with levels 0.8 and 2; three rows, whose own masks know all.
pub const WORKED: &str = "0402 02001400005f03017f 020c13000003000000 \
    060300cdcc4c3f000000400000803f00000000 \
    05030000003f 010a00000000000000ffffffffffffffff \
    05030000c03f 010a00000000000000ffffffffffffffff \
    050300000040 010a00000000000000ffffffffffffffff 00";

const WORKED_REPORT: &str = "family 2\n\
    verdict 0 place 3 count 2 writes 0 clocks 0\n\
    row 0 known 1 first 0\n\
    row 1 known 0 first 0\n\
    row 2 known 1 first 0\n\
    event 3 least 3f000000 greatest 40000000 between 1\n\
    end exit row 2 used 0\n\
    status 00000003\n";

/// A job of family 2 that exits at once, up to its host writes.
pub fn exit() -> Records {
    Records::family(2).code("7f").start_a()
}

/// The lines of rows and events of such a job.
fn lines(records: Records) -> String {
    let report = text(&records.end());
    let begun = report.strip_prefix("family 2\nverdict 0 place 0 count 1 writes 0 clocks 0\n");
    let lines =
        begun.and_then(|rest| rest.strip_suffix("end exit row 0 used 0\nstatus 00000000\n"));
    lines.unwrap_or_else(|| panic!("{report}")).to_string()
}

/// The line of event 0 under a gate, each raw value captured before a row of its own.
fn event_0(gate: u8, floats: [f32; 4], raws: &[f32]) -> String {
    let gated = exit().gate(0, gate, floats);
    let rows = raws
        .iter()
        .fold(gated, |job, &raw| job.capture(0, raw).row(1, 0, 0));
    let lines = lines(rows);
    lines.lines().last().unwrap().to_string()
}

/// How the wait for event 3 to have a value ends under these records.
fn waited(value: u8, records: impl Fn(Records) -> Records) -> String {
    let script = format!("5f03{value:02x}7f");
    let job = records(Records::family(2).code(&script).start_a()).end();
    let report = text(&job);
    let end = report.lines().find(|line| line.starts_with("end"));
    end.unwrap().to_string()
}

#[test]
fn the_worked_job() {
    assert_eq!(text(&hex(WORKED)), WORKED_REPORT);
}

#[test]
fn a_whole_report_has_events_between_rows_and_end() {
    // Event 5 is inverted and twice its raw value, event 2 is dead; nothing is captured for row 1.
    let job = Records::family(3)
        .range(0x10_1600, 0x10_1603)
        .write(0x1098, 8)
        .code("5f0500 e278563412 e000161000 01 7f")
        .start_a()
        .gate(5, INVERTED, [1.0, 3.0, 2.0, 0.5])
        .gate(2, DEAD, [f32::NAN, f32::INFINITY, -1.0, 0.0])
        .capture(2, 4.0)
        .capture(5, 0.25)
        .row(10, 0, 0)
        .row(10, 0x10, 0)
        .capture(5, 1.5)
        .row(100, 0, 0)
        .end();
    // Row 0: 0.25 * 2 + 0.5 = 1 reads 1. Row 2: 1.5 * 2 + 0.5 = 3.5 reads 0.
    let expected = "family 3\n\
        verdict 0 place 14 count 5 writes 1 clocks 32\n\
        write 00101600 12345678\n\
        row 0 known 1 first 0\n\
        row 1 known 1 first 0\n\
        row 2 known 1 first 0\n\
        event 2 least c0800000 greatest c0800000 between 0\n\
        event 5 least 3f800000 greatest 40600000 between 0\n\
        end exit row 2 used 32\n\
        status 0000000e\n";
    assert_eq!(text(&job), expected);
}

#[test]
fn every_family_takes_captures() {
    for family in 1..=4 {
        let job = Records::family(family)
            .code("7f")
            .start_a()
            .gate(0, NORMAL, PLAIN)
            .capture(0, 2.0)
            .row(1, 0, 0)
            .end();
        let expected = format!(
            "family {family}\nverdict 0 place 0 count 1 writes 0 clocks 0\n\
            row 0 known 1 first 1\nevent 0 least 40000000 greatest 40000000 between 0\n\
            end exit row 0 used 0\nstatus 00000000\n"
        );
        assert_eq!(text(&job), expected);
    }
}

#[test]
fn a_row_with_captures_loses_its_own_masks() {
    let gated = exit().gate(0, NORMAL, PLAIN).gate(1, NORMAL, PLAIN);
    let one = gated.clone().capture(1, 2.5).row(1, u32::MAX, u32::MAX);
    assert!(lines(one).starts_with("row 0 known 1 first 0\n"));
    let without_reading = gated.clone().capture(1, 1.5).row(1, u32::MAX, u32::MAX);
    assert!(lines(without_reading).starts_with("row 0 known 0 first 0\n"));
    let without_capture = gated.row(1, 0x8000_000f, 0);
    assert!(lines(without_capture).starts_with("row 0 known 5 first 4\n"));
}

#[test]
fn captures_and_own_masks_decide_the_run() {
    let gate = |job: Records| job.gate(3, NORMAL, PLAIN).gate(9, DEAD, PLAIN);
    // What the row itself says of event 3 is gone, also where event 9 alone was captured.
    for (event, raw) in [(3, 1.5), (3, 0.5), (3, f32::NAN), (9, 2.0)] {
        let end = waited(1, |job| {
            gate(job).capture(event, raw).row(5, 8, 8).row(5, 8, 8)
        });
        assert_eq!(end, "end exit row 1 used 0");
    }
    let end = waited(1, |job| gate(job).capture(3, 2.0).row(5, 0, 0));
    assert_eq!(end, "end exit row 0 used 0");
    // A reading of 0 is none of 1, and no reading is none of 0.
    assert_eq!(
        waited(1, |job| gate(job).capture(3, 1.0).row(5, 8, 8)),
        "end log row 1 used 0"
    );
    assert_eq!(
        waited(0, |job| gate(job).capture(3, 1.0).row(5, 8, 8)),
        "end exit row 0 used 0"
    );
    assert_eq!(
        waited(0, |job| gate(job).capture(3, 1.5).row(5, 8, 0)),
        "end log row 1 used 0"
    );
}

#[test]
fn an_inverted_gate_swaps_the_values() {
    for (raw, value) in [(0.5, 1), (1.0, 1), (2.0, 0), (2.5, 0)] {
        for wanted in [0, 1] {
            let rows = |job: Records| job.gate(3, INVERTED, PLAIN).capture(3, raw).row(5, 0, 0);
            let expected = if wanted == value {
                "end exit row 0 used 0"
            } else {
                "end log row 1 used 0"
            };
            assert_eq!(waited(wanted, rows), expected);
        }
    }
}

#[test]
fn captures_are_for_one_row_alone() {
    let gated = exit().gate(0, NORMAL, PLAIN).gate(1, INVERTED, PLAIN);
    let job = gated
        .capture(0, 2.0)
        .row(1, 0, 0)
        .capture(1, 0.0)
        .row(1, 0, 0)
        .row(1, 0, 0)
        .capture(1, 3.0)
        .capture(0, 1.0)
        .row(1, 0, 0);
    let expected = "row 0 known 1 first 1\n\
        row 1 known 1 first 0\n\
        row 2 known 0 first 0\n\
        row 3 known 2 first 2\n\
        event 0 least 3f800000 greatest 40000000 between 0\n\
        event 1 least 00000000 greatest 40400000 between 0\n";
    assert_eq!(lines(job), expected);
}

#[test]
fn gates_without_captures_have_lines_in_rising_order() {
    let job = exit()
        .gate(31, NORMAL, PLAIN)
        .gate(0, DEAD, PLAIN)
        .gate(7, INVERTED, PLAIN);
    let expected = "event 0 least none greatest none between 0\n\
        event 7 least none greatest none between 0\n\
        event 31 least none greatest none between 0\n";
    assert_eq!(lines(job.clone()), expected);
    assert_eq!(
        lines(job.row(1, 3, 0)),
        format!("row 0 known 2 first 2\n{expected}")
    );
}

#[test]
fn thirty_two_gates_and_captures() {
    let gated = (0..32)
        .rev()
        .fold(exit(), |job, event| job.gate(event, NORMAL, PLAIN));
    let all = (0..32).fold(gated.clone(), |job, event| {
        job.capture(event, f32::from(event))
    });
    let report = lines(all.row(1, 0, 0));
    // Events 0 and 1 read 0 and all above read 1; none is between.
    assert!(report.starts_with("row 0 known 32 first 32\n"));
    for event in 0..32u8 {
        let bits = f32::from(event).to_bits();
        let line = format!("event {event} least {bits:08x} greatest {bits:08x} between 0");
        assert_eq!(report.lines().nth(1 + usize::from(event)), Some(&*line));
    }
    let no_5 = (0..32).filter(|&event| event != 5);
    let gap = no_5.fold(gated, |job, event| job.capture(event, 9.0));
    assert!(lines(gap.row(1, 0, 0)).starts_with("row 0 known 31 first 5\n"));
}

#[test]
fn captures_of_rows_that_the_run_never_reached_count() {
    let job = exit()
        .gate(0, NORMAL, PLAIN)
        .row(1, 0, 0)
        .capture(0, 1.25)
        .row(1, 0, 0);
    let expected = "row 0 known 0 first 0\n\
        row 1 known 0 first 0\n\
        event 0 least 3fa00000 greatest 3fa00000 between 1\n";
    assert_eq!(lines(job), expected);
}

#[test]
fn volts_at_the_levels_are_not_between() {
    let (above_low, below_high) = (1.0f32.next_up(), 2.0f32.next_down());
    for gate in [NORMAL, INVERTED] {
        let line = event_0(gate, PLAIN, &[1.0, 2.0]);
        assert_eq!(line, "event 0 least 3f800000 greatest 40000000 between 0");
        let line = event_0(
            gate,
            PLAIN,
            &[2.0, above_low, below_high, 1.0, above_low, 0.5, 2.5],
        );
        assert_eq!(line, "event 0 least 3f000000 greatest 40200000 between 3");
        let line = event_0(gate, PLAIN, &[above_low, below_high]);
        assert_eq!(line, "event 0 least 3f800001 greatest 3fffffff between 2");
    }
}

#[test]
fn a_dead_gate_has_volts_but_nothing_between() {
    for (low, high) in [
        (1.0, 2.0),
        (2.0, 1.0),
        (0.0, 0.0),
        (f32::NAN, f32::NEG_INFINITY),
    ] {
        let line = event_0(DEAD, [low, high, 1.0, 0.0], &[1.5, 0.5, 3.0]);
        assert_eq!(line, "event 0 least 3f000000 greatest 40400000 between 0");
    }
    let row = lines(exit().gate(0, DEAD, PLAIN).capture(0, 3.0).row(1, 1, 1));
    assert!(row.starts_with("row 0 known 0 first 0\n"));
}

#[test]
fn of_equal_zeros_the_first_is_told() {
    // An offset of -0.0 keeps the sign of a zero; 0.0 doesn't.
    let kept = [-1.0, 1.0, 1.0, -0.0];
    for (raws, least, greatest) in [
        (&[0.0, -0.0][..], "00000000", "00000000"),
        (&[-0.0, 0.0], "80000000", "80000000"),
        (&[-0.0, 0.5, 0.0], "80000000", "3f000000"),
        (&[-0.5, 0.0, -0.0], "bf000000", "00000000"),
        (&[0.5, 0.0, -0.5, -0.0], "bf000000", "3f000000"),
    ] {
        let line = event_0(NORMAL, kept, raws);
        let between = raws.len();
        assert_eq!(
            line,
            format!("event 0 least {least} greatest {greatest} between {between}")
        );
    }
    let line = event_0(NORMAL, [-1.0, 1.0, 1.0, 0.0], &[-0.0]);
    assert_eq!(line, "event 0 least 00000000 greatest 00000000 between 1");
    // A zero of either sign is at a level of either sign.
    for low in [0.0, -0.0] {
        let line = event_0(NORMAL, [low, 1.0, 1.0, -0.0], &[-0.0, 0.0]);
        assert_eq!(line, "event 0 least 80000000 greatest 80000000 between 0");
    }
}

#[test]
fn product_and_sum_are_rounded_apart() {
    // Rounded once, these volts were 2^-46 and between the levels.
    let a = 1.0 + f32::EPSILON;
    let floats = [0.0, 1.0, a, -1.0 - 2.0 * f32::EPSILON];
    let line = event_0(NORMAL, floats, &[a]);
    assert_eq!(line, "event 0 least 00000000 greatest 00000000 between 0");
    let row = lines(exit().gate(0, NORMAL, floats).capture(0, a).row(1, 0, 0));
    assert!(row.starts_with("row 0 known 1 first 1\n"));
}

#[test]
fn subnormal_volts_are_volts() {
    let tiny = f32::from_bits;
    let line = event_0(NORMAL, [0.0, 1.0, 1.0, 0.0], &[tiny(1), tiny(0x8000_0001)]);
    assert_eq!(line, "event 0 least 80000001 greatest 00000001 between 1");
    // Subnormal levels: at the low one, between, at the high one.
    let line = event_0(
        INVERTED,
        [tiny(1), tiny(3), 1.0, 0.0],
        &[tiny(1), tiny(2), tiny(3)],
    );
    assert_eq!(line, "event 0 least 00000001 greatest 00000003 between 1");
    // Halves: the least normal becomes subnormal, 3 rounds to the even 2, 1 to 0.
    let half = [0.0, 1.0, 0.5, 0.0];
    let line = event_0(NORMAL, half, &[f32::MIN_POSITIVE, tiny(3)]);
    assert_eq!(line, "event 0 least 00000002 greatest 00400000 between 2");
    let line = event_0(NORMAL, half, &[tiny(1)]);
    assert_eq!(line, "event 0 least 00000000 greatest 00000000 between 0");
}

#[test]
fn volts_that_are_not_finite_leave_no_trace() {
    let wide = [f32::MIN, f32::MAX, 2.0, 0.0];
    for gate in [NORMAL, INVERTED, DEAD] {
        let raws = [
            f32::NAN,
            -f32::NAN,
            f32::INFINITY,
            f32::NEG_INFINITY,
            f32::MAX,
            f32::MIN,
        ];
        let line = event_0(gate, wide, &raws);
        assert_eq!(line, "event 0 least none greatest none between 0");
        let signalling = [f32::from_bits(0x7f80_0001), f32::from_bits(0xffbf_ffff)];
        let line = event_0(gate, wide, &signalling);
        assert_eq!(line, "event 0 least none greatest none between 0");
    }
    // Half of the greatest finite value is just not too large.
    let half = f32::MAX / 2.0;
    let line = event_0(
        NORMAL,
        wide,
        &[f32::NAN, half, f32::INFINITY, -half, f32::MIN, 0.0],
    );
    assert_eq!(line, "event 0 least ff7fffff greatest 7f7fffff between 1");
}

#[test]
fn overflow_is_not_undone_by_the_offset() {
    let line = event_0(NORMAL, [0.0, 1.0, 2.0, f32::MIN], &[f32::MAX]);
    assert_eq!(line, "event 0 least none greatest none between 0");
    let line = event_0(NORMAL, [0.0, 1.0, 1.0, f32::MAX], &[f32::MAX, f32::MIN]);
    assert_eq!(line, "event 0 least 00000000 greatest 00000000 between 0");
    // A gain of 0 makes NaN of an infinite raw value and the offset of any other.
    let line = event_0(NORMAL, [0.0, 9.0, 0.0, 5.0], &[f32::INFINITY, 3.0, -7.0]);
    assert_eq!(line, "event 0 least 40a00000 greatest 40a00000 between 2");
}

#[test]
fn a_refused_script_prints_no_events() {
    let job = Records::family(2)
        .code("b07f")
        .start_a()
        .gate(0, NORMAL, PLAIN)
        .capture(0, 1.5)
        .row(5, 0, 0)
        .end();
    assert_eq!(text(&job), "family 2\nverdict 8 place 1\n");
}

#[test]
fn captures_before_each_of_1024_rows() {
    let gated = exit().gate(4, NORMAL, PLAIN);
    let rows = (0..1024).fold(gated, |job, row| {
        let raw = if row % 2 == 0 { 1.5 } else { 2.5 };
        job.capture(4, raw).row(1, 0, 0)
    });
    let report = lines(rows);
    let expected = (0..1024).map(|row| format!("row {row} known {} first 0\n", row % 2));
    let event = "event 4 least 3fc00000 greatest 40200000 between 512\n";
    assert_eq!(report, expected.collect::<String>() + event);
}

#[test]
fn the_first_of_equal_volts_may_come_from_a_later_row() {
    // The least of event 1 is a zero, and comes as -0.0 in row 1 and as 0.0 in row 2.
    let job = exit()
        .gate(1, NORMAL, [-1.0, 1.0, -1.0, -0.0])
        .gate(0, INVERTED, [-1.0, 1.0, 1.0, -0.0])
        .capture(1, -2.0)
        .capture(0, -0.0)
        .row(1, 0, 0)
        .capture(0, 0.0)
        .capture(1, 0.0)
        .row(1, 0, 0)
        .capture(1, -0.0)
        .row(1, 0, 0);
    let expected = "row 0 known 1 first 0\n\
        row 1 known 0 first 0\n\
        row 2 known 0 first 0\n\
        event 0 least 80000000 greatest 80000000 between 2\n\
        event 1 least 80000000 greatest 40000000 between 2\n";
    assert_eq!(lines(job), expected);
}
