//! The reports: the proved one and the second program's.

use crate::table::Line;
use crate::timing;
use hwsq::REPORT_SIZE;
use std::hint::black_box;

/// Both give the same report, which is given back.
pub fn agreed(job: &[u8], out: &mut [u8; REPORT_SIZE]) -> Vec<u8> {
    let length = hwsq::report(job, out);
    let report = second::job::report(job);
    assert_eq!(out[..length], report);
    report
}

pub fn line(name: &str, job: &[u8]) -> Line {
    let mut out = [0; REPORT_SIZE];
    agreed(job, &mut out);
    let [proved, second] = timing::best([
        &mut || timing::spend(hwsq::report(black_box(job), &mut out)),
        &mut || timing::spend(second::job::report(black_box(job))),
    ]);
    let line = Line {
        name: format!("report, {name}"),
        proved,
        second,
        third: None,
    };
    line.print();
    line
}

/// How many reports one core makes of a job.
pub fn a_second(name: &str, job: &[u8], line: &Line) {
    let mut out = [0; REPORT_SIZE];
    let (bytes, report) = (job.len(), hwsq::report(job, &mut out));
    let (proved, second) = (1e9 / line.proved, 1e9 / line.second);
    println!(
        "reports a second, {name} job ({bytes} bytes, report {report}): proved {proved:.0}, second {second:.0}"
    );
}
