//! Times the proved calls, by their C names, beside the second program and a plain auditor, in one run.

mod audits;
mod damage;
mod jobs;
mod logs;
mod plain;
mod replays;
mod reports;
mod scripts;
mod table;
mod timing;
mod witnesses;

use std::process::ExitCode;
use table::Line;

const LIMIT: f64 = 2.0;

fn main() -> ExitCode {
    // Times can be compared only where the answers are the same.
    damage::agree();
    table::head();
    let mut limited: Vec<Line> = scripts::audited().iter().map(audits::line).collect();
    limited.extend(scripts::replayed().iter().map(replays::line));
    // Beside the limit: what a call costs that has next to nothing to do.
    audits::line(&scripts::at_once("audit, fails at the first byte"));
    replays::line(&scripts::at_once("replay, stops at the first byte"));
    report_lines();
    witness_lines();
    let (ratio, name) = table::worst(&limited, Line::to_second);
    println!("worst of audit and replay to the second program: {ratio:.2}, {name}");
    let (ratio, name) = table::worst(&limited, Line::ratio);
    println!("worst of audit and replay to the faster of the others: {name}");
    println!("ratio {ratio:.2}");
    ExitCode::from(u8::from(ratio > LIMIT))
}

fn witness_lines() {
    table::columns("audit");
    let lines: Vec<Line> = scripts::witnessed().iter().map(witnesses::line).collect();
    witnesses::line(&scripts::at_once("witness, fails at the first byte"));
    let (ratio, name) = table::worst(&lines, Line::to_third);
    println!("worst of a witness to the audit of its script: {ratio:.2}, {name}");
}

fn report_lines() {
    let (typical, full) = (jobs::typical(), jobs::full(0x7f));
    let of_typical = reports::line("a typical job", &typical);
    let of_full = reports::line("a full job, passes", &full);
    let failing = jobs::full(0xff);
    reports::line("a full job, fails at the last byte", &failing);
    reports::line("a full job, refused at its end", &full[..full.len() - 1]);
    reports::line("a job of 4,896 captures", &jobs::captures());
    reports::a_second("typical", &typical, &of_typical);
    reports::a_second("full", &full, &of_full);
}
