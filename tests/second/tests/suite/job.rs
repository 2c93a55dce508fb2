//! Reports on jobs that are not refused.

use crate::common::hex;
use second::job::report;
use std::io::Write;
use std::process::{Command, Stdio};

pub const WORKED: &str = "0403 030016100003161000 029810000008000000 0200140000e2785634 \
    020414000012e00016 020814000010007f7f 020413000000000000 020c13000003000000 00";

const WORKED_REPORT: &str = "family 3\n\
    verdict 0 place 10 count 3 writes 1 clocks 0\n\
    write 00101600 12345678\n\
    end exit row 0 used 0\n\
    status 0000000a\n";

pub fn text(job: &[u8]) -> String {
    String::from_utf8(report(job)).unwrap()
}

/// Records put together one after another.
#[derive(Clone)]
pub struct Records(pub Vec<u8>);

impl Records {
    pub fn family(family: u8) -> Records {
        Records(vec![4, family])
    }

    pub fn range(mut self, first: u32, last: u32) -> Records {
        self.0.push(3);
        self.words(&[first, last])
    }

    pub fn write(mut self, address: u32, value: u32) -> Records {
        self.0.push(2);
        self.words(&[address, value])
    }

    pub fn row(mut self, clocks: u64, known: u32, values: u32) -> Records {
        self.0.push(1);
        self.words(&[clocks as u32, (clocks >> 32) as u32, known, values])
    }

    /// A gate for an event: its gate byte, then low, high, gain and offset.
    pub fn gate(mut self, event: u8, gate: u8, floats: [f32; 4]) -> Records {
        self.0.extend([6, event, gate]);
        self.words(&floats.map(f32::to_bits))
    }

    pub fn capture(mut self, event: u8, raw: f32) -> Records {
        self.0.extend([5, event]);
        self.words(&[raw.to_bits()])
    }

    fn words(mut self, words: &[u32]) -> Records {
        for word in words {
            self.0.extend(word.to_le_bytes());
        }
        self
    }

    /// Uploads code from place 0, the last word filled with 7f.
    pub fn code(self, text: &str) -> Records {
        let mut bytes = hex(text);
        bytes.resize(bytes.len().next_multiple_of(4), 0x7f);
        let words = bytes
            .chunks_exact(4)
            .map(|b| u32::from_le_bytes(b.try_into().unwrap()));
        words.enumerate().fold(self, |job, (i, word)| {
            job.write(0x1400 + 4 * i as u32, word)
        })
    }

    pub fn start_a(self) -> Records {
        self.write(0x130c, 3)
    }

    pub fn end(mut self) -> Vec<u8> {
        self.0.push(0);
        self.0
    }
}

#[test]
fn the_worked_job() {
    assert_eq!(text(&hex(WORKED)), WORKED_REPORT);
}

#[test]
fn the_program_prints_the_report() {
    let mut child = Command::new(env!("CARGO_BIN_EXE_second"))
        .stdin(Stdio::piped())
        .stdout(Stdio::piped())
        .spawn()
        .unwrap();
    child.stdin.take().unwrap().write_all(&hex(WORKED)).unwrap();
    let output = child.wait_with_output().unwrap();
    assert!(output.status.success());
    assert_eq!(String::from_utf8(output.stdout).unwrap(), WORKED_REPORT);
}

#[test]
fn a_refused_script_prints_two_lines() {
    let job = Records::family(2).code("b07f").start_a().row(5, 1, 1).end();
    assert_eq!(text(&job), "family 2\nverdict 8 place 1\n");
    let job = Records::family(1).code("b07f").start_a().end();
    let passed = "family 1\nverdict 0 place 1 count 2 writes 0 clocks 0\n\
        end exit row 0 used 0\nstatus 00000001\n";
    assert_eq!(text(&job), passed);
    let job = Records::family(3).write(0x1304, 9).start_a().end();
    assert_eq!(text(&job), "family 3\nverdict 2 place 9\n");
    let job = Records::family(1)
        .write(0x1304, 0xff00)
        .write(0x130c, 7)
        .end();
    assert_eq!(text(&job), "family 1\nverdict 1 place 255\n");
}

#[test]
fn rows_are_reported_whether_reached_or_not() {
    let job = Records::family(2).code("5f01007f").start_a();
    let ended = job.clone().row(7, 0, 0).end();
    let expected = "family 2\nverdict 0 place 3 count 2 writes 0 clocks 0\n\
        row 0 known 0 first 0\nend log row 1 used 0\nstatus 00000103\n";
    assert_eq!(text(&ended), expected);
    let exited = job
        .row(1 << 48, 2, 0)
        .row(1, u32::MAX, 0)
        .row(1, 7, 0)
        .end();
    let expected = "family 2\nverdict 0 place 3 count 2 writes 0 clocks 0\n\
        row 0 known 1 first 0\nrow 1 known 32 first 32\nrow 2 known 3 first 3\n\
        end exit row 0 used 0\nstatus 00000003\n";
    assert_eq!(text(&exited), expected);
}

#[test]
fn a_wait_cut_off_keeps_the_slot_executing() {
    let job = Records::family(1)
        .code("05057f")
        .start_a()
        .row(200, 0, 0)
        .end();
    let expected = "family 1\nverdict 0 place 2 count 3 writes 0 clocks 256\n\
        row 0 known 0 first 0\nend log row 1 used 0\nstatus 00000102\n";
    assert_eq!(text(&job), expected);
    let job = Records::family(1)
        .code("05057f")
        .start_a()
        .row(300, 0, 0)
        .end();
    let expected = "family 1\nverdict 0 place 2 count 3 writes 0 clocks 256\n\
        row 0 known 0 first 0\nend exit row 0 used 256\nstatus 00000002\n";
    assert_eq!(text(&job), expected);
}

#[test]
fn a_poke_without_hwsq_enable_ends_the_run() {
    let job = Records::family(2)
        .range(0, u32::MAX)
        .code("e278563412 e000161000 7f");
    let blocked = job.clone().start_a().end();
    let verdict = "family 2\nverdict 0 place 10 count 3 writes 1 clocks 0\n";
    assert_eq!(
        text(&blocked),
        format!("{verdict}end poke row 0 used 0\nstatus 0000010a\n")
    );
    let enabled = job.write(0x1098, 8).start_a().end();
    let ran = "write 00101600 12345678\nend exit row 0 used 0\nstatus 0000000a\n";
    assert_eq!(text(&enabled), format!("{verdict}{ran}"));
}

#[test]
fn slot_b_shows_in_the_high_half() {
    let job = Records::family(3)
        .code("00007f")
        .write(0x1304, 1 << 16)
        .write(0x130c, 0x9)
        .end();
    let expected = "family 3\nverdict 0 place 2 count 2 writes 0 clocks 0\n\
        end exit row 0 used 0\nstatus 00020000\n";
    assert_eq!(text(&job), expected);
}

#[test]
fn family_4_reaches_the_upper_half() {
    let job = Records::family(4)
        .write(0x8_0104, 0x7f7f_7f00)
        .write(0x1304, 0x0400_0000)
        .write(0x1318, 0x0100_0000)
        .write(0x130c, 0xd)
        .end();
    let expected = "family 4\nverdict 0 place 261 count 2 writes 0 clocks 0\n\
        end exit row 0 used 0\nstatus 00000405\n";
    assert_eq!(text(&job), expected);
}

#[test]
fn an_abort_allows_another_start() {
    let job = Records::family(2)
        .code("7f7f7f7f")
        .start_a()
        .write(0x130c, 0)
        .write(0x130c, 2)
        .write(0x1304, 2)
        .write(0x130c, 1)
        .end();
    let expected = "family 2\nverdict 0 place 2 count 1 writes 0 clocks 0\n\
        end exit row 0 used 0\nstatus 00020000\n";
    assert_eq!(text(&job), expected);
}
