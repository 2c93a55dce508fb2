//! The program `vectors`, run as a whole.

use std::io::Write;
use std::process::{Command, Output, Stdio};

const REPLAY: &str = "replay 2 entry 0 at 0 5f01017f addr 00000000 data 00000000 \
                      flags 00000000 00000000 enable yes lent";

/// Runs the program on this input.
fn run(input: &[u8]) -> Output {
    let mut program = Command::new(env!("CARGO_BIN_EXE_vectors"))
        .stdin(Stdio::piped())
        .stdout(Stdio::piped())
        .stderr(Stdio::piped())
        .spawn()
        .unwrap();
    let mut stdin = program.stdin.take().unwrap();
    // A program that has read enough may end before it gets everything.
    let _ = stdin.write_all(input);
    drop(stdin);
    program.wait_with_output().unwrap()
}

/// Tests one run on lines of a call, `=>` and its answer; those without `=>` have none.
fn answers(script: &str) {
    let lines = script.lines().map(str::trim_start);
    let calls = lines.map(|line| line.split_once(" => ").unwrap_or((line, "")));
    let (mut input, mut expected) = (String::new(), String::new());
    for (call, answer) in calls {
        let space = if answer.is_empty() { "" } else { " " };
        input += &format!("{call}\n");
        expected += &format!("{call}{space}{answer}\n");
    }
    let output = run(input.as_bytes());
    assert!(output.status.success(), "{output:?}");
    assert_eq!(String::from_utf8(output.stdout).unwrap(), expected);
}

/// Tests that each of these lines ends the program, and that what came before it is printed.
fn unreadable(before: &str, lines: &[&str]) {
    let printed = run(before.as_bytes());
    assert!(printed.status.success(), "{printed:?}");
    for line in lines {
        let output = run(format!("{before}{line}\nfamily 1\n").as_bytes());
        assert_eq!(output.status.code(), Some(2), "{line}");
        assert_eq!(output.stdout, printed.stdout, "{line}");
        assert!(!output.stderr.is_empty(), "{line}");
    }
}

#[test]
fn comments_stand_as_they_are() {
    let input = b"# one  two \n\n#\xff\r\n#";
    let output = run(input);
    assert!(output.status.success());
    assert_eq!(output.stdout, [input, &b"\n"[..]].concat());
    assert!(run(b"").stdout.is_empty());
}

#[test]
fn unknown_calls_are_answered() {
    let many = "x".to_string() + &" y".repeat(1200);
    let names = ["frob", "frob  1 ", "Family 1", "entry 0", " ", &many];
    let unlike_scripts = [
        "audit_ 1",
        "witness_all 1",
        "replay_part_hole",
        "step_part A",
        "_hole",
    ];
    for line in names.iter().chain(&unlike_scripts) {
        let output = run(line.as_bytes());
        assert!(output.status.success());
        let answered = format!("{line} unknown call\n");
        assert_eq!(String::from_utf8(output.stdout).unwrap(), answered);
    }
    assert_eq!(run(b"\xff 1\n").stdout, b"\xff 1 unknown call\n");
}

#[test]
fn isa_calls() {
    answers(
        "family 2 => size 128 slots 2 unknown hangs pauses yes entry 255
         clocks 3 15 => 103079215104
         decode 2 40341200 => addrlo 1234 length 3
         decode 0 - => refused 9
         encode 2 room 4 datalo 1234 => length 3 lent 423412aa
         encode 1 room 0 wait 4 0 => refused 12 lent -
         encode 4 room 6 addr 00101600 => length 5 lent e000161000aa",
    );
}

#[test]
fn isa_calls_that_cannot_be_read() {
    unreadable(
        "",
        &[
            "family",
            "family 0",
            "family 5",
            "family 1 ",
            "family  1",
            "family 1\r",
            "family 1 1",
            "family +1",
            "clocks 256 0",
            "clocks 18446744073709551616 0",
            "decode 256 7f",
            "decode 2 7",
            "decode 2 7F",
            "decode 2 ",
            &format!("decode 2 {}", "7f".repeat(601)),
            "encode 2 room 9 exit",
            "encode 2 rooms 1 exit",
            "encode 2 room 1 halt",
            "encode 2 room 1 exit 0",
            "encode 2 room 3 addrlo 12345",
            "encode 2 room 1 wait 256 0",
        ],
    );
}

#[test]
fn probe_calls() {
    answers(
        "gate inverted 3f800000 40000000 3f800000 00000000 40000000 => volts 40000000 reads 0
         gate dead ffffffff 00000000 3f800000 00000000 ffc00000 => volts 7fc00000 reads none
         gate normal 40000000 40000000 3f800000 00000000 00000000 => refused 16",
    );
    unreadable(
        "",
        &[
            "gate 0 3f800000 40000000 3f800000 00000000 40000000",
            "gate dead - - 3f800000 00000000 40000000",
            "gate normal 3f800000 40000000 3f800000 00000000",
        ],
    );
}

#[test]
fn host_calls() {
    answers(
        "fresh 2 => done
         write 00001400 00007fb0 => done
         write 0000130c 00000003 => done
         write 00001400 00000000 => refused 28
         read 00001308 => 00000100
         fresh 4 => done
         high ffffffff
         read 00001318 => 01010101
         raw 511 65 1
         read 000801fc => 41000000",
    );
}

#[test]
fn machine_calls() {
    answers(
        "log 1 known - values -
         fresh 2 => done
         raw 0 176 1
         force A running 0
         step A => done waited 0 searched 0 row 0 used 0 running ip 1 addr 00000000 data 00000000 \
         flags 00000000 00010001 paused
         force B waiting 700
         slots => A running ip 1 addr 00000000 data 00000000 \
         B waiting ip 700 addr 00000000 data 00000000
         place 3 0
         step B => refused 15 waited 0 searched 0 row 3 used 0 waiting ip 700 addr 00000000 \
         data 00000000 flags 00000000 00010001 paused
         fresh 0 => refused 9
         slots => A idle ip 0 addr 00000000 data 00000000 B idle ip 0 addr 00000000 data 00000000
         step B => refused 9 waited 0 searched 0 row 0 used 0 idle ip 0 addr 00000000 \
         data 00000000 flags 00000000 00000000 free",
    );
}

#[test]
fn machine_calls_that_cannot_be_read() {
    unreadable("", &["slots", "step A", "write 00001304 00000000"]);
    unreadable(
        "fresh 4\n",
        &[
            "fresh 256",
            "slots A",
            "step a",
            "step C",
            "force A fetching 0",
            "force A idle 4294967296",
            "raw 512 0 0",
            "raw 0 256 0",
            "read 1308",
            "write 00001304",
            "high 0xffffff",
            "place 0 -1",
        ],
    );
}

#[test]
fn the_log_stays_until_it_is_set() {
    let ended = "addr 00000000 data 00000000 flags 00000000 00000000";
    let no_rows = format!(
        "{REPLAY} 340 => ending log ip 3 {ended} row 0 used 0 steps 1 writes 0 waited 0 searched 0 \
         left 0 lent aaaaaaaa aaaaaaaa"
    );
    answers(&format!(
        "{no_rows}
         rows 3 5 00000002 00000000 00000002
         {REPLAY} 340 => ending exit ip 3 {ended} row 2 used 0 steps 2 writes 0 waited 0 \
         searched 10 left 5 lent aaaaaaaa aaaaaaaa
         {REPLAY} 1 => refused 14 lent aaaaaaaa
         {REPLAY} 0 => refused 14 lent
         log - known 00000002 values -
         {REPLAY} 340 => refused 15 lent aaaaaaaa aaaaaaaa
         fresh 255 => refused 9
         {no_rows}"
    ));
}

#[test]
fn logs_that_cannot_be_read() {
    let mask = " 00000000".repeat(366);
    let long = format!("log{} known{mask} values{mask}", " 1".repeat(366));
    unreadable(
        "",
        &[
            "log 1 known 00000000",
            "log known - values -",
            "log - known 0 values -",
            "log 1 - known - values -",
            "log a known - values -",
            "rows 1101 1 00000000 00000000 00000000",
            "rows 0 1 00000000 00000000",
            &long,
            &format!("{REPLAY} 401"),
        ],
    );
}

#[test]
fn scripts() {
    answers(
        "audit 1 entry 0 at 0 7f ranges - => verdict 0 place 0 count 1 writes 0 clocks 0
         audit 2 entry 127 at 127 00ff ranges - => verdict 1 place 128
         audit 2 entry 0 at 18446744073709551615 7f ranges - => verdict 1 place 128
         audit_part 2 entry 5 at 5 057f ranges - => verdict 0 place 6 count 2 writes 0 clocks 128
         audit_part 2 entry 0 at 5 7f ranges - => verdict 2 place 0
         audit_hole 2 entry 0 at 0 00007f hole 1 ranges - => verdict 2 place 1
         audit_input 0 entry 0 size 64 marks 0 last 7 ranges - => verdict 9 place 0
         audit_input 2 entry 0 size 128 marks 128 last 1 ranges 00000005 => verdict 9 place 0
         listed 00000fff ranges 00000000 00000fff => yes
         listed 00001000 ranges 00000000 00000fff => no
         replay_hole 2 entry 0 at 0 007f hole 1 addr 00000001 data 00000002 \
         flags 00000003 00000004 enable no lent 400 => ending stop ip 1 addr 00000001 \
         data 00000002 flags 00000003 00000004 row 0 used 0 steps 1 writes 0 waited 0 searched 0 \
         left 0 lent aaaaaaaa aaaaaaaa",
    );
}

#[test]
fn scripts_that_cannot_be_read() {
    unreadable(
        "",
        &[
            "audit 0 entry 0 at 0 7f ranges -",
            "audit 2 entry 4294967296 at 0 7f ranges -",
            "audit 2 entry 0 at 0 7f hole 0 ranges -",
            "audit 2 entry 0 at 0 7f ranges",
            "audit 2 entry 0 at 0 7f ranges 00000000 -",
            "audit_hole 2 entry 0 at 0 7f ranges -",
            "audit_hole 2 entry 0 at 0 7f hole 128 ranges -",
            "audit_input 256 entry 0 size 64 marks 64 last 1 ranges -",
            "audit_input 1 entry 0 size 601 marks 64 last 1 ranges -",
            "audit_input 1 entry 0 size 64 marks 601 last 1 ranges -",
            "audit_input 1 entry 0 size 64 marks 64 last 256 ranges -",
            "listed 1000 ranges -",
            "replay 2 entry 0 at 0 7f addr 00000000 data 00000000 flags 00000000 00000000 \
             enable 1 lent 340",
        ],
    );
}

#[test]
fn witnesses() {
    answers(
        "witness 2 entry 0 at 0 5f0101e2010000004000167f ranges - lent 171 171 171 => \
         verdict 4 place 8 rows 2 steps 2 writes 0 clocks 1 1 10 \
         known 00000000 00000002 aaaaaaaa values 00000000 00000002 aaaaaaaa
         witness 2 entry 0 at 0 e200000000e00016100005 ranges 00101600 00101600 lent 200 171 200 \
         => verdict 1 place 128 rows 1 steps 120 writes 1 clocks 129 10 known 00000000 aaaaaaaa \
         values 00000000 aaaaaaaa
         witness_part 3 entry 5 at 5 017f ranges 00000000 ffffffff lent 171 171 171 => \
         verdict 0 place 6 count 2 writes 0 clocks 32 rows 1 steps 1 writes 0 clocks 33 10 \
         known 00000000 aaaaaaaa values 00000000 aaaaaaaa
         witness_hole 4 entry 0 at 0 5f1f007f hole 3 ranges - lent 171 171 171 => \
         verdict 2 place 3 rows 2 steps 1 writes 0 clocks 1 1 10 \
         known 00000000 80000000 aaaaaaaa values 00000000 00000000 aaaaaaaa
         witness_input 1 entry 63 size 64 marks 64 last 1 ranges - lent 171 171 171 => \
         verdict 0 place 63 count 1 writes 0 clocks 0 rows 1 steps 0 writes 0 clocks 1 10 \
         known 00000000 aaaaaaaa values 00000000 aaaaaaaa",
    );
}

#[test]
fn witnesses_refused() {
    answers(
        "witness_input 0 entry 0 size 64 marks 64 last 1 ranges - lent 0 0 0 => \
         refused 9 clocks known values
         witness_input 1 entry 0 size 64 marks 64 last 2 ranges - lent 171 0 1 => \
         refused 9 clocks 10 known values aaaaaaaa
         witness 2 entry 0 at 0 7f ranges 00000005 lent 170 170 170 => \
         refused 9 clocks 10 known aaaaaaaa values aaaaaaaa
         witness 2 entry 0 at 0 7f ranges - lent 170 171 171 => \
         refused 14 clocks 10 known aaaaaaaa values aaaaaaaa
         witness 2 entry 0 at 0 7f ranges - lent 171 0 171 => \
         refused 14 clocks 10 known values aaaaaaaa
         witness 2 entry 0 at 0 ff ranges - lent 171 171 170 => \
         refused 14 clocks 10 known aaaaaaaa values aaaaaaaa",
    );
}

#[test]
fn the_longest_log_is_shown_with_what_is_past_it() {
    let script = "5f00015f0000".repeat(85);
    let columns = |past: &str, junk: &str| {
        let zeros = " 00000001 00000000".repeat(85);
        format!(
            "clocks{}{past} known 00000000{}{junk} values 00000000{zeros}{junk}",
            " 1".repeat(171),
            " 00000001".repeat(170)
        )
    };
    let call = format!("witness 4 entry 0 at 0 {script}7f ranges - lent");
    let verdict = "verdict 0 place 510 count 171 writes 0 clocks 0 rows 171 steps 170 writes 0";
    answers(&format!(
        "{call} 171 171 171 => {verdict} {}
         {call} 200 200 200 => {verdict} {}",
        columns("", ""),
        columns(" 10", " aaaaaaaa")
    ));
}

#[test]
fn witnesses_that_cannot_be_read() {
    unreadable(
        "",
        &[
            "witness 0 entry 0 at 0 7f ranges - lent 171 171 171",
            "witness 2 entry 0 at 0 7f ranges - lent 171 171",
            "witness 2 entry 0 at 0 7f ranges - lent 171 171 171 171",
            "witness 2 entry 0 at 0 7f ranges - lent 201 171 171",
            "witness 2 entry 0 at 0 7f ranges - lent 171 201 171",
            "witness 2 entry 0 at 0 7f ranges - lent 171 171 201",
            "witness 2 entry 0 at 0 7f ranges - lent - - -",
            "witness 2 entry 0 at 0 7f ranges - 171 171 171",
            "witness 2 entry 0 at 0 7f ranges lent 171 171 171",
            "witness 2 entry 0 at 0 7f ranges 171 lent 171 171 171",
            "witness 2 entry 0 at 0 7f lent 171 171 171",
            "witness 2 entry 0 at 0 7f hole 1 ranges - lent 171 171 171",
            "witness_hole 2 entry 0 at 0 7f ranges - lent 171 171 171",
            "witness_input 2 entry 0 at 0 7f ranges - lent 171 171 171",
        ],
    );
}

#[test]
fn too_much_input_is_not_read() {
    let most = vec![b'\n'; 262_144];
    assert_eq!(run(&most).stdout, most);
    let output = run(&[&most[..], b"\n"].concat());
    assert_eq!(output.status.code(), Some(2));
    assert!(output.stdout.is_empty());
    assert!(!output.stderr.is_empty());
}
