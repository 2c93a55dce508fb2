//! The program around the calls: lines in, each with its answer out.

use crate::words::{Answer, Read, Words};
use std::io::{self, Read as _, Write};
use std::process::ExitCode;

/// Most bytes of input.
const MOST_INPUT: usize = 262_144;
/// The status after a call that can't be read, apart from that of a failed read or write.
const UNREADABLE: u8 = 2;

/// What answers calls, and keeps what they leave for later ones.
pub trait Calls {
    /// The answer to the call of that name.
    fn call(&mut self, name: &str, words: &mut Words) -> Answer;
}

/// Reads standard input and prints each line with its answer, up to the first that can't be read.
pub fn run(mut calls: impl Calls) -> io::Result<ExitCode> {
    let mut input = Vec::new();
    // One byte more than allowed shows that there is too much.
    let mut stdin = io::stdin().lock().take(MOST_INPUT as u64 + 1);
    stdin.read_to_end(&mut input)?;
    let mut output = Vec::new();
    let outcome = answer_all(&mut calls, &input, &mut output);
    let mut stdout = io::stdout().lock();
    stdout.write_all(&output)?;
    stdout.flush()?;
    let Err(why) = outcome else {
        return Ok(ExitCode::SUCCESS);
    };
    eprintln!("{why}");
    Ok(ExitCode::from(UNREADABLE))
}

fn answer_all(calls: &mut impl Calls, input: &[u8], output: &mut Vec<u8>) -> Read<()> {
    if input.len() > MOST_INPUT {
        return Err(format!("the input has more than {MOST_INPUT} bytes"));
    }
    let lines = input.split_inclusive(|&byte| byte == b'\n');
    for (number, line) in (1..).zip(lines) {
        let line = line.strip_suffix(b"\n").unwrap_or(line);
        // What stands for bytes that are no text is in no word of a call, so nothing is misread.
        let text = String::from_utf8_lossy(line);
        let answer = answer(calls, &text);
        let answer = answer.map_err(|why| format!("line {number}: {why}"))?;
        output.extend_from_slice(line);
        if let Some(answer) = answer {
            output.push(b' ');
            output.extend_from_slice(answer.as_bytes());
        }
        output.push(b'\n');
    }
    Ok(())
}

/// The answer to a line; comments have none.
fn answer(calls: &mut impl Calls, line: &str) -> Answer {
    if line.is_empty() || line.starts_with('#') {
        return Ok(None);
    }
    let mut words = Words::of(line);
    let name = words.text("a call")?;
    let answer = calls.call(name, &mut words)?;
    words.end()?;
    Ok(answer)
}

/// The answer to a line that begins with no call.
pub fn unknown(words: &mut Words) -> Answer {
    words.pass_over();
    Ok(Some("unknown call".to_string()))
}
