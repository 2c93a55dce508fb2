//! One run of the program under test, ended if it takes too long.

use std::io::{self, Read, Write};
use std::path::Path;
use std::process::{Child, Command, ExitStatus, Stdio};
use std::sync::Mutex;
use std::time::{Duration, Instant};

/// What a run left.
pub struct Outcome {
    pub status: ExitStatus,
    pub hung: bool,
    pub stdout: Vec<u8>,
    pub stderr: Vec<u8>,
}

struct Run {
    child: Child,
    since: Instant,
    hung: bool,
}

/// A worker's present run; the guard looks at it from another thread.
#[derive(Default)]
pub struct Running(Mutex<Option<Run>>);

impl Running {
    /// Kills a run that is over the limit, so that whoever reads its output comes to an end.
    pub fn guard(&self, limit: Duration) {
        let mut running = self.0.lock().expect("a worker has panicked");
        if let Some(run) = running.as_mut() {
            if !run.hung && run.since.elapsed() > limit {
                run.hung = true;
                // A run that has just ended cannot be killed, and need not be.
                let _ = run.child.kill();
            }
        }
    }

    /// Runs the program on an input, handed over in two pieces cut at a place.
    pub fn run(&self, program: &Path, input: &[u8], cut: usize) -> io::Result<Outcome> {
        let mut child = Command::new(program)
            .stdin(Stdio::piped())
            .stdout(Stdio::piped())
            .stderr(Stdio::piped())
            .spawn()?;
        let (stdin, stdout, stderr) =
            (child.stdin.take(), child.stdout.take(), child.stderr.take());
        let run = Run {
            child,
            since: Instant::now(),
            hung: false,
        };
        *self.0.lock().expect("the guard has panicked") = Some(run);
        feed(stdin, input, cut)?;
        let (stdout, stderr) = (all_of(stdout)?, all_of(stderr)?);
        let (status, hung) = self.ended()?;
        Ok(Outcome {
            status,
            hung,
            stdout,
            stderr,
        })
    }

    /// Waits for the end, and lets the guard look in between.
    fn ended(&self) -> io::Result<(ExitStatus, bool)> {
        loop {
            let mut running = self.0.lock().expect("the guard has panicked");
            let run = running.as_mut().expect("no run");
            if let Some(status) = run.child.try_wait()? {
                let hung = run.hung;
                *running = None;
                return Ok((status, hung));
            }
            drop(running);
            std::thread::sleep(Duration::from_micros(20));
        }
    }
}

/// A program that takes no more input closes its end, which is no fault.
fn feed(pipe: Option<impl Write>, input: &[u8], cut: usize) -> io::Result<()> {
    let mut pipe = pipe.expect("standard input is a pipe");
    let (first, second) = input.split_at(cut.min(input.len()));
    match pipe.write_all(first).and_then(|()| pipe.write_all(second)) {
        Err(error) if error.kind() == io::ErrorKind::BrokenPipe => Ok(()),
        written => written,
    }
}

fn all_of(pipe: Option<impl Read>) -> io::Result<Vec<u8>> {
    let mut bytes = Vec::new();
    pipe.expect("the output is a pipe")
        .read_to_end(&mut bytes)?;
    Ok(bytes)
}
