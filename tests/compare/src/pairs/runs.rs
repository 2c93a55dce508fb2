//! A script's run under a log: the proved one, and when the second program's waits ended.

use crate::launch::Launch;
use compare::inputs;
use hwsq::{Replayed, Slot, State, Stepped, ENTRIES};
use makers::log::Columns;
use makers::registers::{CONTROL, FLAGS_0, FLAGS_1};
use second::more_log::{self, WaitEnd};
use second::Refusal;

// An ending, modes, effects and kinds of include/hwsq.h.
const ENDED_LOG: u8 = 2;
const RUNNING: u8 = 1;
const WAITING: u8 = 2;
const STOPPED: u8 = 1;
const FETCHED: u8 = 3;
const WROTE: u8 = 4;
const WAIT: u8 = 1;
const EWAIT: u8 = 4;

/// A proved run.
pub struct Run {
    pub answer: Replayed,
    pub entries: Vec<u32>,
    /// Effect, address and word of each step that fetched.
    pub steps: Vec<(u8, u32, u32)>,
    /// When each wait and ewait ended.
    pub ends: Vec<WaitEnd>,
}

impl Run {
    pub fn of(launch: &Launch, log: &Columns) -> Run {
        let (code, marks) = launch.ram.slices();
        let mut entries = vec![0; ENTRIES];
        let script = launch.ram.lent(&code, &marks);
        let answer = hwsq::replay(script, launch.start, inputs::log(log), &mut entries);
        let mut run = Run {
            answer,
            entries,
            steps: Vec::new(),
            ends: Vec::new(),
        };
        run.step(started(launch, &code, &marks), log);
        run
    }

    /// Steps slot A until it fetches no more.
    fn step(&mut self, mut state: State, log: &Columns) {
        let (mut row, mut used) = (0, 0);
        while state.a.mode == RUNNING {
            let step = hwsq::step(&state, 0, inputs::log(log), row, used);
            if step.effect <= STOPPED {
                return;
            }
            if step.effect == FETCHED && is_wait(&state) {
                self.ends.push(end(&step, log));
            }
            self.steps.push((step.effect, step.address, step.word));
            (state, row, used) = (step.state, step.row, step.used);
        }
    }

    /// Address and data of each write.
    pub fn writes(&self) -> &[u32] {
        &self.entries[..2 * self.answer.writes]
    }

    /// Whether the replay answers what the steps did.
    pub fn agrees(&self) -> bool {
        let wrote = self.steps.iter().filter(|(effect, ..)| *effect == WROTE);
        let writes = wrote.flat_map(|&(_, address, word)| [address, word]);
        self.answer.steps == self.steps.len() && writes.eq(self.writes().iter().copied())
    }

    /// Whether it is left in an unfinished wait.
    pub fn is_cut_off(&self) -> bool {
        self.answer.ending == ENDED_LOG
    }
}

/// The state that a replay starts from; what no host write can set is put past the host.
fn started(launch: &Launch, code: &[u8], marks: &[u8]) -> State {
    let Launch { ram, start } = launch;
    let mut state = hwsq::fresh(ram.family).state;
    let control = u32::from(start.enable) << 3;
    let words = [start.flags_0, start.flags_1, control];
    for (address, word) in [FLAGS_0, FLAGS_1, CONTROL].into_iter().zip(words) {
        state = hwsq::write(&state, address, word).state;
    }
    state.code[..code.len()].copy_from_slice(code);
    state.marks[..marks.len()].copy_from_slice(marks);
    state.a = Slot {
        mode: RUNNING,
        addr: start.addr,
        data: start.data,
        ip: ram.entry as usize,
    };
    state
}

/// Whether the instruction at slot A's IP is a wait or an ewait, be it one of no clocks.
fn is_wait(state: &State) -> bool {
    let decoded = hwsq::decode(state.family, &state.code[state.a.ip..]);
    [WAIT, EWAIT].contains(&decoded.kind)
}

/// When the wait of a step ended: the rows' clocks before its place, and those used there.
fn end(step: &Stepped, log: &Columns) -> WaitEnd {
    if step.state.a.mode == WAITING {
        return WaitEnd::Never;
    }
    WaitEnd::At(log.clocks[..step.row].iter().sum::<u64>() + step.used)
}

/// When the waits ended by the second program.
pub fn second_ends(launch: &Launch, log: &Columns) -> Result<Vec<WaitEnd>, Refusal> {
    let Launch { ram, start } = launch;
    let (code, marks) = ram.slices();
    more_log::wait_ends(
        inputs::script(ram.lent(&code, &marks)),
        inputs::registers(*start),
        inputs::columns(inputs::log(log)),
    )
}
