//! The calls on a site, as works that are timed. What a call takes and writes is hidden
//! from the compiler.

use crate::calls::Calls;
use crate::clock::Work;
use crate::site::{Bench, INPUTS, TIMES_WAIT};
use model::{packed, step_timed_on, Site, TimedState};
use model::{LONGEST_LINE, MAX_GROUPS, MOST_WAIT_BYTES, OUTPUTS, SEALED_LEN, STATE_LEN};
use model::{RECORDS, RECORD_LEN};
use std::hint::black_box;

/// A work goes on only if its calls are accepted.
fn accepted(answer: u64) {
    assert_eq!(packed::number(black_box(answer)), 0);
}

/// The steps of a run.
struct Run<'a> {
    bench: &'a Bench,
    calls: &'a Calls,
    state: [u8; STATE_LEN],
    colours: [u8; MAX_GROUPS],
}

impl Run<'_> {
    /// Makes step number `call`.
    fn step(&mut self, call: usize) {
        let inputs = self.bench.inputs[call % INPUTS];
        let personality = black_box(self.bench.personality.as_slice());
        let (state, colours) = (&mut self.state, &mut self.colours);
        accepted((self.calls.step)(personality, state, inputs, colours));
        black_box(&self.colours);
    }

    /// Puts the times of the second personality there to wait.
    fn let_wait(&mut self) {
        self.state[TIMES_WAIT..].copy_from_slice(&self.bench.waiting);
    }
}

impl Bench {
    pub fn reader<'a>(&'a self, calls: &'a Calls) -> Work<'a> {
        Box::new(move |_| accepted(calls.board.read(black_box(&self.personality))))
    }

    /// Reads the personality with one bit turned over, another one in each call.
    pub fn damager<'a>(&'a self, calls: &'a Calls) -> Work<'a> {
        let mut damaged = self.personality.clone();
        Box::new(move |call| {
            damaged[call / 8] ^= 1 << (call % 8);
            black_box(calls.board.read(black_box(&damaged)));
            damaged[call / 8] ^= 1 << (call % 8);
        })
    }

    fn run<'a>(&'a self, calls: &'a Calls) -> Run<'a> {
        let mut state = [0; STATE_LEN];
        accepted(calls.board.fresh(&self.personality, &mut state));
        Run {
            bench: self,
            calls,
            state,
            colours: [0; MAX_GROUPS],
        }
    }

    /// Runs the controller on from call to call.
    pub fn stepper<'a>(&'a self, calls: &'a Calls) -> Work<'a> {
        let mut run = self.run(calls);
        Box::new(move |call| run.step(call))
    }

    /// The same with the times of the second personality ruling.
    pub fn retimed_stepper<'a>(&'a self, calls: &'a Calls) -> Work<'a> {
        let mut run = self.run(calls);
        run.let_wait();
        let mut call = 0;
        while run.state[TIMES_WAIT] == 1 {
            run.step(call);
            call += 1;
        }
        Box::new(move |call| run.step(call))
    }

    /// The same with times that wait: each time they have taken over, they are put
    /// there again.
    pub fn waiting_stepper<'a>(&'a self, calls: &'a Calls) -> Work<'a> {
        let mut run = self.run(calls);
        Box::new(move |call| {
            if run.state[TIMES_WAIT] == 0 {
                run.let_wait();
            }
            run.step(call);
        })
    }

    /// Runs the controller in a cabinet.
    pub fn cabinet_stepper<'a>(&'a self, calls: &'a Calls) -> Work<'a> {
        let (board, personality) = (calls.board, &self.personality);
        let (mut row, mut outputs) = ([[0; RECORD_LEN]; RECORDS], [0; OUTPUTS]);
        accepted(board.cabinet_place(&mut row, 0, personality, 0, &mut outputs));
        Box::new(move |call| {
            let (row, inputs) = (black_box(&mut row), self.inputs[call % INPUTS]);
            accepted(board.cabinet_step(row, 0, inputs, &mut outputs));
            black_box(&outputs);
        })
    }

    /// Hands the times of the second personality to another state in each call.
    pub fn retimer<'a>(&'a self, calls: &'a Calls) -> Work<'a> {
        Box::new(move |call| {
            let (mut state, _) = self.holding[call % self.holding.len()];
            let [personality, second] = [&self.personality, &self.second].map(black_box);
            accepted(calls.board.retime(personality, &mut state, second));
            black_box(&state);
        })
    }

    /// Asks for the wait of each phase and each movement.
    pub fn waiter<'a>(&'a self, calls: &'a Calls) -> Work<'a> {
        let mut waits = [0; MOST_WAIT_BYTES];
        Box::new(move |_| {
            accepted(calls.board.waits(black_box(&self.personality), &mut waits));
            black_box(&waits);
        })
    }

    /// Tells why a phase holds, of another state in each call.
    pub fn teller<'a>(&'a self, calls: &'a Calls) -> Work<'a> {
        let mut line = [0; LONGEST_LINE];
        Box::new(move |call| {
            let (state, inputs) = black_box(&self.holding[call % self.holding.len()]);
            let personality = black_box(&self.personality);
            accepted(calls.board.why(personality, state, *inputs, &mut line));
            black_box(&line);
        })
    }

    /// Seals another state in each call.
    pub fn sealer<'a>(&'a self, calls: &'a Calls) -> Work<'a> {
        let mut sealed = [0; SEALED_LEN];
        Box::new(move |call| {
            let (state, _) = black_box(&self.holding[call % self.holding.len()]);
            let personality = black_box(&self.personality);
            accepted(calls.board.seal(personality, state, &mut sealed));
            black_box(&sealed);
        })
    }

    /// Resumes the state of another record in each call.
    pub fn resumer<'a>(&'a self, calls: &'a Calls) -> Work<'a> {
        let mut records = vec![[0; SEALED_LEN]; self.holding.len()];
        for ((state, _), sealed) in self.holding.iter().zip(&mut records) {
            accepted(calls.board.seal(&self.personality, state, sealed));
        }
        let mut state = [0; STATE_LEN];
        Box::new(move |call| {
            let sealed = black_box(&records[call % records.len()]);
            let personality = black_box(&self.personality);
            accepted(calls.board.resume(personality, sealed, &mut state));
            black_box(&state);
        })
    }

    /// Runs the controller of the model from a site already read.
    pub fn inner_stepper(&self) -> Work<'_> {
        let site = Site::read(&self.personality).expect("an accepted plan");
        let mut state = TimedState::fresh(&site);
        let mut colours = [0; MAX_GROUPS];
        Box::new(move |call| {
            let inputs = self.inputs[call % INPUTS];
            let stepped = step_timed_on(black_box(&site), &state, inputs, &mut colours);
            state = stepped.expect("an accepted step");
            black_box(&colours);
        })
    }
}
