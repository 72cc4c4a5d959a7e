//! One call to a board beside the same call to the model. Buffers lie between
//! canary bytes, at any alignment.

use crate::difference::{Difference, Handed};
use crate::tally::Tally;
use generate::{CabinetCall, Rng, RoadPlan};
use model::packed::{Board, Model};
use model::{RecordBytes, MOST_WAIT_BYTES};

/// A board, the tally of its answers, and where randomness comes from.
pub struct Comparison<'a> {
    pub board: &'a dyn Board,
    pub rng: Rng,
    pub tally: &'a mut Tally,
}

/// The waits are asked for in buffers of every length up to this one, past the most that
/// they take.
const WAITS_LENGTHS: usize = MOST_WAIT_BYTES + 3;

/// Kinds that are looked up besides 0 to 10.
const FAR_KINDS: [u16; 4] = [255, 256, 257, u16::MAX];

impl Comparison<'_> {
    /// Reads a personality, asks for its wait bound, its groups and its waits and looks up
    /// every kind; gives the answer of reading.
    pub fn reading(&mut self, personality: &[u8]) -> Result<u64, Box<Difference>> {
        let handed = Handed {
            personality: personality.to_vec(),
            ..Handed::default()
        };
        let guarded = Guarded::new(&mut self.rng, personality);
        let read = Model.read(personality);
        let found = self.board.read(guarded.inner());
        same("read: the answer", read, found, &handed)?;
        let expected = Model.wait_bound(personality);
        let found = self.board.wait_bound(guarded.inner());
        same("wait bound: the answer", expected, found, &handed)?;
        let expected = Model.groups(personality);
        let found = self.board.groups(guarded.inner());
        same("groups: the answer", expected, found, &handed)?;
        for kind in (0..=10).chain(FAR_KINDS) {
            let handed = Handed {
                kind,
                ..handed.clone()
            };
            let expected = Model.section(personality, kind);
            let found = self.board.section(guarded.inner(), kind);
            same("section: the answer", expected, found, &handed)?;
        }
        guarded.untouched("read: the personality", &handed)?;
        self.tally.count_answer(read);
        for length in 0..=WAITS_LENGTHS {
            self.waits(personality, length)?;
        }
        Ok(read)
    }

    /// Asks for the waits of a personality in a buffer of a length.
    fn waits(&mut self, personality: &[u8], length: usize) -> Result<(), Box<Difference>> {
        let handed = Handed {
            personality: personality.to_vec(),
            waits: self.rng.bytes(length),
            ..Handed::default()
        };
        let guarded = Guarded::new(&mut self.rng, personality);
        let mut expected_waits = handed.waits.clone();
        let mut waits = Guarded::new(&mut self.rng, &handed.waits);
        let expected = Model.waits(personality, &mut expected_waits);
        let found = self.board.waits(guarded.inner(), waits.inner_mut());
        same("waits: the answer", expected, found, &handed)?;
        waits.holds("waits: the waits", &expected_waits, &handed)?;
        guarded.untouched("waits: the personality", &handed)?;
        self.tally.count_answer(expected);
        Ok(())
    }

    /// Makes a fresh state of a personality in a buffer of a length.
    pub fn fresh(&mut self, personality: &[u8], length: usize) -> Result<(), Box<Difference>> {
        let handed = Handed {
            personality: personality.to_vec(),
            state: self.rng.bytes(length),
            ..Handed::default()
        };
        let guarded = Guarded::new(&mut self.rng, personality);
        let mut expected_state = handed.state.clone();
        let mut state = Guarded::new(&mut self.rng, &handed.state);
        let expected = Model.fresh(personality, &mut expected_state);
        let found = self.board.fresh(guarded.inner(), state.inner_mut());
        same("fresh: the answer", expected, found, &handed)?;
        state.holds("fresh: the state", &expected_state, &handed)?;
        guarded.untouched("fresh: the personality", &handed)?;
        self.tally.count_answer(expected);
        Ok(())
    }

    /// Steps once; gives the answer, and the state in the buffer handed in.
    pub fn step(
        &mut self,
        personality: &[u8],
        state: &mut [u8],
        inputs: u64,
        colours_len: usize,
    ) -> Result<u64, Box<Difference>> {
        let handed = Handed {
            personality: personality.to_vec(),
            state: state.to_vec(),
            inputs,
            colours: self.rng.bytes(colours_len),
            ..Handed::default()
        };
        let guarded = Guarded::new(&mut self.rng, personality);
        let mut found_state = Guarded::new(&mut self.rng, state);
        let mut found_colours = Guarded::new(&mut self.rng, &handed.colours);
        let mut colours = handed.colours.clone();
        let expected = Model.step(personality, state, inputs, &mut colours);
        let found = self.board.step(
            guarded.inner(),
            found_state.inner_mut(),
            inputs,
            found_colours.inner_mut(),
        );
        same("step: the answer", expected, found, &handed)?;
        found_state.holds("step: the state", state, &handed)?;
        found_colours.holds("step: the colours", &colours, &handed)?;
        guarded.untouched("step: the personality", &handed)?;
        self.tally.count_answer(expected);
        Ok(expected)
    }

    /// Retimes once; gives the answer, and the state in the buffer handed in.
    pub fn retime(
        &mut self,
        personality: &[u8],
        state: &mut [u8],
        new_personality: &[u8],
    ) -> Result<u64, Box<Difference>> {
        let handed = Handed {
            personality: personality.to_vec(),
            state: state.to_vec(),
            new_personality: new_personality.to_vec(),
            ..Handed::default()
        };
        let guarded = Guarded::new(&mut self.rng, personality);
        let guarded_new = Guarded::new(&mut self.rng, new_personality);
        let mut found_state = Guarded::new(&mut self.rng, state);
        let expected = Model.retime(personality, state, new_personality);
        let found = self.board.retime(
            guarded.inner(),
            found_state.inner_mut(),
            guarded_new.inner(),
        );
        same("retime: the answer", expected, found, &handed)?;
        found_state.holds("retime: the state", state, &handed)?;
        guarded.untouched("retime: the personality", &handed)?;
        guarded_new.untouched("retime: the new personality", &handed)?;
        self.tally.count_answer(expected);
        Ok(expected)
    }

    /// Seals a state into a buffer of a length; gives what is in the buffer then.
    pub fn seal(
        &mut self,
        personality: &[u8],
        state: &[u8],
        length: usize,
    ) -> Result<Vec<u8>, Box<Difference>> {
        let handed = Handed {
            personality: personality.to_vec(),
            state: state.to_vec(),
            sealed: self.rng.bytes(length),
            ..Handed::default()
        };
        let guarded = Guarded::new(&mut self.rng, personality);
        let guarded_state = Guarded::new(&mut self.rng, state);
        let mut found_sealed = Guarded::new(&mut self.rng, &handed.sealed);
        let mut sealed = handed.sealed.clone();
        let expected = Model.seal(personality, state, &mut sealed);
        let found = self.board.seal(
            guarded.inner(),
            guarded_state.inner(),
            found_sealed.inner_mut(),
        );
        same("seal: the answer", expected, found, &handed)?;
        found_sealed.holds("seal: the record", &sealed, &handed)?;
        guarded_state.untouched("seal: the state", &handed)?;
        guarded.untouched("seal: the personality", &handed)?;
        self.tally.count_answer(expected);
        Ok(sealed)
    }

    /// Resumes the state of a record; gives the answer, and the state in the buffer
    /// handed in.
    pub fn resume(
        &mut self,
        personality: &[u8],
        sealed: &[u8],
        state: &mut [u8],
    ) -> Result<u64, Box<Difference>> {
        let handed = Handed {
            personality: personality.to_vec(),
            state: state.to_vec(),
            sealed: sealed.to_vec(),
            ..Handed::default()
        };
        let guarded = Guarded::new(&mut self.rng, personality);
        let guarded_sealed = Guarded::new(&mut self.rng, sealed);
        let mut found_state = Guarded::new(&mut self.rng, state);
        let expected = Model.resume(personality, sealed, state);
        let found = self.board.resume(
            guarded.inner(),
            guarded_sealed.inner(),
            found_state.inner_mut(),
        );
        same("resume: the answer", expected, found, &handed)?;
        found_state.holds("resume: the state", state, &handed)?;
        guarded_sealed.untouched("resume: the record", &handed)?;
        guarded.untouched("resume: the personality", &handed)?;
        self.tally.count_answer(expected);
        Ok(expected)
    }

    /// Asks why a phase holds, for the length of the line and for the line itself in a
    /// buffer with this room; gives the answer of the writing call. Neither call
    /// writes the state.
    pub fn why(
        &mut self,
        personality: &[u8],
        state: &[u8],
        inputs: u64,
        room: usize,
    ) -> Result<u64, Box<Difference>> {
        let handed = Handed {
            personality: personality.to_vec(),
            state: state.to_vec(),
            inputs,
            line: self.rng.bytes(room),
            ..Handed::default()
        };
        let guarded = Guarded::new(&mut self.rng, personality);
        let guarded_state = Guarded::new(&mut self.rng, state);
        let mut found_line = Guarded::new(&mut self.rng, &handed.line);
        let mut line = handed.line.clone();
        let expected = Model.why_length(personality, state, inputs);
        let found = self
            .board
            .why_length(guarded.inner(), guarded_state.inner(), inputs);
        same("why length: the answer", expected, found, &handed)?;
        let expected = Model.why(personality, state, inputs, &mut line);
        let found = self.board.why(
            guarded.inner(),
            guarded_state.inner(),
            inputs,
            found_line.inner_mut(),
        );
        same("why: the answer", expected, found, &handed)?;
        found_line.holds("why: the line", &line, &handed)?;
        guarded_state.untouched("why: the state", &handed)?;
        guarded.untouched("why: the personality", &handed)?;
        self.tally.count_answer(expected);
        Ok(expected)
    }

    /// Runs a road into a buffer that holds a state or other bytes, and a result
    /// buffer of a length; gives the answer.
    pub fn road(
        &mut self,
        personality: &[u8],
        road: &RoadPlan,
        state: &[u8],
        results_len: usize,
    ) -> Result<u64, Box<Difference>> {
        let handed = Handed {
            personality: personality.to_vec(),
            state: state.to_vec(),
            streams: road.streams.clone(),
            steps: road.steps,
            results: self.rng.bytes(results_len),
            ..Handed::default()
        };
        let guarded = Guarded::new(&mut self.rng, personality);
        let streams = Guarded::new(&mut self.rng, &road.streams);
        let mut found_state = Guarded::new(&mut self.rng, state);
        let mut found_results = Guarded::new(&mut self.rng, &handed.results);
        let mut state = state.to_vec();
        let mut results = handed.results.clone();
        let expected = Model.road(
            personality,
            &road.streams,
            road.steps,
            &mut state,
            &mut results,
        );
        let found = self.board.road(
            guarded.inner(),
            streams.inner(),
            road.steps,
            found_state.inner_mut(),
            found_results.inner_mut(),
        );
        same("road: the answer", expected, found, &handed)?;
        found_state.holds("road: the state", &state, &handed)?;
        found_results.holds("road: the results", &results, &handed)?;
        guarded.untouched("road: the personality", &handed)?;
        streams.untouched("road: the streams", &handed)?;
        self.tally.count_answer(expected);
        Ok(expected)
    }

    /// Makes a call on a row and outputs, which then are those of the model; gives
    /// the answer.
    pub fn cabinet(
        &mut self,
        row: &mut [RecordBytes],
        call: &CabinetCall,
        outputs: &mut [u8],
    ) -> Result<u64, Box<Difference>> {
        let mut handed = Handed {
            row: row.as_flattened().to_vec(),
            record: call.record(),
            outputs: outputs.to_vec(),
            ..Handed::default()
        };
        match call {
            CabinetCall::Place {
                personality, first, ..
            } => {
                handed.personality.clone_from(personality);
                handed.first = *first;
            }
            CabinetCall::Step { inputs, .. } => handed.inputs = *inputs,
            CabinetCall::TakeOut { .. } => {}
            CabinetCall::Retime {
                new_personality, ..
            } => handed.new_personality.clone_from(new_personality),
        }
        let [answer_word, row_word, outputs_word] = words_of(call);
        let personality = Guarded::new(&mut self.rng, call.personality());
        let mut found_row = Guarded::new(&mut self.rng, row.as_flattened());
        let mut found_outputs = Guarded::new(&mut self.rng, outputs);
        let expected = call.make(&Model, row, call.personality(), outputs);
        let found = call.make(
            self.board,
            found_row.inner_mut().as_chunks_mut().0,
            personality.inner(),
            found_outputs.inner_mut(),
        );
        same(answer_word, expected, found, &handed)?;
        found_row.holds(row_word, row.as_flattened(), &handed)?;
        found_outputs.holds(outputs_word, outputs, &handed)?;
        personality.untouched("cabinet: the personality handed in", &handed)?;
        self.tally.count_answer(expected);
        Ok(expected)
    }
}

/// The answer, the row and the outputs of a call on a cabinet, in words.
fn words_of(call: &CabinetCall) -> [&'static str; 3] {
    match call {
        CabinetCall::Place { .. } => ["place: the answer", "place: the row", "place: the outputs"],
        CabinetCall::Step { .. } => [
            "cabinet step: the answer",
            "cabinet step: the row",
            "cabinet step: the outputs",
        ],
        CabinetCall::TakeOut { .. } => [
            "take out: the answer",
            "take out: the row",
            "take out: the outputs",
        ],
        CabinetCall::Retime { .. } => [
            "cabinet retime: the answer",
            "cabinet retime: the row",
            "cabinet retime: the outputs",
        ],
    }
}

pub(crate) fn same(
    what: &'static str,
    expected: u64,
    found: u64,
    handed: &Handed,
) -> Result<(), Box<Difference>> {
    // Shown highest byte first, so that the number stands at the end.
    let bytes = |answer: u64| answer.to_be_bytes().to_vec();
    same_bytes(what, &bytes(expected), &bytes(found), handed)
}

pub(crate) fn same_bytes(
    what: &'static str,
    expected: &[u8],
    found: &[u8],
    handed: &Handed,
) -> Result<(), Box<Difference>> {
    if expected == found {
        return Ok(());
    }
    Err(Box::new(Difference::Call {
        what,
        expected: expected.to_vec(),
        found: found.to_vec(),
        handed: Box::new(handed.clone()),
    }))
}

/// A buffer between canary bytes.
struct Guarded {
    bytes: Vec<u8>,
    before: usize,
    original: Vec<u8>,
}

const CANARY: u8 = 0xC5;
const GUARD: usize = 24;

impl Guarded {
    fn new(rng: &mut Rng, inner: &[u8]) -> Guarded {
        let before = GUARD + rng.below(8);
        let mut bytes = vec![CANARY; before];
        bytes.extend(inner);
        bytes.extend([CANARY; GUARD]);
        Guarded {
            bytes,
            before,
            original: inner.to_vec(),
        }
    }

    fn inner(&self) -> &[u8] {
        &self.bytes[self.before..self.before + self.original.len()]
    }

    fn inner_mut(&mut self) -> &mut [u8] {
        &mut self.bytes[self.before..self.before + self.original.len()]
    }

    /// The buffer holds these bytes, and the canaries are whole.
    fn holds(
        &self,
        what: &'static str,
        expected: &[u8],
        handed: &Handed,
    ) -> Result<(), Box<Difference>> {
        let mut whole = vec![CANARY; self.before];
        whole.extend(expected);
        whole.extend([CANARY; GUARD]);
        if self.bytes == whole {
            return Ok(());
        }
        if self.inner() != expected {
            return same_bytes(what, expected, self.inner(), handed);
        }
        same_bytes("bytes beside a buffer", &whole, &self.bytes, handed)
    }

    fn untouched(&self, what: &'static str, handed: &Handed) -> Result<(), Box<Difference>> {
        self.holds(what, &self.original, handed)
    }
}
