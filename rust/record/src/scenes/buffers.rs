//! Where buffers may lie, and how long they may be: one accepted call of each kind,
//! with one of its buffers at every alignment, with no bytes, or with a length above 32
//! bits.

use super::roads::results_len;
use crate::recorder::{Buffer, Handed, Place, Recorder, ALIGNMENT};
use generate::{held_record, known_inputs, retimed, running_timed_state, Plan, Rng, RoadPlan};
use model::{row_of, seal, Record, Site};
use model::{LONGEST_LINE, MOST_WAIT_BYTES, OUTPUTS, RECORDS, ROW_LEN, SEALED_LEN, STATE_LEN};

/// What is handed to a call.
enum Part {
    Buffer(Vec<u8>),
    /// The row of a cabinet, handed over with its number of records.
    Row(Vec<u8>),
    /// A number of 64 bits.
    Wide(u64),
    /// A number of fewer bits.
    Small(u64),
}

/// A call that is accepted.
struct Sample {
    name: &'static str,
    parts: Vec<Part>,
}

/// The upper halves of lengths and numbers.
const HIGH: [u64; 4] = [1 << 32, 1 << 40, 1 << 63, 0xFFFF_FFFF << 32];

/// At least so many bytes lie between two buffers, so that those behind a personality
/// are all equal.
const APART: usize = 16;

impl Recorder {
    /// Each buffer of each call at every alignment.
    pub(super) fn every_alignment(&mut self) {
        for sample in samples(&mut self.rng) {
            for chosen in sample.buffers() {
                for alignment in 0..ALIGNMENT {
                    self.begin();
                    let handed =
                        self.lay_parts(&sample, |recorder, index, length| match index == chosen {
                            true => recorder.room_at(alignment, length),
                            false => recorder.room(length),
                        });
                    self.call(sample.name, &handed);
                }
            }
        }
    }

    /// Each buffer of each call without a byte: at no address, at the last one, and in
    /// the arena.
    pub(super) fn empty_buffers(&mut self) {
        for sample in samples(&mut self.rng) {
            for chosen in sample.buffers() {
                self.begin();
                let whole = self.lay_parts(&sample, |recorder, _, length| recorder.room(length));
                let Handed::Buffer(buffer) = whole[chosen] else {
                    continue;
                };
                for place in [Place::Null, Place::AllOnes, buffer.place] {
                    let mut handed = whole.clone();
                    handed[chosen] = Buffer { place, length: 0 }.into();
                    self.call(sample.name, &handed);
                }
            }
        }
    }

    /// Each length and each number of 64 bits with an upper half that is not 0, and with a
    /// lower half as it is accepted, or of 0. The arena does not have so many bytes. No call
    /// reads or writes those that are missing:
    ///
    /// - A personality is read section by section. Behind the last one at most four
    ///   bytes are read, the head of a section that may follow. They are in the arena, all
    ///   equal, and so no head of kind 7 or 9. The answer is 12.
    /// - A state and a sealed record have one right length, and a row one right number of
    ///   records. Another is refused before a byte is read, except the first byte of a
    ///   record to be resumed.
    /// - Streams are counted before one is read; more than 48 are refused.
    /// - Of colours, line, waits, results and outputs only the bytes that the call needs are
    ///   written, and they are in the arena. The call is accepted.
    pub(super) fn far_lengths(&mut self) {
        for sample in samples(&mut self.rng) {
            for chosen in 0..sample.parts.len() {
                for high in HIGH {
                    self.far_part(&sample, chosen, |low| high | (low & 0xFFFF_FFFF));
                    self.far_part(&sample, chosen, |_| high);
                }
            }
        }
    }

    /// Makes the call with one length or number changed; none, if the part is neither.
    fn far_part(&mut self, sample: &Sample, chosen: usize, far: impl Fn(u64) -> u64) {
        if matches!(sample.parts[chosen], Part::Small(_)) {
            return;
        }
        self.begin_with(0xC5);
        let mut handed = self.lay_parts(sample, |recorder, _, length| {
            recorder.room(APART);
            recorder.room(length)
        });
        handed[chosen] = match handed[chosen] {
            Handed::Buffer(buffer) => buffer.with_length(far(buffer.length)).into(),
            Handed::Number(number) => far(number).into(),
        };
        self.call(sample.name, &handed);
    }

    /// Lays the buffers of a call, each as the function takes it.
    fn lay_parts(
        &mut self,
        sample: &Sample,
        take: impl Fn(&mut Recorder, usize, usize) -> Buffer,
    ) -> Vec<Handed> {
        let mut handed = Vec::new();
        for (index, part) in sample.parts.iter().enumerate() {
            handed.push(match part {
                Part::Buffer(bytes) | Part::Row(bytes) => {
                    let buffer = take(self, index, bytes.len());
                    self.put(buffer, bytes);
                    match part {
                        Part::Row(_) => buffer.with_length(RECORDS).into(),
                        _ => buffer.into(),
                    }
                }
                Part::Wide(number) | Part::Small(number) => Handed::Number(*number),
            });
        }
        handed
    }
}

impl Sample {
    /// The indices of the parts that are buffers.
    fn buffers(&self) -> Vec<usize> {
        let is_buffer =
            |index: &usize| matches!(self.parts[*index], Part::Buffer(_) | Part::Row(_));
        (0..self.parts.len()).filter(is_buffer).collect()
    }
}

/// An accepted call of each export that takes a buffer.
fn samples(rng: &mut Rng) -> Vec<Sample> {
    let mut samples = site_samples(rng);
    samples.extend(cabinet_samples(rng));
    samples
}

fn site_samples(rng: &mut Rng) -> Vec<Sample> {
    let (personality, road) = loop {
        let personality = Plan::random(rng).bytes();
        let site = Site::read(&personality).expect("an accepted plan");
        let road = RoadPlan::random(rng, &site);
        if !road.streams.is_empty() {
            break (personality, road);
        }
    };
    let site = Site::read(&personality).expect("an accepted plan");
    let running = running_timed_state(rng, &personality, &site);
    let record = seal(&personality, &running).expect("a valid state");
    let first = || Part::Buffer(personality.clone());
    let state = || Part::Buffer(running.to_bytes().to_vec());
    let inputs = known_inputs(rng, &site);
    let noise = |rng: &mut Rng, length| Part::Buffer(rng.bytes(length));
    let colours = noise(rng, site.group_count());
    let line = noise(rng, LONGEST_LINE);
    let sample = |name, parts| Sample { name, parts };
    vec![
        sample("read", vec![first()]),
        sample("wait_bound", vec![first()]),
        sample("waits", vec![first(), noise(rng, MOST_WAIT_BYTES)]),
        sample("groups", vec![first()]),
        sample("section", vec![first(), Part::Small(3)]),
        sample("fresh", vec![first(), noise(rng, STATE_LEN)]),
        sample("step", vec![first(), state(), Part::Wide(inputs), colours]),
        sample("why_length", vec![first(), state(), Part::Wide(inputs)]),
        sample("why", vec![first(), state(), Part::Wide(inputs), line]),
        sample(
            "retime",
            vec![first(), state(), Part::Buffer(retimed(rng, &personality))],
        ),
        sample("seal", vec![first(), state(), noise(rng, SEALED_LEN)]),
        sample(
            "resume",
            vec![
                first(),
                Part::Buffer(record.to_vec()),
                noise(rng, STATE_LEN),
            ],
        ),
        sample(
            "road",
            vec![
                first(),
                Part::Buffer(road.streams.clone()),
                Part::Small(u64::from(road.steps % 100)),
                noise(rng, STATE_LEN),
                noise(rng, results_len(&road)),
            ],
        ),
    ]
}

fn cabinet_samples(rng: &mut Rng) -> Vec<Sample> {
    let mut records = [Record::FREE; RECORDS];
    records[2] = held_record(rng);
    let held = || Part::Row(row_of(&records).to_vec());
    let personality = Plan::small(rng, 8).bytes();
    let outputs = || Part::Buffer(vec![7; OUTPUTS]);
    let [record, first] = [2, 0].map(Part::Wide);
    let place = vec![
        Part::Row(vec![0; ROW_LEN]),
        record,
        Part::Buffer(personality),
        first,
        outputs(),
    ];
    let sample = |name, parts| Sample { name, parts };
    vec![
        sample("cabinet_place", place),
        sample(
            "cabinet_step",
            vec![held(), Part::Wide(2), Part::Wide(0), outputs()],
        ),
        sample("cabinet_take_out", vec![held(), Part::Wide(2), outputs()]),
    ]
}
