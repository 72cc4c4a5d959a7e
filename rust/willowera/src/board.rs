//! The calls of the library with their answers taken apart.

use crate::answer::{part, sheet_settings, wait_bound_or_refusal, Refusal, Settings};
use crate::{packed, Fields, MOST_WAIT_BYTES, SEALED_LEN, STATE_LEN, VERSION};

/// Accepts or refuses a personality.
pub fn read(personality: &[u8]) -> Result<(), Refusal> {
    wait_bound_or_refusal(packed::read(personality)).map(|_| ())
}

/// The longest wait of a demand in steps.
pub fn wait_bound(personality: &[u8]) -> Result<u64, Refusal> {
    wait_bound_or_refusal(packed::wait_bound(personality))
}

/// The waits of a site in steps, by its own times.
///
/// A demand of a phase that lasts (a lock, a button, or a call without lock in every
/// step) has its minimum green in the step that registers it, or in fewer further steps
/// than the wait of the phase. A button has its walk in the step that registers it, or in
/// fewer further steps than the wait of its movement.
#[derive(Clone, Debug, PartialEq, Eq)]
pub struct Waits {
    /// Of each phase, in letter order.
    pub phases: Vec<u16>,
    /// Of each movement.
    pub movements: Vec<u16>,
}

/// The wait of each phase and of each movement.
///
/// ```
/// let personality = std::fs::read("../../examples/staggered/personality.bin").unwrap();
/// let waits = willowera::waits(&personality)?;
/// assert_eq!(waits.phases, [557, 598, 755]);
/// assert_eq!(waits.movements, [792]);
/// # Ok::<(), willowera::Refusal>(())
/// ```
pub fn waits(personality: &[u8]) -> Result<Waits, Refusal> {
    let mut buffer = [0; MOST_WAIT_BYTES];
    let length = wait_bound_or_refusal(packed::waits(personality, &mut buffer))? as usize;
    let (waits, _) = buffer[..length].as_chunks();
    let waits: Vec<u16> = waits.iter().copied().map(u16::from_le_bytes).collect();
    // A record of section 2 has 12 bytes.
    let (phases, movements) = waits.split_at(section(personality, 2)?.len() / 12);
    Ok(Waits {
        phases: phases.to_vec(),
        movements: movements.to_vec(),
    })
}

/// The number of signal groups: a step writes as many colours.
pub fn groups(personality: &[u8]) -> Result<usize, Refusal> {
    wait_bound_or_refusal(packed::groups(personality)).map(|groups| groups as usize)
}

/// The body of the section of a kind, a part of the personality itself.
pub fn section(personality: &[u8], kind: u16) -> Result<&[u8], Refusal> {
    let part = part(packed::section(personality, kind))?;
    Ok(&personality[part.offset..part.offset + part.length])
}

/// A stream of vehicles on a simulated road.
#[derive(Clone, Copy, Debug, PartialEq, Eq)]
pub struct Stream {
    /// The detector that its queue occupies.
    pub detector: u8,
    /// The vehicle group that releases it.
    pub group: u8,
    /// Vehicles an hour.
    pub rate: u16,
}

/// The vehicles of a stream after the last step.
#[derive(Clone, Copy, Debug, PartialEq, Eq)]
pub struct Vehicles {
    pub queued: u16,
    pub gone: u16,
}

/// How a simulated road ends.
#[derive(Clone, Debug, PartialEq, Eq)]
pub struct RoadEnd {
    /// The bytes of the last state.
    pub state: [u8; STATE_LEN],
    /// The vehicles of each stream, in the order of the streams.
    pub vehicles: Vec<Vehicles>,
}

/// Runs streams of vehicles for so many steps from the fresh state.
pub fn road(personality: &[u8], streams: &[Stream], steps: u32) -> Result<RoadEnd, Refusal> {
    let mut handed = Vec::with_capacity(4 * streams.len());
    for stream in streams {
        handed.extend([stream.detector, stream.group]);
        handed.extend(stream.rate.to_le_bytes());
    }
    let mut state = [0; STATE_LEN];
    let mut results = vec![0; handed.len()];
    let answer = packed::road(personality, &handed, steps, &mut state, &mut results);
    wait_bound_or_refusal(answer)?;
    let (results, _) = results.as_chunks();
    let vehicles = |&[queued_low, queued_high, gone_low, gone_high]: &[u8; 4]| Vehicles {
        queued: u16::from_le_bytes([queued_low, queued_high]),
        gone: u16::from_le_bytes([gone_low, gone_high]),
    };
    Ok(RoadEnd {
        state,
        vehicles: results.iter().map(vehicles).collect(),
    })
}

/// Where an approach is detected, in metres.
#[derive(Clone, Copy, Debug, PartialEq)]
pub enum Detector {
    /// In advance, at a distance from the stop line.
    Advance(f64),
    /// In a zone of a length at the stop line.
    StopLine(f64),
}

/// Minimum green and passage time of an approach whose speed is in km/h.
pub fn settings(speed: u32, detector: Detector) -> Result<Settings, Refusal> {
    let (number, metres) = match detector {
        Detector::Advance(metres) => (0, metres),
        Detector::StopLine(metres) => (1, metres),
    };
    sheet_settings(packed::settings(speed, number, metres))
}

/// The yellow time in steps at a speed in km/h and a grade in percent, uphill
/// positive.
pub fn yellow(speed: u32, grade: i32) -> Result<u64, Refusal> {
    wait_bound_or_refusal(packed::yellow(speed, grade))
}

/// The length of a line in an answer.
pub(crate) fn line_length(answer: u64) -> Result<usize, Refusal> {
    wait_bound_or_refusal(answer).map(|length| length as usize)
}

/// The line of a state, where it is written in a buffer.
pub(crate) fn line_of<'b>(
    personality: &[u8],
    state: &[u8],
    inputs: u64,
    buffer: &'b mut [u8],
) -> Result<&'b [u8], Refusal> {
    let length = line_length(packed::why(personality, state, inputs, buffer))?;
    Ok(&buffer[..length])
}

/// The version of the library.
pub fn version() -> u32 {
    packed::version()
}

/// Whether the linked archive has the version of the interface that these wrappers are
/// for. With another one the calls may have other arguments, and may touch memory that is
/// not theirs: a program must not go on. A [`Controller`] checks it; a program that uses
/// only a [`crate::Cabinet`] or [`crate::packed`] must check it once.
pub fn version_fits() -> bool {
    version() == VERSION
}

/// A controller running on one personality.
///
/// ```
/// use willowera::{colour, interval, refusal, Controller};
///
/// let personality = std::fs::read("../../examples/two_phases/personality.bin").unwrap();
/// let mut controller = Controller::new(&personality)?;
/// let mut colours = vec![colour::RED; controller.groups()];
/// for _ in 0..10 {
///     controller.step(0, &mut colours)?;
/// }
/// assert_eq!(colours, [colour::GREEN, colour::RED]);
/// assert_eq!(controller.fields().interval(), interval::MINIMUM_GREEN);
///
/// // Over the time without power.
/// let sealed = controller.seal()?;
/// let resumed = Controller::resume(&personality, &sealed)?;
/// assert_eq!(resumed.state(), controller.state());
///
/// // The junction has two detectors: input bit 2 is stray, and nothing changes.
/// let refused = controller.step(1 << 2, &mut colours).unwrap_err();
/// assert_eq!(refused.number, refusal::STRAY_INPUT);
/// # Ok::<(), willowera::Refusal>(())
/// ```
#[derive(Clone, Debug)]
pub struct Controller<'a> {
    personality: &'a [u8],
    groups: usize,
    state: [u8; STATE_LEN],
}

impl<'a> Controller<'a> {
    /// A controller in the fresh state, on a personality that is accepted.
    ///
    /// # Panics
    ///
    /// If the linked archive is of another version ([`version_fits`]).
    pub fn new(personality: &'a [u8]) -> Result<Controller<'a>, Refusal> {
        Controller::with(personality, |state| packed::fresh(personality, state))
    }

    /// A controller that goes on from the bytes of a state, on the personality that
    /// it ran on. Bytes that are no valid state there are refused with 13.
    ///
    /// # Panics
    ///
    /// If the linked archive is of another version ([`version_fits`]).
    pub fn from_state(personality: &'a [u8], state: &[u8]) -> Result<Controller<'a>, Refusal> {
        Controller::with(personality, |own| {
            // Without inputs this call refuses the personality or the state alone, and
            // writes nothing.
            let answer = packed::why_length(personality, state, 0);
            if wait_bound_or_refusal(answer).is_ok() {
                own.copy_from_slice(state);
            }
            answer
        })
    }

    /// A controller that goes on from a record that [`Controller::seal`] wrote, on the
    /// personality that it ran on. After 27, 28 or 29 start from the fresh state.
    ///
    /// # Panics
    ///
    /// If the linked archive is of another version ([`version_fits`]).
    pub fn resume(personality: &'a [u8], sealed: &[u8]) -> Result<Controller<'a>, Refusal> {
        Controller::with(personality, |state| {
            packed::resume(personality, sealed, state)
        })
    }

    /// A controller in the state that a call writes.
    fn with(
        personality: &'a [u8],
        write: impl FnOnce(&mut [u8; STATE_LEN]) -> u64,
    ) -> Result<Controller<'a>, Refusal> {
        assert!(
            version_fits(),
            "the linked archive has version {} of the interface, and these wrappers are for {VERSION}",
            version()
        );
        let mut state = [0; STATE_LEN];
        wait_bound_or_refusal(write(&mut state))?;
        Ok(Controller {
            personality,
            groups: groups(personality)?,
            state,
        })
    }

    /// The number of signal groups: a step writes as many colours.
    pub fn groups(&self) -> usize {
        self.groups
    }

    /// Seals the state for the time without power: a record for [`Controller::resume`].
    /// The library refuses it for a wrong personality or state only, which a controller
    /// does not have.
    pub fn seal(&self) -> Result<[u8; SEALED_LEN], Refusal> {
        let mut sealed = [0; SEALED_LEN];
        let answer = packed::seal(self.personality, &self.state, &mut sealed);
        wait_bound_or_refusal(answer).map(|_| sealed)
    }

    /// One step of 0.1 s: the colours of the groups are written, and the wait
    /// bound of the times that rule after it is the answer. A refused step changes
    /// nothing.
    pub fn step(&mut self, inputs: u64, colours: &mut [u8]) -> Result<u64, Refusal> {
        let answer = packed::step(self.personality, &mut self.state, inputs, colours);
        wait_bound_or_refusal(answer)
    }

    /// New times: a personality that differs from the controller's own in time
    /// settings alone. They wait until a phase starts, in place of any that wait, and
    /// rule from that start on. A refused retiming changes nothing.
    pub fn retime(&mut self, new_personality: &[u8]) -> Result<(), Refusal> {
        let answer = packed::retime(self.personality, &mut self.state, new_personality);
        wait_bound_or_refusal(answer).map(|_| ())
    }

    /// The length of the line that [`Controller::why`] writes.
    pub fn why_length(&self, inputs: u64) -> Result<usize, Refusal> {
        line_length(packed::why_length(self.personality, &self.state, inputs))
    }

    /// Writes a line to the beginning of a buffer: why the phase holds its green after
    /// a step with these inputs. It is empty outside running, and never longer than
    /// [`crate::LONGEST_LINE`]; [`crate::Why::parse`] takes it apart.
    pub fn why<'b>(&self, inputs: u64, buffer: &'b mut [u8]) -> Result<&'b [u8], Refusal> {
        line_of(self.personality, &self.state, inputs, buffer)
    }

    /// The bytes of the state.
    pub fn state(&self) -> &[u8; STATE_LEN] {
        &self.state
    }

    /// The fields of the state.
    pub fn fields(&self) -> Fields<'_> {
        Fields::of(&self.state)
    }
}
