//! The numbers of the refusals, and what each means. include/willowera.h has the place
//! that each gives.

pub const ACCEPTED: u8 = 0;
pub const CUT_SHORT: u8 = 1;
pub const WRONG_KIND: u8 = 2;
pub const WRONG_LENGTH: u8 = 3;
pub const WRONG_COUNT: u8 = 4;
pub const TIME_OUTSIDE: u8 = 5;
pub const WRONG_GROUP: u8 = 6;
pub const NINTH_PEDESTRIAN: u8 = 7;
pub const PHASE_WITHOUT_GROUP: u8 = 8;
pub const WRONG_CONFLICT: u8 = 9;
pub const CONFLICT_IN_PHASE: u8 = 10;
pub const WRONG_DETECTOR: u8 = 11;
pub const LEFT_OVER: u8 = 12;
pub const STATE_NOT_VALID: u8 = 13;
pub const BUFFER_SHORT: u8 = 14;
pub const STRAY_INPUT: u8 = 15;
pub const NO_EARLY_TIMES: u8 = 17;
pub const WRONG_ORDER: u8 = 18;
pub const SHEET_OUT_OF_RANGE: u8 = 19;
pub const ABOVE_LIMITS: u8 = 20;
pub const UNCALLED_PHASE: u8 = 21;
pub const WRONG_STREAMS: u8 = 22;
pub const YELLOW_OUT_OF_RANGE: u8 = 23;
pub const WRONG_RECORD: u8 = 24;
pub const OUTPUTS_TAKEN: u8 = 25;
pub const NOT_ONLY_TIMES: u8 = 26;
pub const OTHER_VERSION: u8 = 27;
pub const DAMAGED: u8 = 28;
pub const OTHER_PERSONALITY: u8 = 29;

/// What a number means in any call, without a full stop.
pub fn words(number: u8) -> &'static str {
    match number {
        ACCEPTED => "the call is accepted",
        CUT_SHORT => "the personality ends before the end of a section",
        WRONG_KIND => "a section is of another kind than the expected one, or the kind that was looked up is not there",
        WRONG_LENGTH => "the length of a section does not fit the counts",
        WRONG_COUNT => "the number of phases or signal groups is out of range",
        TIME_OUTSIDE => "a time is outside the limits of the edition",
        WRONG_GROUP => "a group has an unknown phase or mark, or is a pedestrian group without exactly one phase",
        NINTH_PEDESTRIAN => "there are more than eight pedestrian groups",
        PHASE_WITHOUT_GROUP => "a phase has no signal group",
        WRONG_CONFLICT => "a group conflicts with itself, with a missing group, or with a group that does not list it",
        CONFLICT_IN_PHASE => "two conflicting groups share a phase",
        WRONG_DETECTOR => "a detector has an unknown phase or mode",
        LEFT_OVER => "bytes follow the last section",
        STATE_NOT_VALID => "the bytes are not a valid state of this personality",
        BUFFER_SHORT => "a buffer for the results of the call has the wrong length",
        STRAY_INPUT => "an input bit is set that has no detector and no button",
        // Of the trace program alone.
        16 => "the input of the trace program ends too early",
        NO_EARLY_TIMES => "a group stops early, but the early cut-off section is missing",
        WRONG_ORDER => "the running order does not have each phase exactly once",
        SHEET_OUT_OF_RANGE => "speed, metres or detector of the site sheet is out of range",
        ABOVE_LIMITS => "minimum green or passage time of the site sheet is above its limit",
        UNCALLED_PHASE => "a phase has no calling detector and no pedestrian group",
        WRONG_STREAMS => "streams or steps of the road are out of range, or a detector or vehicle group is not in the site",
        YELLOW_OUT_OF_RANGE => "speed or grade of the yellow time is out of range",
        WRONG_RECORD => "there is no such record, a site is placed in a record that is not free, or a record without a site is called",
        OUTPUTS_TAKEN => "an output is past the 32nd, or belongs to another site",
        NOT_ONLY_TIMES => "the new personality differs from the first in more than times",
        OTHER_VERSION => "the record was sealed under another version of the interface",
        DAMAGED => "the sealed record is damaged",
        OTHER_PERSONALITY => "the record was sealed with another personality",
        _ => "no refusal has this number",
    }
}
