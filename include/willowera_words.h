/* The refusals of willowera.h in words, for a person who looks for the mistake in a personality.
 *
 *     char text[WILLOWERA_MOST_WORDS_BYTES];
 *     uint64_t answer = willowera_read(personality, length);
 *     willowera_explain(personality, length, answer, text, sizeof text);
 *
 * This is plain C (C99 and later, C++), and not part of the proved library: nothing here is proved. examples/c/words.c tests it. It decides
 * nothing. It takes an answer of the library and looks into the personality for what the answer is about. If the bytes do not show that,
 * because answer and personality do not belong together, the text is the general sentence of the number.
 *
 * It needs no library, no heap and no writable data. Include it in one source file: its functions are static.
 *
 * Phases have letters. Groups, detectors, movements and bytes count from 0. Times are in steps of 0.1 s.
 */
#ifndef WILLOWERA_WORDS_H
#define WILLOWERA_WORDS_H

#include "willowera.h"

#ifdef __cplusplus
extern "C" {
#endif

/* Room for every text of willowera_explain, with the NUL. */
#define WILLOWERA_MOST_WORDS_BYTES 160

/* The general sentence of a number, without a full stop. */
static inline const char *willowera_words(unsigned number)
{
    switch (number) {
    case WILLOWERA_ACCEPTED:
        return "the call is accepted";
    case WILLOWERA_CUT_SHORT:
        return "the personality ends before the end of a section";
    case WILLOWERA_WRONG_KIND:
        return "a section is of another kind than the expected one, or the kind that was looked up is not there";
    case WILLOWERA_WRONG_LENGTH:
        return "the length of a section does not fit the counts";
    case WILLOWERA_WRONG_COUNT:
        return "the number of phases or signal groups is out of range";
    case WILLOWERA_TIME_OUTSIDE:
        return "a time is outside the limits of the edition";
    case WILLOWERA_WRONG_GROUP:
        return "a group has an unknown phase or mark, or is a pedestrian group without exactly one phase";
    case WILLOWERA_NINTH_PEDESTRIAN:
        return "there are more than eight pedestrian groups";
    case WILLOWERA_PHASE_WITHOUT_GROUP:
        return "a phase has no signal group";
    case WILLOWERA_WRONG_CONFLICT:
        return "a group conflicts with itself, with a missing group, or with a group that does not list it";
    case WILLOWERA_CONFLICT_IN_PHASE:
        return "two conflicting groups share a phase";
    case WILLOWERA_WRONG_DETECTOR:
        return "a detector has an unknown phase or mode";
    case WILLOWERA_LEFT_OVER:
        return "bytes follow the last section";
    case WILLOWERA_STATE_NOT_VALID:
        return "the bytes are not a valid state of this personality";
    case WILLOWERA_BUFFER_SHORT:
        return "a buffer for the results of the call has the wrong length";
    case WILLOWERA_STRAY_INPUT:
        return "an input bit is set that has no detector and no button";
    case 16: /* of the trace program only, so the interface has no name for it */
        return "the input of the trace program ends too early";
    case WILLOWERA_NO_EARLY_TIMES:
        return "a group stops early, but the early cut-off section is missing";
    case WILLOWERA_WRONG_ORDER:
        return "the running order does not have each phase exactly once";
    case WILLOWERA_SHEET_OUT_OF_RANGE:
        return "speed, metres or detector of the site sheet is out of range";
    case WILLOWERA_ABOVE_LIMITS:
        return "minimum green or passage time of the site sheet is above its limit";
    case WILLOWERA_UNCALLED_PHASE:
        return "a phase has no calling detector and no pedestrian group";
    case WILLOWERA_WRONG_STREAMS:
        return "streams or steps of the road are out of range, or a detector or vehicle group is not in the site";
    case WILLOWERA_YELLOW_OUT_OF_RANGE:
        return "speed or grade of the yellow time is out of range";
    case WILLOWERA_WRONG_RECORD:
        return "there is no such record, a site is placed in a record that is not free, or a record without a site is called";
    case WILLOWERA_OUTPUTS_TAKEN:
        return "an output is past the 32nd, or belongs to another site";
    case WILLOWERA_NOT_ONLY_TIMES:
        return "the new personality differs from the first in more than times";
    case WILLOWERA_OTHER_VERSION:
        return "the record was sealed under another version of the interface";
    case WILLOWERA_DAMAGED:
        return "the sealed record is damaged";
    case WILLOWERA_OTHER_PERSONALITY:
        return "the record was sealed with another personality";
    default:
        return "no refusal has this number";
    }
}

/* ── What is looked at, and the text that is written. Bytes past the end are read as 0. Only the functions at the end are for callers ── */

struct willowera_words_job {
    const uint8_t *bytes;
    uint64_t length;
    uint32_t place;
    char *text;
    size_t room;
    size_t wanted; /* the length of the whole text, also of what has no room */
};

static inline unsigned willowera_words_byte(const struct willowera_words_job *job, uint32_t at)
{
    return at < job->length ? job->bytes[at] : 0;
}

static inline unsigned willowera_words_two(const struct willowera_words_job *job, uint32_t at)
{
    return willowera_words_byte(job, at) | willowera_words_byte(job, at + 1) << 8;
}

static inline uint32_t willowera_words_four(const struct willowera_words_job *job, uint32_t at)
{
    return willowera_words_two(job, at) | (uint32_t)willowera_words_two(job, at + 2) << 16;
}

static inline void willowera_words_put(struct willowera_words_job *job, const char *words)
{
    for (; *words != '\0'; words++, job->wanted++)
        if (job->wanted + 1 < job->room)
            job->text[job->wanted] = *words;
}

static inline void willowera_words_number(struct willowera_words_job *job, size_t number)
{
    char digits[21];
    size_t at = sizeof digits - 1;

    digits[at] = '\0';
    do {
        digits[--at] = (char)('0' + number % 10);
        number /= 10;
    } while (number != 0);
    willowera_words_put(job, digits + at);
}

/* Writes words with a number behind them. */
static inline void willowera_words_with(struct willowera_words_job *job, const char *words, size_t number)
{
    willowera_words_put(job, words);
    willowera_words_number(job, number);
}

/* Writes "2 phases", "1 phase". */
static inline void willowera_words_count(struct willowera_words_job *job, unsigned count, const char *noun)
{
    willowera_words_number(job, count);
    willowera_words_put(job, " ");
    willowera_words_put(job, noun);
    if (count != 1)
        willowera_words_put(job, "s");
}

/* Writes "C", or "number 7": only A to G are letters of phases. */
static inline void willowera_words_letter(struct willowera_words_job *job, unsigned phase)
{
    const char letter[2] = {(char)('A' + phase % WILLOWERA_MOST_PHASES), '\0'};

    if (phase < WILLOWERA_MOST_PHASES)
        willowera_words_put(job, letter);
    else
        willowera_words_with(job, "number ", phase);
}

static inline void willowera_words_phase(struct willowera_words_job *job, unsigned phase)
{
    willowera_words_put(job, "phase ");
    willowera_words_letter(job, phase);
}

/* Writes the phases of a set: "phase B", "phases B, D and G", or nothing. */
static inline void willowera_words_phases(struct willowera_words_job *job, unsigned set)
{
    const char *before = (set & (set - 1)) == 0 ? "phase " : "phases ";

    for (unsigned phase = 0; phase < 8; phase++)
        if (set >> phase & 1) {
            willowera_words_put(job, before);
            willowera_words_letter(job, phase);
            set &= ~(1u << phase);
            before = (set & (set - 1)) == 0 ? " and " : ", ";
        }
}

/* ── Sections ── */

/* The counts of the site section. More than are allowed count as none, so that every shift and every loop is bounded. */
static inline unsigned willowera_words_phase_count(const struct willowera_words_job *job)
{
    unsigned phases = willowera_words_byte(job, 4);

    return phases <= WILLOWERA_MOST_PHASES ? phases : 0;
}

static inline unsigned willowera_words_group_count(const struct willowera_words_job *job)
{
    unsigned groups = willowera_words_byte(job, 5);

    return groups <= WILLOWERA_MOST_GROUPS ? groups : 0;
}

static inline const char *willowera_words_name(unsigned kind)
{
    static const char *const names[] = {
        "",
        "the site section (kind 1 or 8)",
        "the phase section (kind 2)",
        "the group section (kind 3)",
        "the conflict section (kind 4)",
        "the detector section (kind 5)",
        "the pedestrian section (kind 6)",
        "the early cut-off section (kind 7)",
        "",
        "the order section (kind 9)",
    };

    return kind < sizeof names / sizeof names[0] ? names[kind] : "";
}

/* The head that follows the section at a head, as its length says. */
static inline uint32_t willowera_words_next(const struct willowera_words_job *job, uint32_t head)
{
    return head + 4 + willowera_words_two(job, head);
}

/* The head of the section of a kind from 1 to 7, or where it is expected. The kind of the site section counts as 1. */
static inline uint32_t willowera_words_head(const struct willowera_words_job *job, unsigned kind)
{
    uint32_t head = 0;

    for (unsigned before = 1; before < kind; before++)
        head = willowera_words_next(job, head);
    return head;
}

static inline int willowera_words_has_early(const struct willowera_words_job *job)
{
    uint32_t head = willowera_words_head(job, 7);

    return job->length >= head && job->length - head >= 4 && willowera_words_two(job, head + 2) == 7;
}

/* Where kind 9 is expected: behind kind 7, or in its place. */
static inline uint32_t willowera_words_order_head(const struct willowera_words_job *job)
{
    uint32_t head = willowera_words_head(job, 7);

    return willowera_words_has_early(job) ? willowera_words_next(job, head) : head;
}

/* The kind that is expected at the place: 1 to 6, or one of the kinds 7 and 9 that is there; 0 if no section begins there. */
static inline unsigned willowera_words_expected(const struct willowera_words_job *job)
{
    for (unsigned kind = 1; kind <= 6; kind++)
        if (job->place == willowera_words_head(job, kind))
            return kind;
    if (willowera_words_has_early(job) && job->place == willowera_words_head(job, 7))
        return 7;
    return job->place == willowera_words_order_head(job) && willowera_words_two(job, job->place + 2) == 9 ? 9 : 0;
}

/* The record at the place, of so many bytes each in the section at a head; or `most` if the place is not one of the first `most`. */
static inline unsigned willowera_words_record(const struct willowera_words_job *job, uint32_t head, unsigned size, unsigned most)
{
    uint32_t body = head + 4;

    if (job->place < body || (job->place - body) % size != 0 || (job->place - body) / size >= most)
        return most;
    return (unsigned)((job->place - body) / size);
}

/* ── Groups: their phase sets and marks are in section 3, their conflicts in section 4 ── */

#define WILLOWERA_WORDS_PEDESTRIAN 2u
#define WILLOWERA_WORDS_STOPS_EARLY 3u

static inline unsigned willowera_words_set(const struct willowera_words_job *job, unsigned group)
{
    return willowera_words_byte(job, willowera_words_head(job, 3) + 4 + 2 * group);
}

static inline unsigned willowera_words_mark(const struct willowera_words_job *job, unsigned group)
{
    return willowera_words_byte(job, willowera_words_head(job, 3) + 4 + 2 * group + 1);
}

static inline uint32_t willowera_words_conflicts(const struct willowera_words_job *job, unsigned group)
{
    return willowera_words_four(job, willowera_words_head(job, 4) + 4 + 4 * group);
}

/* How many of the groups before this one are pedestrian groups. */
static inline unsigned willowera_words_pedestrians(const struct willowera_words_job *job, unsigned before)
{
    unsigned count = 0;

    for (unsigned group = 0; group < before; group++)
        count += willowera_words_mark(job, group) == WILLOWERA_WORDS_PEDESTRIAN;
    return count;
}

static inline unsigned willowera_words_all_phases(const struct willowera_words_job *job)
{
    return (1u << willowera_words_phase_count(job)) - 1;
}

static inline void willowera_words_only_phases(struct willowera_words_job *job)
{
    willowera_words_put(job, ", but the site has only ");
    willowera_words_phases(job, willowera_words_all_phases(job));
}

/* ── The numbers, one function for each. It writes nothing and gives 0 if the bytes do not show what the number says ── */

static inline int willowera_words_cut_short(struct willowera_words_job *job)
{
    unsigned kind = willowera_words_expected(job);
    uint32_t end = willowera_words_next(job, job->place);

    if (kind == 0 || job->place > job->length || (job->length - job->place >= 4 && job->length >= end))
        return 0;
    willowera_words_with(job, "the personality has only ", (size_t)job->length);
    willowera_words_put(job, job->length == 1 ? " byte, and " : " bytes, and ");
    willowera_words_put(job, willowera_words_name(kind));
    if (job->length == job->place) {
        willowera_words_put(job, " is missing");
    } else if (job->length - job->place < 4) {
        willowera_words_with(job, " begins at byte ", job->place);
        willowera_words_put(job, " with a head of 4 bytes");
    } else {
        willowera_words_with(job, " goes from byte ", job->place);
        willowera_words_with(job, " to byte ", end - 1);
    }
    return 1;
}

static inline int willowera_words_wrong_kind(struct willowera_words_job *job)
{
    unsigned kind = willowera_words_expected(job), found = willowera_words_two(job, job->place + 2);

    if (kind == 1 && (found == WILLOWERA_EDITION_ONE || found == WILLOWERA_EDITION_TWO)) {
        willowera_words_put(job, "the personality has no section of the kind that was looked up");
        return 1;
    }
    if (kind == 0 || found == kind || job->length < job->place + 4)
        return 0;
    willowera_words_with(job, "the section at byte ", job->place);
    willowera_words_with(job, " is of kind ", found);
    willowera_words_put(job, ", but ");
    willowera_words_put(job, willowera_words_name(kind));
    willowera_words_put(job, " must be there");
    return 1;
}

/* What decides the length of a section, how many of them there are, and how many bytes each needs. */
struct willowera_words_need {
    const char *noun;
    unsigned count, size;
};

static inline struct willowera_words_need willowera_words_need_of(const struct willowera_words_job *job, unsigned kind)
{
    unsigned groups = willowera_words_group_count(job);
    unsigned size = kind == 2 ? 12 : kind == 4 ? 4 : kind == 6 ? 6 : kind == 9 ? 1 : 2;
    struct willowera_words_need need = {"phase", willowera_words_phase_count(job), size};

    if (kind == 3 || kind == 4) {
        need.noun = "signal group";
        need.count = groups;
    } else if (kind == 6) {
        need.noun = "pedestrian group";
        need.count = willowera_words_pedestrians(job, groups);
    }
    return need;
}

static inline int willowera_words_wrong_length(struct willowera_words_job *job)
{
    unsigned kind = willowera_words_expected(job), found = willowera_words_two(job, job->place);
    struct willowera_words_need need = willowera_words_need_of(job, kind);
    int fits = kind == 1   ? found == 4
               : kind == 5 ? found % 2 == 0 && found <= 2 * WILLOWERA_MOST_DETECTORS
                           : found == need.count * need.size;

    if (kind == 0 || fits)
        return 0;
    willowera_words_put(job, willowera_words_name(kind));
    willowera_words_with(job, " at byte ", job->place);
    willowera_words_with(job, " has a length of ", found);
    if (kind == 1) {
        willowera_words_put(job, ", but it must be 4");
    } else if (kind == 5) {
        willowera_words_put(job, found % 2 != 0 ? ", but a detector has 2 bytes" : ", but at most 96 is allowed (48 detectors)");
    } else {
        willowera_words_put(job, ", but with ");
        willowera_words_count(job, need.count, need.noun);
        willowera_words_with(job, " it must be ", need.count * need.size);
    }
    return 1;
}

static inline int willowera_words_wrong_count(struct willowera_words_job *job)
{
    unsigned count = willowera_words_byte(job, job->place);
    int of_phases = job->place == 4 && (count < 2 || count > WILLOWERA_MOST_PHASES);
    int of_groups = job->place == 5 && (count < 1 || count > WILLOWERA_MOST_GROUPS);

    if (job->length <= job->place || !(of_phases || of_groups))
        return 0;
    willowera_words_put(job, "the site has ");
    willowera_words_count(job, count, of_phases ? "phase" : "signal group");
    willowera_words_put(job, of_phases ? ", but 2 to 7 are allowed" : ", but 1 to 32 are allowed");
    return 1;
}

struct willowera_words_setting {
    const char *name;
    unsigned lowest, lowest_in_two, highest; /* in edition one, in edition two, in both */
};

#define WILLOWERA_WORDS_NO_SETTING 11u

/* By number: 0 start red, 1 to 6 those of a phase, 7 to 9 those of a movement, 10 early cut-off green; then no setting, with any value. */
static inline struct willowera_words_setting willowera_words_setting_of(unsigned number)
{
    static const struct willowera_words_setting settings[] = {
        {"start red", 10, 30, 150},
        {"late start (L)", 0, 0, 200},
        {"minimum green (M)", 10, 10, 400},
        {"maximum green (X)", 10, 10, 1500},
        {"gap (G)", 0, 0, 100},
        {"yellow (Y)", 30, 30, 100},
        {"all-red (R)", 10, 15, 150},
        {"walk (W)", 10, 10, 400},
        {"first clearance (C1)", 1, 1, 400},
        {"second clearance (C2)", 1, 1, 400},
        {"early cut-off green (E)", 0, 0, 200},
        {"", 0, 0, 65535},
    };

    return settings[number < WILLOWERA_WORDS_NO_SETTING ? number : WILLOWERA_WORDS_NO_SETTING];
}

/* The group of a movement: the pedestrian groups have the movements in their order. */
static inline unsigned willowera_words_group_of(const struct willowera_words_job *job, unsigned movement)
{
    unsigned group = 0, groups = willowera_words_group_count(job);

    while (group < groups && willowera_words_pedestrians(job, group + 1) <= movement)
        group++;
    return group;
}

/* A time of the personality: its setting, and the number of the phase or movement that has it. */
struct willowera_words_time {
    unsigned setting, of;
};

static inline struct willowera_words_time willowera_words_time_at(const struct willowera_words_job *job)
{
    unsigned phases = willowera_words_phase_count(job);
    unsigned movements = willowera_words_pedestrians(job, willowera_words_group_count(job));
    unsigned in_phases = willowera_words_record(job, willowera_words_head(job, 2), 2, 6 * phases);
    unsigned in_movements = willowera_words_record(job, willowera_words_head(job, 6), 2, 3 * movements);
    unsigned in_early = willowera_words_record(job, willowera_words_head(job, 7), 2, phases);
    struct willowera_words_time time = {WILLOWERA_WORDS_NO_SETTING, 0};

    if (job->place == 6) {
        time.setting = 0;
    } else if (in_phases < 6 * phases) {
        time.setting = 1 + in_phases % 6;
        time.of = in_phases / 6;
    } else if (in_movements < 3 * movements) {
        time.setting = 7 + in_movements % 3;
        time.of = in_movements / 3;
    } else if (in_early < phases && willowera_words_has_early(job)) {
        time.setting = 10;
        time.of = in_early;
    }
    return time;
}

static inline int willowera_words_time_outside(struct willowera_words_job *job)
{
    struct willowera_words_time time = willowera_words_time_at(job);
    struct willowera_words_setting setting = willowera_words_setting_of(time.setting);
    int in_two = willowera_words_two(job, 2) == WILLOWERA_EDITION_TWO;
    unsigned lowest = in_two ? setting.lowest_in_two : setting.lowest, value = willowera_words_two(job, job->place);

    if (job->length < job->place + 2 || (lowest <= value && value <= setting.highest))
        return 0;
    willowera_words_put(job, setting.name);
    if (time.setting >= 7 && time.setting <= 9) {
        willowera_words_with(job, " of movement ", time.of);
        willowera_words_with(job, " (group ", willowera_words_group_of(job, time.of));
        willowera_words_put(job, ")");
    } else if (time.setting != 0) {
        willowera_words_put(job, " of ");
        willowera_words_phase(job, time.of);
    }
    willowera_words_with(job, " is ", value);
    willowera_words_with(job, in_two ? " steps, but edition two allows " : " steps, but edition one allows ", lowest);
    willowera_words_with(job, " to ", setting.highest);
    return 1;
}

static inline int willowera_words_wrong_group(struct willowera_words_job *job)
{
    unsigned groups = willowera_words_group_count(job);
    unsigned group = willowera_words_record(job, willowera_words_head(job, 3), 2, groups);
    unsigned set = willowera_words_set(job, group), mark = willowera_words_mark(job, group);
    unsigned unknown = set & ~willowera_words_all_phases(job);
    int one = set != 0 && (set & (set - 1)) == 0;

    if (group == groups || (unknown == 0 && mark <= WILLOWERA_WORDS_STOPS_EARLY && (mark != WILLOWERA_WORDS_PEDESTRIAN || one)))
        return 0;
    willowera_words_with(job, "group ", group);
    if (unknown != 0) {
        willowera_words_put(job, " has ");
        willowera_words_phases(job, unknown);
        willowera_words_only_phases(job);
    } else if (mark > WILLOWERA_WORDS_STOPS_EARLY) {
        willowera_words_with(job, " has mark ", mark);
        willowera_words_put(job, ", but the marks are 0 to 3");
    } else {
        willowera_words_put(job, set == 0 ? " is a pedestrian group and has no phase" : " is a pedestrian group and has ");
        willowera_words_phases(job, set);
        willowera_words_put(job, ", but must have exactly one");
    }
    return 1;
}

static inline int willowera_words_ninth(struct willowera_words_job *job)
{
    unsigned groups = willowera_words_group_count(job);
    unsigned group = willowera_words_record(job, willowera_words_head(job, 3), 2, groups);

    if (group == groups || willowera_words_mark(job, group) != WILLOWERA_WORDS_PEDESTRIAN ||
        willowera_words_pedestrians(job, group) != WILLOWERA_MOST_MOVEMENTS)
        return 0;
    willowera_words_with(job, "group ", group);
    willowera_words_put(job, " is the ninth pedestrian group, but at most eight are allowed");
    return 1;
}

/* Writes a set of phases and what they all lack, unless it is empty. */
static inline int willowera_words_lacking(struct willowera_words_job *job, unsigned set, const char *lacked)
{
    if (set == 0)
        return 0;
    willowera_words_phases(job, set);
    willowera_words_put(job, (set & (set - 1)) == 0 ? " has " : " have ");
    willowera_words_put(job, lacked);
    return 1;
}

static inline int willowera_words_without_group(struct willowera_words_job *job)
{
    unsigned lacking = willowera_words_all_phases(job);

    for (unsigned group = 0; group < willowera_words_group_count(job); group++)
        lacking &= ~willowera_words_set(job, group);
    return willowera_words_lacking(job, lacking, "no signal group");
}

static inline int willowera_words_wrong_conflict(struct willowera_words_job *job)
{
    unsigned groups = willowera_words_group_count(job);
    unsigned group = willowera_words_record(job, willowera_words_head(job, 4), 4, groups), other = 0;
    uint32_t conflicts = willowera_words_conflicts(job, group);

    if (group == groups)
        return 0;
    if (conflicts >> group & 1) {
        willowera_words_with(job, "group ", group);
        willowera_words_put(job, " conflicts with itself");
        return 1;
    }
    while (other < 32 && !((conflicts >> other & 1) && (other >= groups || !(willowera_words_conflicts(job, other) >> group & 1))))
        other++;
    if (other == 32)
        return 0;
    willowera_words_with(job, "group ", group);
    willowera_words_with(job, " conflicts with group ", other);
    if (other >= groups) {
        willowera_words_with(job, ", but the last group of the site is ", groups - 1);
    } else {
        willowera_words_with(job, ", but the conflicts of group ", other);
        willowera_words_with(job, " do not have group ", group);
    }
    return 1;
}

static inline int willowera_words_in_phase(struct willowera_words_job *job)
{
    unsigned groups = willowera_words_group_count(job), other = 0;
    unsigned group = willowera_words_record(job, willowera_words_head(job, 4), 4, groups);
    uint32_t conflicts = willowera_words_conflicts(job, group);

    while (other < groups && !((conflicts >> other & 1) && (willowera_words_set(job, group) & willowera_words_set(job, other)) != 0))
        other++;
    if (group == groups || other == groups)
        return 0;
    willowera_words_with(job, "group ", group);
    willowera_words_with(job, " and group ", other);
    willowera_words_put(job, " conflict, but both have ");
    willowera_words_phases(job, willowera_words_set(job, group) & willowera_words_set(job, other));
    return 1;
}

static inline int willowera_words_wrong_detector(struct willowera_words_job *job)
{
    unsigned detectors = willowera_words_two(job, willowera_words_head(job, 5)) / 2;
    unsigned detector = willowera_words_record(job, willowera_words_head(job, 5), 2, detectors);
    unsigned phase = willowera_words_byte(job, job->place), mode = willowera_words_byte(job, job->place + 1);
    int unknown = phase >= willowera_words_phase_count(job);

    if (detector == detectors || !(unknown || mode == 3 || mode > 6))
        return 0;
    willowera_words_with(job, "detector ", detector);
    if (unknown) {
        willowera_words_put(job, " has ");
        willowera_words_phase(job, phase);
        willowera_words_only_phases(job);
    } else {
        willowera_words_with(job, " has mode ", mode);
        willowera_words_put(job, ", but the modes are 0, 1, 2, 4, 5 and 6");
    }
    return 1;
}

static inline int willowera_words_left_over(struct willowera_words_job *job)
{
    uint32_t order = willowera_words_order_head(job);
    int has_order = job->length >= order + 4 && willowera_words_two(job, order + 2) == 9;
    uint32_t end = has_order ? willowera_words_next(job, order) : order;

    if (job->place != end || job->length <= end)
        return 0;
    willowera_words_number(job, (size_t)(job->length - end));
    willowera_words_put(job, job->length - end == 1 ? " byte is" : " bytes are");
    willowera_words_with(job, " left over from byte ", end);
    willowera_words_put(job, " on, after ");
    willowera_words_put(job, willowera_words_name(has_order ? 9 : willowera_words_has_early(job) ? 7 : 6));
    return 1;
}

static inline int willowera_words_no_early_times(struct willowera_words_job *job)
{
    unsigned groups = willowera_words_group_count(job);
    unsigned group = willowera_words_record(job, willowera_words_head(job, 3), 2, groups);

    if (group == groups || willowera_words_mark(job, group) != WILLOWERA_WORDS_STOPS_EARLY || willowera_words_has_early(job))
        return 0;
    willowera_words_with(job, "group ", group);
    willowera_words_put(job, " stops early (mark 3), but ");
    willowera_words_put(job, willowera_words_name(7));
    willowera_words_put(job, " is missing");
    return 1;
}

static inline int willowera_words_wrong_order(struct willowera_words_job *job)
{
    unsigned phases = willowera_words_phase_count(job), all = willowera_words_all_phases(job);
    unsigned listed = 0, twice = 0, unknown = 0;

    for (unsigned entry = 0; entry < phases; entry++) {
        unsigned phase = willowera_words_byte(job, job->place + 4 + entry);
        if (phase >= phases) {
            unknown = phase;
        } else {
            twice |= listed & 1u << phase;
            listed |= 1u << phase;
        }
    }
    if (willowera_words_expected(job) != 9 || listed == all)
        return 0;
    willowera_words_put(job, "the running order does not have ");
    willowera_words_phases(job, all & ~listed);
    willowera_words_put(job, ", but has ");
    if (twice != 0) {
        willowera_words_phases(job, twice);
        willowera_words_put(job, " more than once");
    } else {
        willowera_words_phase(job, unknown);
        willowera_words_put(job, ", which the site does not have");
    }
    return 1;
}

static inline int willowera_words_uncalled(struct willowera_words_job *job)
{
    uint32_t head = willowera_words_head(job, 5);
    unsigned lacking = willowera_words_all_phases(job);

    for (unsigned detector = 0; detector < willowera_words_two(job, head) / 2; detector++) {
        unsigned phase = willowera_words_byte(job, head + 4 + 2 * detector);
        unsigned mode = willowera_words_byte(job, head + 4 + 2 * detector + 1);
        if (phase < WILLOWERA_MOST_PHASES && mode % 4 != 0)
            lacking &= ~(1u << phase);
    }
    for (unsigned group = 0; group < willowera_words_group_count(job); group++)
        if (willowera_words_mark(job, group) == WILLOWERA_WORDS_PEDESTRIAN)
            lacking &= ~willowera_words_set(job, group);
    return willowera_words_lacking(job, lacking, "no detector that calls (mode 1, 2, 5 or 6) and no pedestrian group");
}

static inline int willowera_words_told(struct willowera_words_job *job, unsigned number)
{
    switch (number) {
    case WILLOWERA_CUT_SHORT:
        return willowera_words_cut_short(job);
    case WILLOWERA_WRONG_KIND:
        return willowera_words_wrong_kind(job);
    case WILLOWERA_WRONG_LENGTH:
        return willowera_words_wrong_length(job);
    case WILLOWERA_WRONG_COUNT:
        return willowera_words_wrong_count(job);
    case WILLOWERA_TIME_OUTSIDE:
        return willowera_words_time_outside(job);
    case WILLOWERA_WRONG_GROUP:
        return willowera_words_wrong_group(job);
    case WILLOWERA_NINTH_PEDESTRIAN:
        return willowera_words_ninth(job);
    case WILLOWERA_PHASE_WITHOUT_GROUP:
        return willowera_words_without_group(job);
    case WILLOWERA_WRONG_CONFLICT:
        return willowera_words_wrong_conflict(job);
    case WILLOWERA_CONFLICT_IN_PHASE:
        return willowera_words_in_phase(job);
    case WILLOWERA_WRONG_DETECTOR:
        return willowera_words_wrong_detector(job);
    case WILLOWERA_LEFT_OVER:
        return willowera_words_left_over(job);
    case WILLOWERA_NO_EARLY_TIMES:
        return willowera_words_no_early_times(job);
    case WILLOWERA_WRONG_ORDER:
        return willowera_words_wrong_order(job);
    case WILLOWERA_UNCALLED_PHASE:
        return willowera_words_uncalled(job);
    default:
        return 0;
    }
}

/* ── For callers ── */

/* Writes one sentence, without a full stop, that says what an answer of the library means for the personality that it is about: of a
 * retiming the new one, if willowera_read accepts the first; of a record of a cabinet the one that is held there.
 *
 * At most `room` bytes are written, the last of them a NUL; with room 0 none, and the text may then be null. The result is the length of the
 * whole sentence without the NUL, so a result of `room` or more says that the text was cut. WILLOWERA_MOST_WORDS_BYTES is always enough.
 * No byte of the personality past its length is read, whatever the answer is. Text and personality do not overlap. */
static inline size_t willowera_explain(const uint8_t *personality, uint64_t length, uint64_t answer, char *text, size_t room)
{
    unsigned number = WILLOWERA_NUMBER(answer);
    uint64_t place = answer >> 8;
    struct willowera_words_job job = {personality, length, (uint32_t)place, text, room, 0};

    if (place > WILLOWERA_MOST_PERSONALITY_BYTES || !willowera_words_told(&job, number))
        willowera_words_put(&job, willowera_words(number));
    if (room > 0)
        text[job.wanted < room ? job.wanted : room - 1] = '\0';
    return job.wanted;
}

#ifdef __cplusplus
}
#endif

#endif
