"""What the vectors are drawn from: second personalities for a site that runs, states with their times, and inputs."""
from controller import E, FIRST, G, IDLE, L, M, OLDEST, R, S, SECOND, WALK, Y, Controller
from model import EDITIONS, PHASE_FIELDS, WALK_FIELDS, number, random_site
from retime import (FIRST_EARLY, FIRST_MOVEMENT, FIRST_PHASE, FLAG, NO_TIMES, RULING, STATE_BYTES, TIMES, WAITING, fresh, heads,
                    put_together, retime, site_of, time_places, times_of, verdict_of, with_times)

LEAVING = (E, Y, R)
# The kind of the site section of the other edition.
OTHER_KIND = {1: 8, 8: 1}


# ── Other times and other sites ──

def time_fields(personality):
    """The place and the name of each time of a personality."""
    for at, place in time_places(personality)[::2]:
        name = ("start" if place < FIRST_PHASE else PHASE_FIELDS[(place - FIRST_PHASE) // 2 % 6] if place < FIRST_MOVEMENT
                else WALK_FIELDS[(place - FIRST_MOVEMENT) // 2 % 3] if place < FIRST_EARLY else "E")
        yield at, name


def put(data, at, value):
    return data[:at] + value.to_bytes(2, "little") + data[at + 2:]


def ranges_of(personality):
    """The lowest and highest times of the edition of a personality."""
    return EDITIONS[number(personality, 2, 2)]


def drawn(rng, personality, name, pace):
    low, high = ranges_of(personality)[name]
    if pace == "edges":
        return rng.choice((low, low + 1, high - 1, high))
    return rng.randint(low, min(high, low + 12) if pace == "short" else high)


def outside(rng, personality, name):
    """A time outside its limits, which may be within those of the other edition, or 0."""
    low, high = ranges_of(personality)[name]
    lowest = min(ranges[name][0] for ranges in EDITIONS.values())
    below = (0, lowest - 1, low - 1, rng.randint(min(lowest, low - 1), low - 1)) if low else (0,)
    return rng.choice((*below, high + 1, 65_535))


def retimed(rng, personality, pace=None):
    """The personality with other times: all of them, a few, the late starts, or none."""
    data, fields = personality, list(time_fields(personality))
    pace = pace or rng.choice(("short", "short", "edges", "any"))
    some = rng.choice(("all", "all", "all", "few", "few", "late", "late", "none"))
    for at, name in {"all": fields, "few": rng.sample(fields, min(len(fields), rng.randint(1, 3))), "late": fields, "none": ()}[some]:
        if some != "late":
            data = put(data, at, drawn(rng, personality, name, pace))
        if name == "L" and some in ("all", "late") and rng.random() < (0.5 if some == "all" else 1):
            data = put(data, at, 20 if number(personality, at, 2) == 0 else 0)
    return data


def elsewhere(rng, personality):
    """An accepted personality that differs in more than times."""
    while True:
        first = retimed(rng, personality) if rng.random() < 0.5 else personality
        way = rng.choice((one_byte, one_byte, one_byte, one_detector, one_section, two_phases, other_edition, other_site))
        data = way(rng, first)
        if verdict_of(data) == (0, 0) and retime_number(personality, data) == 26:
            return data


def other_site(rng, _):
    return random_site(rng, kind=rng.choice((1, 8)))


def other_edition(_, first):
    """The other edition, no time below its limits."""
    data = put(first, 2, OTHER_KIND[number(first, 2, 2)])
    for at, name in time_fields(first):
        data = put(data, at, max(number(first, at, 2), ranges_of(data)[name][0]))
    return data


def one_byte(rng, first):
    """One byte that is no time changed."""
    times = {at for at, _ in time_places(first)}
    at = rng.choice([at for at in range(len(first)) if at not in times])
    return first[:at] + bytes((first[at] ^ 1 << rng.randrange(8),)) + first[at + 1:]


def one_detector(rng, first):
    """A detector more, or the last one fewer."""
    head, end = list(heads(first))[4:6]
    records = first[head + 4:end]
    records = records + bytes((rng.randrange(first[4]), 6)) if rng.random() < 0.5 else records[:-2]
    return first[:head] + len(records).to_bytes(2, "little") + first[head + 2:head + 4] + records + first[end:]


def one_section(rng, first):
    """The last section left out, or one with the phases in their order added."""
    last = list(heads(first))[-1]
    return first[:last] if rng.random() < 0.5 else first + bytes((first[4], 0, 9, 0)) + bytes(range(first[4]))


def two_phases(rng, first):
    """Two bytes of the last section exchanged."""
    data, body = bytearray(first), list(heads(first))[-1] + 4
    if body < len(first):
        one, other = rng.randrange(body, len(first)), rng.randrange(body, len(first))
        data[one], data[other] = data[other], data[one]
    return bytes(data)


def retime_number(personality, new):
    return retime(personality, fresh(personality, bytes(STATE_BYTES))[2], new)[0]


def refused(rng, personality):
    """A personality that is refused."""
    while True:
        data = bytearray(retimed(rng, personality))
        way = rng.randrange(6)
        if way == 0:
            data = data[:rng.randrange(len(data))]
        elif way == 1:
            data += bytes((rng.randrange(256),))
        elif way == 2:
            at, name = rng.choice(list(time_fields(personality)))
            data = bytearray(put(bytes(data), at, outside(rng, personality, name)))
        elif way == 3:
            # The other edition, which may not allow the times.
            data[2] = OTHER_KIND[data[2]]
        else:
            data[rng.randrange(len(data))] = rng.randrange(256)
        if verdict_of(bytes(data)) != (0, 0):
            return bytes(data)


def second(rng, personality):
    """A second personality of any kind, most often one with other times."""
    return rng.choice((elsewhere, refused) + (retimed,) * 6)(rng, personality)


# ── States and inputs ──

def random_state(rng, site, intervals=(S, L, M, G, E, Y, R)):
    """A valid state in one of the intervals, reachable or not."""
    state, phases = Controller(site), range(len(site.phases))
    state.phase, state.interval = rng.choice(phases), rng.choice(intervals)
    if state.interval == E and not site.has_early:
        state.interval = Y
    times = site.phases[state.phase]
    setting = {S: site.start, E: site.early[state.phase], G: 1}.get(state.interval, times.get("SLMGEYR"[state.interval], 1))
    state.age = random_age(rng, setting)
    state.came = rng.choice((None, *phases))
    state.target = rng.choice([p for p in phases if p != state.phase]) if state.interval in LEAVING else None
    state.gap, state.maximum = (rng.choice((0, top, rng.randint(0, top))) for top in (times["G"], times["X"]))
    state.locks = {p for p in phases if rng.random() < 0.4}
    state.presses = {k for k in range(len(site.walks)) if rng.random() < 0.4}
    for k, walk in enumerate(site.walks):
        stages = ((IDLE,) if site.phase_of[k] != state.phase or state.interval == S
                  else (IDLE, SECOND) if state.interval in LEAVING else (IDLE, WALK, FIRST, SECOND))
        stage = rng.choice(stages)
        state.stages[k] = (stage, 1 if stage == IDLE else random_age(rng, walk[("", "W", "C1", "C2")[stage]]))
    state.kept = state.standing()
    assert state.valid()
    return state


def random_age(rng, setting):
    return min(max(rng.choice((1, OLDEST, setting - 1, setting, setting, setting, setting + 1, rng.randint(1, OLDEST))), 1), OLDEST)


def random_data(rng, personality):
    """The bytes of a valid state by any times, with any waiting."""
    ruling = times_of(rng.choice((personality, retimed(rng, personality), retimed(rng, personality))))
    waiting = rng.choice((None, ruling, times_of(personality), times_of(retimed(rng, personality)), times_of(retimed(rng, personality))))
    return put_together(random_state(rng, site_of(with_times(personality, ruling))), ruling, waiting)


def damaged(rng, personality, data):
    """The bytes of a state with one thing wrong in its times, or one byte changed anywhere."""
    data, way = bytearray(data), rng.randrange(6)
    base = rng.choice((RULING, WAITING))
    held = {place for _, place in time_places(personality)}
    if way == 0:
        data[rng.randrange(RULING)] = rng.choice((0, 1, 2, 7, 255, rng.randrange(256)))
    elif way == 1:
        data[FLAG] = rng.choice((0, 1, 2, 255))
    elif way == 2:
        at = rng.choice([place for place in range(TIMES) if place not in held] or [0])
        data[base + at] = rng.choice((1, 10, 255))
    elif way == 3:
        at, name = rng.choice(list(time_fields(personality)))
        place = base + dict(time_places(personality))[at]
        data[place:place + 2] = outside(rng, personality, name).to_bytes(2, "little")
    elif way == 4:
        data[WAITING:] = NO_TIMES
    else:
        data[rng.randrange(STATE_BYTES)] = rng.choice((0, 1, 9, 10, 14, 15, 29, 30, 100, rng.randrange(256)))
    return bytes(data)


class Traffic:
    """Inputs that last a while; a few have a bit too many."""

    def __init__(self, rng, site):
        self.rng, self.site, self.left, self.inputs = rng, site, 0, 0

    def next(self):
        if self.left == 0:
            self.left = self.rng.randint(1, 40)
            half, other, one = self.rng.getrandbits(64), self.rng.getrandbits(64), 1 << self.rng.randrange(56)
            self.inputs = self.site.wired & self.rng.choice((0, -1, half, half & other, one))
        self.left -= 1
        return self.inputs | (1 << self.rng.randrange(64) if self.rng.random() < 0.01 else 0)
