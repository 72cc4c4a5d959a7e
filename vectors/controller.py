"""The controller of documents 01 and 02 at one accepted site, written from the papers in Python and independent of the proved code: valid
states, a step, the colours and the wait bound. It only makes vectors. The times are those of the site; `retime` has states that keep
theirs."""
from functools import cached_property

from model import EARLY_CUT_OFF, LATE_START, PEDESTRIAN, PHASE_FIELDS, WALK_FIELDS, number

S, L, M, G, E, Y, R = range(7)
IDLE, WALK, FIRST, SECOND = range(4)
RED, YELLOW, GREEN, FLASHING_RED = range(4)
PLAIN_BYTES, MOVEMENTS, FIRST_BUTTON, OLDEST = 39, 8, 48, 2_000
# The two bytes of a phase or none.
PHASE_OR_NONE = {(0, 0): None, **{(1, phase): phase for phase in range(256)}}


def twos_of(body):
    return [number(body, at, 2) for at in range(0, len(body), 2)]


def members_of(bits):
    return {place for place in range(bits.bit_length()) if bits >> place & 1}


class Site:
    """An accepted personality, taken apart."""

    def __init__(self, data):
        body, at = {}, 0
        while at < len(data):
            end = at + 4 + number(data, at, 2)
            body[number(data, at + 2, 2)] = data[at + 4:end]
            at = end
        records = lambda kind, size, fields: [dict(zip(fields, twos_of(body[kind][at:at + size])))
                                              for at in range(0, len(body[kind]), size)]
        self.start = number(body[8] if 8 in body else body[1], 2, 2)
        self.phases = records(2, 12, PHASE_FIELDS)
        self.groups = list(zip(body[3][::2], body[3][1::2]))
        self.detectors = list(zip(body[5][::2], body[5][1::2]))
        self.walks = records(6, 6, WALK_FIELDS)
        self.has_early = 7 in body
        self.early = twos_of(body[7]) if self.has_early else [0] * len(self.phases)
        self.order = list(body.get(9, range(len(self.phases))))
        self.crossings = [g for g, (_, mark) in enumerate(self.groups) if mark == PEDESTRIAN]
        self.phase_of = [members_of(self.groups[g][0]).pop() for g in self.crossings]

    def after(self, phase):
        """The other phases in running order, the next one first."""
        place = self.order.index(phase)
        return self.order[place + 1:] + self.order[:place]

    @cached_property
    def wired(self):
        """The input bits that have a detector or a button."""
        return (1 << len(self.detectors)) - 1 | (1 << len(self.walks)) - 1 << FIRST_BUTTON

    @cached_property
    def wait(self):
        """The wait bound."""
        total = self.start
        for p, times in enumerate(self.phases):
            own = [walk for walk, phase in zip(self.walks, self.phase_of) if phase == p]
            walks = max((walk["W"] + walk["C1"] for walk in own), default=0)
            clearing = max((walk["C2"] for walk in own), default=0)
            change = walks + self.early[p] + times["Y"] + times["R"] + clearing
            total += times["L"] + times["M"] + times["X"] + 2 * change
        return total


class Controller:
    """The state of a site, the fresh one at first."""

    def __init__(self, site):
        self.site, self.phase, self.interval, self.age = site, 0, S, 1
        self.came = self.target = None
        self.gap = self.maximum = 0
        self.locks, self.presses, self.kept = set(), set(), set()
        self.stages = [(IDLE, 1)] * MOVEMENTS

    # ── Bytes ──

    @classmethod
    def of(cls, site, data):
        """The state in its 39 bytes, without its times; none if they are no state."""
        came, target = (data[4], data[5]), (data[6], data[7])
        stages = [(data[at], number(data, at + 1, 2)) for at in range(14, 38, 3)]
        if data[1] > R or any(stage > SECOND for stage, _ in stages) or not {came, target} <= PHASE_OR_NONE.keys():
            return None
        state = cls(site)
        state.phase, state.interval, state.age = data[0], data[1], number(data, 2, 2)
        state.came, state.target = PHASE_OR_NONE[came], PHASE_OR_NONE[target]
        state.gap, state.maximum = number(data, 8, 2), number(data, 10, 2)
        state.locks, state.presses, state.kept = members_of(data[12]), members_of(data[13]), members_of(data[38])
        state.stages = stages
        return state

    def plain(self):
        """The 39 bytes of the state, without its times."""
        two = lambda value: value.to_bytes(2, "little")
        maybe = lambda phase: bytes((0, 0) if phase is None else (1, phase))
        bits = lambda members: bytes((sum(1 << member for member in members),))
        return (bytes((self.phase, self.interval)) + two(self.age) + maybe(self.came) + maybe(self.target) + two(self.gap)
                + two(self.maximum) + bits(self.locks) + bits(self.presses)
                + b"".join(bytes((stage,)) + two(age) for stage, age in self.stages) + bits(self.kept))

    # ── Valid states ──

    def standing(self):
        """The phases demanded by lock or movement."""
        return self.locks | {self.site.phase_of[k] for k in self.presses}

    def movement_valid(self, k):
        stage, age = self.stages[k]
        if stage == IDLE:
            return age == 1
        if k >= len(self.site.walks) or self.site.phase_of[k] != self.phase or not 1 <= age <= OLDEST:
            return False
        return self.interval in (L, M, G) or self.interval in (E, Y, R) and stage == SECOND

    def valid(self):
        site = self.site
        there = lambda phase: phase < len(site.phases)
        if not there(self.phase) or any(k >= len(site.walks) for k in self.presses):
            return False
        clearing = self.interval in (E, Y, R)
        return (clearing == (self.target is not None)
                and (self.target is None or there(self.target) and self.target != self.phase)
                and (self.interval != E or site.has_early)
                and (self.came is None or there(self.came))
                and 1 <= self.age <= OLDEST
                and self.gap <= site.phases[self.phase]["G"] and self.maximum <= site.phases[self.phase]["X"]
                and all(there(phase) for phase in self.locks)
                and all(self.movement_valid(k) for k in range(MOVEMENTS))
                and self.kept == self.standing())

    # ── One step ──

    def enter(self, interval):
        self.interval, self.age = interval, 1
        if interval == M:
            self.locks.discard(self.phase)
            self.gap = self.site.phases[self.phase]["G"]
        if interval == G:
            self.maximum = 0

    def start(self, waiting):
        """The phase starts. If times wait, the site by them rules from here on."""
        if waiting is not None:
            self.site, self.gap, self.maximum = waiting, 0, 0
        self.enter(L if self.site.phases[self.phase]["L"] else M)

    def any_in(self, *stages):
        return any(stage in stages for stage, _ in self.stages)

    def movement(self, k, gives_way):
        """Stage and age after part 2."""
        stage, age = self.stages[k]
        if stage == IDLE:
            return stage, age
        over = age >= self.site.walks[k][{WALK: "W", FIRST: "C1", SECOND: "C2"}[stage]]
        if over and (stage != WALK or gives_way):
            return (stage + 1) % 4, 1
        return stage, min(age + 1, OLDEST)

    def step(self, inputs, waiting=None):
        """A step from a valid state, each input bit of which has a detector or a button; if other times wait, with the site by them. Answers
        whether a phase starts."""
        site, times, green = self.site, self.site.phases[self.phase], self.interval in (M, G)
        seen = [site.detectors[d] for d in members_of(inputs) if d < FIRST_BUTTON]
        # Demands.
        calling = [(p, mode & 3) for p, mode in seen if not (green and p == self.phase)]
        self.locks |= {p for p, call in calling if call == 2}
        self.presses |= {k for k in members_of(inputs >> FIRST_BUTTON) if self.stages[k][0] != WALK}
        demanded = self.standing() | {p for p, call in calling if call == 1}
        others = [p for p in site.after(self.phase) if p in demanded]
        # Movements.
        gives_way = self.interval == G and others and (self.gap == 0 or self.maximum == times["X"])
        self.stages = [self.movement(k, gives_way) for k in range(MOVEMENTS)]
        # Counts.
        if green:
            extended = any(p == self.phase and mode & 4 for p, mode in seen)
            self.gap = times["G"] if extended else max(self.gap - 1, 0)
        if self.interval == G and (others or self.maximum):
            self.maximum = min(self.maximum + 1, times["X"])
        # Interval.
        early, starts = site.early[self.phase], self.interval in (S, R)
        if self.interval == G:
            over = others and not self.any_in(WALK, FIRST) and (self.gap == 0 or self.maximum == times["X"])
        else:
            over = self.age >= {S: site.start, L: times["L"], M: times["M"], E: early, Y: times["Y"], R: times["R"]}[self.interval]
            over = over and not (self.interval == R and self.any_in(SECOND))
        if not over:
            self.age, starts = min(self.age + 1, OLDEST), False
        elif self.interval == S:
            self.start(waiting)
        elif self.interval == G:
            self.target = others[0]
            self.enter(E if early else Y)
        elif self.interval == R:
            self.came, self.phase, self.target, self.gap, self.maximum = self.phase, self.target, None, 0, 0
            self.start(waiting)
        else:
            self.enter({L: M, M: G, E: Y, Y: R}[self.interval])
        # Walks.
        if starts or self.interval == G and not others:
            for k in [k for k in self.presses if site.phase_of[k] == self.phase]:
                if starts or self.stages[k][0] == IDLE:
                    self.stages[k] = (WALK, 1)
                    self.presses.discard(k)
        self.kept = self.standing()
        return starts

    # ── Colours ──

    def colour(self, group):
        members, mark = self.site.groups[group]
        if mark == PEDESTRIAN:
            stage, _ = self.stages[self.site.crossings.index(group)]
            return {IDLE: RED, WALK: GREEN, FIRST: FLASHING_RED, SECOND: FLASHING_RED}[stage]
        has = lambda phase: phase is not None and members >> phase & 1
        if not has(self.phase) or self.interval == S:
            return RED
        if self.interval == L:
            return RED if mark == LATE_START and not has(self.came) else GREEN
        if self.interval in (M, G) or has(self.target):
            return GREEN
        if mark == EARLY_CUT_OFF and self.interval in (E, Y):
            closed = self.age + (self.site.early[self.phase] if self.interval == Y else 0)
            return YELLOW if closed <= self.site.phases[self.phase]["Y"] else RED
        return {E: GREEN, Y: YELLOW, R: RED}[self.interval]

    def colours(self):
        return bytes(self.colour(group) for group in range(len(self.site.groups)))
