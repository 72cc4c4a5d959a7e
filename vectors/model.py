"""Document 01's reader, with the sections that document 02 adds, written from the papers in Python and independent of the proved
code: it only makes vectors."""

RANGES = {
    "start": (10, 150),
    "L": (0, 200), "M": (10, 400), "X": (10, 1500), "G": (0, 100), "Y": (30, 100), "R": (10, 150),
    "W": (10, 400), "C1": (1, 400), "C2": (1, 400),
    "E": (0, 200),
}
# The ranges of edition one, and of edition two, by the kind of the site section.
EDITIONS = {1: RANGES, 8: {**RANGES, "start": (30, 150), "R": (15, 150)}}
PHASE_FIELDS = ("L", "M", "X", "G", "Y", "R")
WALK_FIELDS = ("W", "C1", "C2")
VEHICLE, LATE_START, PEDESTRIAN, EARLY_CUT_OFF = range(4)


class Refusal(Exception):
    def __init__(self, number, place):
        super().__init__(number, place)
        self.number, self.place = number, place


def number(data, at, size):
    return int.from_bytes(data[at:at + size], "little")


class Reader:
    """Goes through the bytes from top to bottom and raises the first refusal."""

    def __init__(self, data):
        self.data, self.at = data, 0

    def head(self, kind, length_fits):
        """Checks a section head and that the body is there; answers the head's place and the body's length."""
        head = self.at
        if len(self.data) - head < 4:
            raise Refusal(1, head)
        length, found = number(self.data, head, 2), number(self.data, head + 2, 2)
        if found != kind:
            raise Refusal(2, head)
        if not length_fits(length):
            raise Refusal(3, head)
        if len(self.data) - head - 4 < length:
            raise Refusal(1, head)
        self.at = head + 4 + length
        return head, length

    def begins(self, kind):
        """Whether what is left begins with a whole head of a kind that need not be there."""
        return len(self.data) - self.at >= 4 and number(self.data, self.at + 2, 2) == kind

    def time(self, at, name):
        value = number(self.data, at, 2)
        low, high = self.ranges[name]
        if not low <= value <= high:
            raise Refusal(5, at)

    def site(self):
        kind = 8 if self.begins(8) else 1
        self.ranges = EDITIONS[kind]
        head, _ = self.head(kind, lambda n: n == 4)
        self.phases, self.groups = self.data[head + 4], self.data[head + 5]
        if not 2 <= self.phases <= 7:
            raise Refusal(4, head + 4)
        if not 1 <= self.groups <= 32:
            raise Refusal(4, head + 5)
        self.time(head + 6, "start")

    def phase_records(self):
        head, _ = self.head(2, lambda n: n == 12 * self.phases)
        for p in range(self.phases):
            for i, name in enumerate(PHASE_FIELDS):
                self.time(head + 4 + 12 * p + 2 * i, name)

    def group_records(self):
        head, _ = self.head(3, lambda n: n == 2 * self.groups)
        self.sets, self.early, self.called, pedestrians = [], [], 0, 0
        for g in range(self.groups):
            at = head + 4 + 2 * g
            members, mark = self.data[at], self.data[at + 1]
            single = bin(members).count("1") == 1
            if members >> self.phases or mark > EARLY_CUT_OFF or (mark == PEDESTRIAN and not single):
                raise Refusal(6, at)
            if mark == PEDESTRIAN:
                pedestrians += 1
                if pedestrians == 9:
                    raise Refusal(7, at)
                self.called |= members
            if mark == EARLY_CUT_OFF:
                self.early.append(at)
            self.sets.append(members)
        self.pedestrians = pedestrians
        union = 0
        for members in self.sets:
            union |= members
        if union != (1 << self.phases) - 1:
            raise Refusal(8, head)

    def conflict_records(self):
        head, _ = self.head(4, lambda n: n == 4 * self.groups)
        rows = [number(self.data, head + 4 + 4 * g, 4) for g in range(self.groups)]
        for g, row in enumerate(rows):
            others = [j for j in range(32) if row >> j & 1]
            if any(j == g or j >= self.groups or not rows[j] >> g & 1 for j in others):
                raise Refusal(9, head + 4 + 4 * g)
        for g, row in enumerate(rows):
            if any(row >> j & 1 and self.sets[g] & self.sets[j] for j in range(self.groups)):
                raise Refusal(10, head + 4 + 4 * g)

    def detector_records(self):
        head, length = self.head(5, lambda n: n % 2 == 0 and n <= 96)
        self.detectors_head = head
        for at in range(head + 4, head + 4 + length, 2):
            if self.data[at] >= self.phases or self.data[at + 1] not in (0, 1, 2, 4, 5, 6):
                raise Refusal(11, at)
            if self.data[at + 1] in (1, 2, 5, 6):
                self.called |= 1 << self.data[at]

    def pedestrian_records(self):
        head, _ = self.head(6, lambda n: n == 6 * self.pedestrians)
        for k in range(self.pedestrians):
            for i, name in enumerate(WALK_FIELDS):
                self.time(head + 4 + 6 * k + 2 * i, name)

    def early_cut_offs(self):
        self.times = self.begins(7)
        if self.times:
            head, length = self.head(7, lambda n: n == 2 * self.phases)
            for at in range(head + 4, head + 4 + length, 2):
                self.time(at, "E")

    def order(self):
        if self.begins(9):
            head, length = self.head(9, lambda n: n == self.phases)
            if sorted(self.data[head + 4:head + 4 + length]) != list(range(self.phases)):
                raise Refusal(18, head)

    def whole(self):
        """What is checked after all sections."""
        if self.called != (1 << self.phases) - 1:
            raise Refusal(21, self.detectors_head)
        if self.early and not self.times:
            raise Refusal(17, self.early[0])

    def leftover(self):
        if self.at < len(self.data):
            raise Refusal(12, self.at)


def verdict(data):
    """Number and place; 0 at 0 where the bytes are accepted."""
    reader = Reader(data)
    try:
        for part in (reader.site, reader.phase_records, reader.group_records, reader.conflict_records,
                     reader.detector_records, reader.pedestrian_records, reader.early_cut_offs, reader.order, reader.whole,
                     reader.leftover):
            part()
    except Refusal as refusal:
        return refusal.number, refusal.place
    return 0, 0


# ── Building personalities ──

def section(kind, body):
    return len(body).to_bytes(2, "little") + kind.to_bytes(2, "little") + body


def twos(values):
    return b"".join(v.to_bytes(2, "little") for v in values)


def build(start, phases, groups, conflicts, detectors, walks, early=None, order=None, kind=1):
    """phases: rows of six times; groups, detectors: pairs; conflicts: a set of pairs of groups; walks: rows of three times; early: a
    time for each phase; order: the phases as they run; of these two, none where there is no such section; kind: that of the site
    section, 8 for edition two."""
    rows = [0] * len(groups)
    for g, j in conflicts:
        rows[g] |= 1 << j
        rows[j] |= 1 << g
    return (section(kind, bytes([len(phases), len(groups)]) + twos([start]))
            + section(2, b"".join(twos(row) for row in phases))
            + section(3, bytes(v for pair in groups for v in pair))
            + section(4, b"".join(row.to_bytes(4, "little") for row in rows))
            + section(5, bytes(v for pair in detectors for v in pair))
            + section(6, b"".join(twos(row) for row in walks))
            + (b"" if early is None else section(7, twos(early)))
            + (b"" if order is None else section(9, bytes(order))))


def junction():
    """The junction of two phases of document 01."""
    row = (0, 20, 30, 5, 30, 10)
    return build(10, [row, row], [(1, 0), (2, 0)], {(0, 1)}, [(0, 6), (1, 6)], [])


def junction_two(start=30, reds=(15, 15), kind=8):
    """The junction of two phases with the lowest start red and all-reds of edition two."""
    return build(start, [(0, 20, 30, 5, 30, red) for red in reds], [(1, 0), (2, 0)], {(0, 1)}, [(0, 6), (1, 6)], [], kind=kind)


def turning_arrow(early=(20, 0)):
    """The junction of two phases with a turning arrow of A, group 1, that stops early."""
    row = (0, 20, 30, 5, 30, 10)
    groups = [(1, VEHICLE), (1, EARLY_CUT_OFF), (2, VEHICLE)]
    return build(10, [row, row], groups, {(0, 2), (1, 2)}, [(0, 6), (1, 6)], [], early)


def three_phases(order=(0, 2, 1), early=None):
    """Three phases in conflict, each as in the junction of two phases, in an order of their own."""
    groups = [(1, VEHICLE), (2, VEHICLE), (4, VEHICLE)]
    return build(10, [(0, 20, 30, 5, 30, 10)] * 3, groups, conflicts_of(groups), [(0, 6), (1, 6), (2, 6)], [], early, order)


def conflicts_of(groups):
    """Every pair of groups that shares no phase."""
    return {(g, j) for g in range(len(groups)) for j in range(g) if not groups[g][0] & groups[j][0]}


def largest():
    """7 phases, 32 groups, 48 detectors, 8 movements, early cut-offs, an order, every setting the highest."""
    groups = [(1 << g % 7, PEDESTRIAN if g < 8 else (VEHICLE, LATE_START, EARLY_CUT_OFF)[g % 3]) for g in range(32)]
    return build(150, [(200, 400, 1500, 100, 100, 150)] * 7, groups, conflicts_of(groups),
                 [(d % 7, (0, 1, 2, 4, 5, 6)[d % 6]) for d in range(48)], [(400, 400, 400)] * 8, [200] * 7,
                 (6, 4, 2, 0, 5, 3, 1))


def called(groups, detectors):
    """The phases that have a calling detector or a pedestrian group."""
    phases = 0
    for members, mark in groups:
        phases |= members if mark == PEDESTRIAN else 0
    for phase, mode in detectors:
        phases |= 1 << phase if mode in (1, 2, 5, 6) else 0
    return phases


def quick_ranges(kind):
    """The lowest values of an edition and a few above them."""
    return {name: (low, min(high, low + 6)) for name, (low, high) in EDITIONS[kind].items()}


def random_site(rng, most=32, ranges=None, kind=1):
    """An accepted personality of any size, with so many groups at most (3 or more), its settings drawn from the whole of each range of
    its edition, or from these ranges."""
    ranges = ranges or EDITIONS[kind]
    phases = rng.randint(2, 7)
    count = rng.randint(max(1, phases // 2), most)
    closing_early = rng.random() < 0.6
    marks = (VEHICLE, LATE_START, EARLY_CUT_OFF) if closing_early else (VEHICLE, LATE_START)
    groups, pedestrians = [], 0
    for g in range(count):
        if pedestrians < 8 and rng.random() < 0.25:
            groups.append((1 << rng.randrange(phases), PEDESTRIAN))
            pedestrians += 1
        else:
            groups.append((rng.randrange(1 << phases), rng.choice(marks)))
    missing = (1 << phases) - 1
    for members, _ in groups:
        missing &= ~members
    if missing:
        vehicle = next((g for g in range(count) if groups[g][1] != PEDESTRIAN), None)
        if vehicle is None:
            return random_site(rng, most, ranges, kind)
        groups[vehicle] = (groups[vehicle][0] | missing, groups[vehicle][1])
    conflicts = {pair for pair in conflicts_of(groups) if rng.random() < 0.6}
    detectors = [(rng.randrange(phases), rng.choice((0, 1, 2, 4, 5, 6))) for _ in range(rng.randint(0, 41))]
    detectors += [(p, rng.choice((1, 2, 5, 6))) for p in range(phases) if not called(groups, detectors) >> p & 1]
    draw = lambda name: rng.choice((*ranges[name], rng.randint(*ranges[name])))
    return build(draw("start"), [tuple(draw(n) for n in PHASE_FIELDS) for _ in range(phases)], groups, conflicts,
                 detectors,
                 [tuple(draw(n) for n in WALK_FIELDS) for _ in range(pedestrians)],
                 [draw("E") for _ in range(phases)] if closing_early else None,
                 rng.sample(range(phases), phases) if rng.random() < 0.5 else None, kind)
