"""Request ten's cabinet of four sites, written from the papers in Python and independent of the proved code."""
from controller import RED
from model import Refusal, number
from retime import STATE_BYTES, fresh, retime, site_of, step, verdict_of

RECORDS, ROOM, OUTPUTS, DARK = 4, 477, 32, 4
RECORD_BYTES = 4 + ROOM + STATE_BYTES
ROW_BYTES = RECORDS * RECORD_BYTES


class Record:
    """A record of the row: 0 or another number for free or held, the first output, the length, the personality and the state."""

    def __init__(self, data):
        self.data, self.held, self.first = data, data[0] != 0, data[1]
        self.personality = data[4:4 + min(number(data, 2, 2), ROOM)]
        self.state = data[4 + ROOM:]

    def taken(self):
        """The outputs that no other site may have."""
        if not self.held or verdict_of(self.personality)[0]:
            return set()
        return set(range(self.first, self.first + len(site_of(self.personality).groups)))

    def with_state(self, state):
        return self.data[:4 + ROOM] + state


def read(personality):
    found, place = verdict_of(personality)
    if found:
        raise Refusal(found, place)
    return site_of(personality)


def outputs_of(site, first):
    if first + len(site.groups) > OUTPUTS:
        raise Refusal(25, 0)
    return range(first, first + len(site.groups))


class Cabinet:
    """A row of any number of records, and outputs of any length, both of any content. Each call answers a number, and the place or the
    wait."""

    def __init__(self, row=bytes(ROW_BYTES), outputs=bytes(OUTPUTS)):
        assert len(row) % RECORD_BYTES == 0
        self.row, self.outputs = row, outputs

    def place(self, index, personality, first):
        return self.answer(self.placed, index, personality, first)

    def step(self, index, inputs):
        return self.answer(self.stepped, index, inputs)

    def take_out(self, index):
        return self.answer(self.taken_out, index)

    def retime(self, index, new):
        """New times for the site of a record: the call of a site alone, on the personality and the state in the record. A record that the
        row does not have is no call; 24 stands for it."""
        return self.answer(self.retimed, index, new)

    @staticmethod
    def answer(call, *arguments):
        try:
            return 0, call(*arguments) or 0
        except Refusal as refusal:
            return refusal.number, refusal.place

    def records(self):
        """The records of the row. There are none if a call hands over another number of them than a cabinet has."""
        if len(self.row) // RECORD_BYTES != RECORDS:
            return []
        return [Record(self.row[at:at + RECORD_BYTES]) for at in range(0, ROW_BYTES, RECORD_BYTES)]

    def record(self, index, held=None):
        """A record; with `held`, one that is held, or one that is free."""
        found = self.records()[index:index + 1]
        if not found or held not in (None, found[0].held):
            raise Refusal(24, 0)
        return found[0]

    def placed(self, index, personality, first):
        site = read(personality)
        self.record(index, held=False)
        own = outputs_of(site, first)
        if any(record.taken() & set(own) for record in self.records()):
            raise Refusal(25, 0)
        self.show(own, bytes([RED] * len(own)))
        head = bytes((1, first)) + len(personality).to_bytes(2, "little")
        _, _, state = fresh(personality, bytes(STATE_BYTES))
        self.store(index, head + personality.ljust(ROOM, b"\0") + state)

    def stepped(self, index, inputs):
        record = self.record(index, held=True)
        own = outputs_of(read(record.personality), record.first)
        # The site alone, with a colour buffer for its outputs; a short one has none.
        room = len(own) if len(self.outputs) >= OUTPUTS else 0
        found, rest, state, colours = step(record.personality, record.state, inputs, room)
        if found:
            raise Refusal(found, rest)
        self.show(own, colours)
        self.store(index, record.with_state(state))
        return rest

    def taken_out(self, index):
        record = self.record(index, held=True)
        own = outputs_of(read(record.personality), record.first)
        self.show(own, bytes([DARK] * len(own)))
        self.store(index, bytes(RECORD_BYTES))

    def retimed(self, index, new):
        record = self.record(index)
        found, place, state = retime(record.personality, record.state, new)
        if found:
            raise Refusal(found, place)
        self.store(index, record.with_state(state))

    def show(self, own, colours):
        """The last check of each call, and its outputs."""
        if len(self.outputs) < OUTPUTS:
            raise Refusal(14, 0)
        self.outputs = self.outputs[:own.start] + colours + self.outputs[own.stop:]

    def store(self, index, data):
        at = index * RECORD_BYTES
        self.row = self.row[:at] + data + self.row[at + RECORD_BYTES:]
