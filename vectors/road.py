"""Request eight's simulated road, written from the papers in Python and independent of the proved code."""
from controller import GREEN, Controller
from model import PEDESTRIAN, number
from retime import STATE_BYTES, put_together, site_of, times_of, verdict_of


class Stream:
    """A queue, its arrivals and its releases."""

    def __init__(self, detector, group, rate):
        self.detector, self.group, self.rate = detector, group, rate
        self.remainder = self.queued = self.gone = self.count = 0

    def arrive(self):
        self.remainder += self.rate
        if self.remainder >= 36_000:
            self.remainder -= 36_000
            self.queued += 1

    def release(self, colour):
        self.count = self.count + 1 if colour == GREEN and self.queued else 0
        if self.count == 20:
            self.count, self.queued, self.gone = 0, self.queued - 1, self.gone + 1


def refused(site, streams, steps):
    """Whether a road is refused with 22."""
    records = [streams[at:at + 4] for at in range(0, len(streams), 4)]
    fits = lambda d, g, low, high: (d < len(site.detectors) and g < len(site.groups) and site.groups[g][1] != PEDESTRIAN
                                    and low + 256 * high <= 1_800)
    return len(records) > 48 or steps > 180_000 or any(len(record) < 4 or not fits(*record) for record in records)


def road(personality, streams, steps, state_length, results_length):
    """Number, place, and of an accepted road the last state and the results."""
    found, place = verdict_of(personality)
    if found:
        return found, place, b"", b""
    site = site_of(personality)
    if refused(site, streams, steps):
        return 22, 0, b"", b""
    if state_length != STATE_BYTES:
        return 13, 0, b"", b""
    if results_length < len(streams):
        return 14, 0, b"", b""
    lanes = [Stream(streams[at], streams[at + 1], number(streams, at + 2, 2)) for at in range(0, len(streams), 4)]
    controller = Controller(site)
    for _ in range(steps):
        for lane in lanes:
            lane.arrive()
        controller.step(sum(1 << detector for detector in {lane.detector for lane in lanes if lane.queued}))
        for lane in lanes:
            lane.release(controller.colour(lane.group))
    assert all(lane.queued + lane.gone == lane.rate * steps // 36_000 for lane in lanes)
    results = b"".join(lane.queued.to_bytes(2, "little") + lane.gone.to_bytes(2, "little") for lane in lanes)
    return 0, 0, put_together(controller, times_of(personality)), results
