"""The calls at one site, over states that keep their times (request twelve), written from the papers in Python and independent of the
proved code: the fresh state, a step and a retiming. A set of times is always looked at as the personality with these times in place of its
own, so that every rule about times is the rule about a personality."""
from functools import lru_cache

from controller import MOVEMENTS, PLAIN_BYTES, Controller, Site
from model import number, verdict

# In a set of times: start red, six of each phase, three of each movement, one early cut-off of each phase. Two bytes each.
FIRST_PHASE = 2
FIRST_MOVEMENT = FIRST_PHASE + 12 * 7
FIRST_EARLY = FIRST_MOVEMENT + 6 * MOVEMENTS
TIMES = FIRST_EARLY + 2 * 7
NO_TIMES = bytes(TIMES)
# In a state: the plain state, the times that rule, a flag (1 if times wait, else 0), and the times that wait or zeros.
RULING = PLAIN_BYTES
FLAG = RULING + TIMES
WAITING = FLAG + 1
STATE_BYTES = WAITING + TIMES

cached = lru_cache(maxsize=4096)


# ── Times ──

def heads(personality):
    """The places of the section heads of accepted bytes."""
    at = 0
    while at < len(personality):
        yield at
        at += 4 + number(personality, at, 2)


@cached
def time_places(personality):
    """Of an accepted personality: for each byte of a time setting its place, and its place in a set of times."""
    places = []
    for head in heads(personality):
        length, kind, body = number(personality, head, 2), number(personality, head + 2, 2), head + 4
        if kind in (1, 8):
            places += [(body + 2, 0), (body + 3, 1)]
        first = {2: FIRST_PHASE, 6: FIRST_MOVEMENT, 7: FIRST_EARLY}.get(kind)
        if first is not None:
            places += [(body + i, first + i) for i in range(length)]
    return places


@cached
def times_of(personality):
    times = bytearray(TIMES)
    for at, place in time_places(personality):
        times[place] = personality[at]
    return bytes(times)


@cached
def with_times(personality, times):
    """The personality with these times in place of its own."""
    changed = bytearray(personality)
    for at, place in time_places(personality):
        changed[at] = times[place]
    return bytes(changed)


@cached
def verdict_of(personality):
    return verdict(personality)


@cached
def site_of(personality):
    return Site(personality)


@cached
def times_fit(personality, times):
    """Whether the personality would be accepted with these times, and they have nothing that the site does not have."""
    changed = with_times(personality, times)
    return verdict_of(changed) == (0, 0) and times_of(changed) == times


# ── States ──

def taken_apart(personality, data):
    """Of a valid state of an accepted personality: the controller by the times that rule, these, and those that wait (or none). None if the
    bytes are not such a state."""
    if len(data) != STATE_BYTES:
        return None
    plain, ruling, flag, waiting = data[:RULING], data[RULING:FLAG], data[FLAG], data[WAITING:]
    if flag > 1 or (flag == 0 and waiting != NO_TIMES):
        return None
    if not times_fit(personality, ruling) or (flag and not times_fit(personality, waiting)):
        return None
    controller = Controller.of(site_of(with_times(personality, ruling)), plain)
    if controller is None or not controller.valid():
        return None
    return controller, ruling, waiting if flag else None


def put_together(controller, ruling, waiting=None):
    return controller.plain() + ruling + (b"\0" + NO_TIMES if waiting is None else b"\1" + waiting)


# ── Calls ──

def fresh(personality, data):
    """Number, place, and the state buffer as the call leaves it."""
    found, place = verdict_of(personality)
    if found:
        return found, place, data
    if len(data) != STATE_BYTES:
        return 13, 0, data
    return 0, 0, put_together(Controller(site_of(personality)), times_of(personality))


def step(personality, data, inputs, colours_length):
    """Number, place or wait, the state buffer as the call leaves it, and the colours that it writes."""
    found, place = verdict_of(personality)
    if found:
        return found, place, data, b""
    parts = taken_apart(personality, data)
    if parts is None:
        return 13, 0, data, b""
    controller, ruling, waiting = parts
    if inputs & ~controller.site.wired:
        return 15, 0, data, b""
    if colours_length < len(controller.site.groups):
        return 14, 0, data, b""
    starts = controller.step(inputs, None if waiting is None else site_of(with_times(personality, waiting)))
    if starts and waiting is not None:
        ruling, waiting = waiting, None
    return 0, controller.site.wait, put_together(controller, ruling, waiting), controller.colours()


def retime(personality, data, new):
    """Number, place, and the state buffer as the call leaves it."""
    found, place = verdict_of(personality)
    if found:
        return found, place, data
    parts = taken_apart(personality, data)
    if parts is None:
        return 13, 0, data
    found, place = verdict_of(new)
    if found:
        return found, place, data
    # The same in all but its times: with the times of the new one the first is the new one.
    if len(new) != len(personality) or with_times(personality, times_of(new)) != new:
        return 26, 0, data
    controller, ruling, _ = parts
    return 0, 0, put_together(controller, ruling, times_of(new))
