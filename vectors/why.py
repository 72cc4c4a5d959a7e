"""Request thirteen's line for the technician's panel, written from the papers in Python and independent of the proved code: why a phase
holds its green. The calls are those of a site with a state that keeps its times; they write no state."""
from controller import FIRST, FIRST_BUTTON, G, WALK, members_of
from model import Refusal
from retime import taken_apart, verdict_of

# The modes of detectors that call without lock: alone, and with extension.
CALLING = (1, 5)


def calls(site, inputs):
    """The phases that are called without lock in the step of these inputs."""
    occupied = [site.detectors[place] for place in members_of(inputs) if place < FIRST_BUTTON]
    return {phase for phase, mode in occupied if mode in CALLING}


def reasons(controller, inputs):
    """Those that are true, in the paper's order, as they are told."""
    left = controller.site.phases[controller.phase]["X"] - controller.maximum
    walking = [k for k, (stage, _) in enumerate(controller.stages) if stage in (WALK, FIRST)]
    told = ["no other demand"] if (controller.kept | calls(controller.site, inputs)) <= {controller.phase} else []
    told += [f"{word} {count}" for word, count in (("gap", controller.gap), ("max", left)) if count > 0]
    return told + [f"walk {k + 1}" for k in walking]


def line(personality, data, inputs):
    """The line of a state buffer after a step with these inputs, without bytes outside running; or the refusal."""
    found, place = verdict_of(personality)
    if found:
        raise Refusal(found, place)
    parts = taken_apart(personality, data)
    if parts is None:
        raise Refusal(13, 0)
    controller = parts[0]
    if inputs & ~controller.site.wired:
        raise Refusal(15, 0)
    if controller.interval != G:
        return b""
    return ", ".join(["ABCDEFG"[controller.phase] + " holds"] + reasons(controller, inputs)).encode()


def why_length(personality, data, inputs):
    """Number, and the place or the length of the line."""
    try:
        return 0, len(line(personality, data, inputs))
    except Refusal as refusal:
        return refusal.number, refusal.place


def why(personality, data, inputs, room):
    """Number, the place or the length of the line, and the bytes that are written to the beginning of a buffer with this room."""
    found, rest = why_length(personality, data, inputs)
    if found:
        return found, rest, b""
    if room < rest:
        return 14, 0, b""
    return 0, rest, line(personality, data, inputs)
