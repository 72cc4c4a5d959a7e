"""Vehicles and walkers from the streams of a site text, the same for every control, and SUMO's own actuated program."""

import random
import xml.etree.ElementTree as xml

from network import GREEN, JUNCTION, YELLOW

TURNING = 0.2  # the part of a group's vehicles that turns, if the group also goes straight on
WALK = 30  # metres that a walker walks before and behind a crossing


def arrivals(seed, what, rate, seconds):
    """Times of arrival, with exponential gaps; `what` is a name, so that streams do not depend on each other."""
    chance, time = random.Random(f"{seed} {what}"), 0.0
    while rate > 0:
        time += chance.expovariate(rate / 3600)
        if time >= seconds:
            return
        yield time, chance


def rates(site):
    """Vehicles an hour of each group: the sum of its streams."""
    sums = {}
    for stream in site["streams"]:
        sums[stream["group"]] = sums.get(stream["group"], 0) + stream["rate"]
    return sums


def ways(network, group):
    """The exits of a group with their parts of its vehicles."""
    exits = {path[4]: path[3] for path in network.paths if path[0] == group}
    turns = [arrow for arrow in exits if arrow != "straight"]
    turning = (TURNING if "straight" in exits else 1.0) / max(1, len(turns))
    straight = 1.0 - turning * len(turns)
    return [(leads, straight if arrow == "straight" else turning) for arrow, leads in exits.items()]


def write(network, seed, seconds, walkers, file):
    """Writes the demand; how many vehicles and walkers it has."""
    moving = []
    for group, rate in rates(network.site).items():
        name = network.site["groups"][group]["name"]
        arm = network.site["groups"][group]["approach"]
        exits = ways(network, group)
        for number, (time, chance) in enumerate(arrivals(seed, name, rate, seconds)):
            leads = chance.choices([one for one, _ in exits], [part for _, part in exits])[0]
            vehicle = xml.Element("vehicle", id=f"{name}.{number}", depart=f"{time:.1f}", departLane="best", departSpeed="max")
            xml.SubElement(vehicle, "route", edges=f"{arm}_in {leads}_out")
            moving.append((time, vehicle))
    vehicles = len(moving)
    for group, crossing in network.crossings.items():
        name, arm = crossing["name"], crossing["approach"]
        for number, (time, chance) in enumerate(arrivals(seed, name, walkers, seconds)):
            ends = chance.choice([("in", "out"), ("out", "in")])
            at = {"in": f"-{WALK}", "out": f"{WALK}"}
            person = xml.Element("person", id=f"{name}.{number}", depart=f"{time:.1f}", departPos=at[ends[0]])
            xml.SubElement(person, "walk", {"from": f"{arm}_{ends[0]}", "to": f"{arm}_{ends[1]}", "arrivalPos": at[ends[1]]})
            moving.append((time, person))
    routes = xml.Element("routes")
    routes.extend(one for _, one in sorted(moving, key=lambda one: one[0]))
    xml.ElementTree(routes).write(file)
    return vehicles, len(moving) - vehicles


def colours(site, phase, then, leaving):
    """The colours of all groups in a phase with walks (`leaving` 0), without them (1), in yellow (2) and in all-red (3)."""
    def colour(group):
        if phase not in group["phases"]:
            return 0
        if group["mark"] == "pedestrian":
            return GREEN if leaving == 0 else 0
        if then in group["phases"] or leaving < 2:
            return GREEN
        return YELLOW if leaving == 2 else 0
    return [colour(group) for group in site["groups"]]


def actuated(network, file):
    """Writes SUMO's actuated program for the site's phases, and the lane areas of the site's detectors.

    It has the site's greens from M to M + X, yellows and all-reds. Its detectors and gaps are SUMO's own. It has no buttons, so each
    phase with a crossing begins with its walk."""
    site, root = network.site, xml.Element("additional")
    logic = xml.SubElement(root, "tlLogic", id=JUNCTION, type="actuated", programID="actuated", offset="0")
    order = [site["phases"][at] for at in site["order"]]
    for phase, then in zip(order, order[1:] + order[:1]):
        _, least, most, _, yellow, red = (steps / 10 for steps in phase["times"])
        walks = [movement["times"] for movement in site["movements"] if phase["letter"] in site["groups"][movement["group"]]["phases"]]
        walk = max([times[0] for times in walks], default=0) / 10
        clear = max([times[1] for times in walks], default=0) / 10
        rest = max(1.0, least - walk, clear)
        parts = [(0, walk, walk)] if walks else []
        parts += [(1, rest, max(rest, least + most - walk)), (2, yellow, yellow), (3, red, red)]
        for leaving, low, high in parts:
            state = network.state(colours(site, phase["letter"], then["letter"], leaving))
            xml.SubElement(logic, "phase", duration=f"{low:.1f}", minDur=f"{low:.1f}", maxDur=f"{high:.1f}", state=state)
    for name, _, lane, metres, length in network.loops():
        xml.SubElement(root, "laneAreaDetector", id=name, lane=lane, pos=f"{-metres - length if metres else -length}", length=f"{length}",
                       friendlyPos="true", period="100000", file="NUL")
    xml.ElementTree(root).write(file)
