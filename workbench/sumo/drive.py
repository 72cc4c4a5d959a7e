"""One run of SUMO under a control, watched step by step through TraCI."""

import contextlib
import io
import os
import subprocess
import sys
import xml.etree.ElementTree as xml

from library import FIRST_BUTTON
from network import JUNCTION

os.environ.setdefault("SUMO_HOME", "/usr/share/sumo")
sys.path.append(os.path.join(os.environ["SUMO_HOME"], "tools"))
import traci  # noqa: E402  (Debian's sumo-tools)
import traci.constants as names  # noqa: E402

SECOND = 10  # steps
PATIENCE = 1200  # seconds after the last arrival, until a run that does not end is given up


class Fault(Exception):
    """Something that must not be seen in a run."""


class Watch:
    """Judges what SUMO shows: conflicting greens, and how long the first one in a lane or at a crossing waits."""

    def __init__(self, site, bound):
        self.site = site
        self.bound = bound
        self.waiting = {}  # a detector or a crossing, and the step since which somebody waits there
        self.longest = {}

    def greens(self, state, links):
        """The groups that are green in SUMO's state. No two of them may conflict."""
        greens = {link.group for link, letter in zip(links, state) if letter in "gG"}
        for group in greens:
            for other in greens.intersection(self.site["groups"][group]["conflicts"]):
                pair = [self.site["groups"][one]["name"] for one in (group, other)]
                raise Fault(f"{pair[0]} and {pair[1]} conflict and are green together: {state}")
        return greens

    def wait(self, step, who, waits):
        """Somebody waits in red, or no longer does."""
        if not waits:
            self.waiting.pop(who, None)
            return
        waited = step - self.waiting.setdefault(who, step)
        self.longest[who] = max(waited, self.longest.get(who, 0))
        if self.bound is not None and waited > self.bound:
            raise Fault(f"{who} waits since step {self.waiting[who]}, longer than the bound of {self.bound} steps")


class Drive:
    """A run of SUMO. The control is the proved library's, or SUMO's own if it is None."""

    def __init__(self, network, files, control, seed):
        self.network = network
        self.site = network.site
        self.control = control
        self.watch = Watch(network.site, control and control.bound)
        self.queues = {arm: [] for arm in network.arms}
        self.loops = {name: detector for name, detector, *_ in network.loops()}
        self.locking = {at: self.groups_at(one) for at, one in enumerate(self.site["detectors"]) if one["call"] == "locking"}
        options = ["--step-length", "0.1", "--seed", str(seed), "--time-to-teleport", "-1", "--no-step-log", "--no-warnings", "--duration-log.disable"]
        inputs = ["-n", str(network.file), "-r", str(files["routes"]), "-a", str(files["extra"])]
        with contextlib.redirect_stdout(io.StringIO()):  # TraCI says how often it tries to connect
            traci.start(["sumo", *inputs, *options, "--tripinfo-output", str(files["trips"])], stdout=subprocess.DEVNULL)

    def groups_at(self, detector):
        """The groups that a lane at a detector obeys."""
        lanes = set(range(detector["lanes"][0], detector["lanes"][1] + 1))
        return {path[0] for path in self.network.paths if path[1] == detector["approach"] and path[2] in lanes}

    def run(self, seconds, patience=PATIENCE):
        """Runs until everybody has left: the number of steps."""
        try:
            self.subscribe()
            step, buttons, inputs = 0, 0, 0
            while step == 0 or traci.simulation.getSubscriptionResults()[names.VAR_MIN_EXPECTED_VEHICLES] > 0:
                if self.control:
                    traci.trafficlight.setRedYellowGreenState(JUNCTION, self.network.state(self.control.step(inputs)))
                traci.simulationStep()
                step += 1
                occupied = self.occupied()
                buttons = self.pressed() if step % 5 == 0 else buttons
                inputs = sum(1 << at for at in occupied) | buttons << FIRST_BUTTON
                self.judge(step, occupied, buttons)
                if step % SECOND == 0:
                    self.look()
                if step > (seconds + patience) * SECOND:
                    raise Fault(f"not everybody has left at step {step}: {traci.vehicle.getIDList() + traci.person.getIDList()}")
            return step
        finally:
            traci.close()

    def subscribe(self):
        for name in self.loops:
            traci.lanearea.subscribe(name, [names.LAST_STEP_VEHICLE_NUMBER])
        traci.trafficlight.subscribe(JUNCTION, [names.TL_RED_YELLOW_GREEN_STATE])
        traci.simulation.subscribe([names.VAR_MIN_EXPECTED_VEHICLES])

    def occupied(self):
        results = traci.lanearea.getAllSubscriptionResults()
        return {self.loops[name] for name, values in results.items() if values[names.LAST_STEP_VEHICLE_NUMBER] > 0}

    def pressed(self):
        """The buttons of the crossings in front of which somebody stands."""
        bits = 0
        for at, movement in enumerate(self.site["movements"]):
            for corner in self.network.corners[movement["group"]]:
                for walker in traci.edge.getLastStepPersonIDs(corner):
                    crossing = self.network.crossed.get(traci.person.getNextEdge(walker))
                    if crossing == movement["group"] and traci.person.getWaitingTime(walker) > 0:
                        bits |= 1 << at
        return bits

    def judge(self, step, occupied, buttons):
        state = traci.trafficlight.getSubscriptionResults(JUNCTION)[names.TL_RED_YELLOW_GREEN_STATE]
        greens = self.watch.greens(state, self.network.links)
        for at, groups in self.locking.items():
            self.watch.wait(step, f"detector {at}", at in occupied and not greens & groups)
        for at, movement in enumerate(self.site["movements"]):
            self.watch.wait(step, movement["name"], buttons >> at & 1 and movement["group"] not in greens)

    def look(self):
        for arm, queue in self.queues.items():
            queue.append(traci.edge.getLastStepHaltingNumber(f"{arm}_in"))


def delays(file):
    """Seconds lost by each vehicle and walker, by the name of its group."""
    lost = {}
    for trip in xml.parse(file).getroot():
        if trip.tag == "tripinfo":
            seconds = float(trip.get("timeLoss")) + float(trip.get("departDelay"))
        else:
            seconds = sum(float(walk.get("timeLoss")) for walk in trip.iter("walk"))
        lost.setdefault(trip.get("id").split(".")[0], []).append(seconds)
    return lost
