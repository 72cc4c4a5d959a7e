"""Each watch over a run finds its fault: wrong controls in SUMO, on the network of a site text.

    wrong_controls.py SITE WILLOWERA

The exit status is 1 if a wrong control is not found."""

import pathlib
import sys
import tempfile

import compare
import demand
import drive
import network


class Wrong:
    """A control that shows the same colours for ever."""

    def __init__(self, site, phases, bound):
        self.colours = [network.GREEN if set(group["phases"]) & set(phases) else 0 for group in site["groups"]]
        self.bound = bound

    def step(self, inputs):
        return self.colours


def found(net, files, control, patience):
    """The fault of a run, in words."""
    try:
        drive.Drive(net, files, control, seed=1).run(60, patience)
    except drive.Fault as fault:
        return str(fault)
    return "no fault"


def main():
    with tempfile.TemporaryDirectory() as folder:
        folder = pathlib.Path(folder)
        site, _ = compare.read(sys.argv[2], sys.argv[1], folder)
        net = network.Network(site, folder)
        files = {name: folder / f"{name}.xml" for name in ("routes", "extra", "trips")}
        demand.write(net, 1, 60, 0, files["routes"])
        demand.actuated(net, files["extra"])
        letters = [phase["letter"] for phase in site["phases"]]
        cases = [
            ("every group green", Wrong(site, letters, None), "conflict and are green together"),
            ("one phase for ever", Wrong(site, letters[0], 600), "longer than the bound of 600 steps"),
            ("one phase for ever, without a bound", Wrong(site, letters[0], None), "not everybody has left"),
        ]
        wrong = 0
        for name, control, expected in cases:
            fault = found(net, files, control, 30)
            wrong += expected not in fault
            print(f"{'found' if expected in fault else 'NOT FOUND'}: {name}: {fault}")
        return 1 if wrong else 0


if __name__ == "__main__":
    sys.exit(main())
