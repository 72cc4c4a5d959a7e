"""A site text in SUMO: the proved library beside SUMO's own actuated control, on the same network and traffic.

    compare.py SITE [--seconds 1800] [--seeds 1 2 3] [--walkers 60] [--out FOLDER]

It prints delays, waits and queues, and writes pictures. It is an example of use and no evidence: the proofs do not rest on it, and one
site with assumed traffic says nothing about others. The exit status is 1 if a run shows conflicting greens, a wait above the bound, or
somebody who never leaves."""

import argparse
import json
import pathlib
import subprocess
import sys

import demand
import drive
import library
import network
import pictures

ROOT = pathlib.Path(__file__).resolve().parents[2]
LABELS = {"library": "proved library", "sumo": "SUMO actuated"}


def options():
    parser = argparse.ArgumentParser(description=__doc__.split("\n\n", maxsplit=1)[0])
    parser.add_argument("site", help="a site text with approaches, lanes, arrows and streams")
    parser.add_argument("--seconds", type=int, default=1800, help="of arrivals; then the run goes on until everybody has left")
    parser.add_argument("--seeds", type=int, nargs="+", default=[1, 2, 3])
    parser.add_argument("--walkers", type=int, default=60, help="for each crossing in an hour")
    parser.add_argument("--out", default=ROOT / "target/sumo", help="the folder of the network, the runs and the pictures")
    parser.add_argument("--command", default=ROOT / "target/workbench/release/willowera", help="the program `willowera`")
    return parser.parse_args()


def read(command, site, folder):
    """What the text says, and its bytes, from the command."""
    said = subprocess.run([command, "check", "--json", site], capture_output=True, text=True)
    if said.returncode:
        subprocess.run([command, "check", site])
        sys.exit(said.returncode)
    bytes_file = folder / "personality.bin"
    subprocess.run([command, "build", site, "-o", bytes_file], check=True)
    text = json.loads(said.stdout)["site"]
    if not text["streams"]:
        sys.exit(f"{site}: SUMO needs `streams` with rates")
    return text, bytes_file.read_bytes()


class Results:
    """What the runs of one control gave."""

    def __init__(self):
        self.delays, self.waits, self.queues, self.first = {}, {}, {}, None

    def add(self, run, trips):
        for group, seconds in drive.delays(trips).items():
            self.delays.setdefault(group, []).extend(seconds)
        for who, steps in run.watch.longest.items():
            self.waits[who] = max(steps, self.waits.get(who, 0))
        for arm, queue in run.queues.items():
            self.queues.setdefault(arm, []).extend(queue)
        self.first = self.first or run.queues


def mean(values):
    return sum(values) / max(1, len(values))


def runs(args, net, personality):
    """Both controls with each seed."""
    calls = library.load(ROOT, args.out)
    results = {key: Results() for key in LABELS}
    for seed in args.seeds:
        files = {name: args.out / f"{name}.xml" for name in ("routes", "extra", "trips")}
        vehicles, walkers = demand.write(net, seed, args.seconds, args.walkers, files["routes"])
        if not vehicles:
            raise drive.Fault(f"no vehicle arrives in {args.seconds} s: nothing is compared")
        demand.actuated(net, files["extra"])
        for key, result in results.items():
            control = library.Controller(calls, personality) if key == "library" else None
            run = drive.Drive(net, files, control, seed)
            steps = run.run(args.seconds)
            result.add(run, files["trips"])
            print(f"seed {seed}, {LABELS[key]}: {vehicles} vehicles and {walkers} walkers have left after {steps / 10:.1f} s", flush=True)
    return results


def print_tables(site, bound, results):
    one, other = (results[key] for key in LABELS)
    head = "".join(f"{LABELS[key]:>34}" for key in LABELS)
    print(f"\n{'':18}{head}\ngroup     number  {'mean delay   longest delay (s)':>34}{'mean delay   longest delay (s)':>34}")
    for group in sorted(one.delays):
        cells = "".join(f"{mean(result.delays[group]):>18.1f}{max(result.delays[group]):>16.1f}" for result in (one, other))
        print(f"{group:<10}{len(one.delays[group]):>6}  {cells}")
    print(f"\n{'arm':<18}{'mean queue   longest (vehicles)':>34}{'mean queue   longest (vehicles)':>34}")
    for arm in one.queues:
        print(f"{arm:<18}" + "".join(f"{mean(result.queues[arm]):>18.1f}{max(result.queues[arm]):>16}" for result in (one, other)))
    print(f"\nlongest wait in red of the first one, in seconds; the library's bound is {bound / 10:.1f}")
    for who in sorted(set(one.waits) | set(other.waits)):
        print(f"{who:<18}" + "".join(f"{result.waits.get(who, 0) / 10:>34.1f}" for result in (one, other)))


def main():
    args = options()
    args.out = pathlib.Path(args.out)
    args.out.mkdir(parents=True, exist_ok=True)
    site, personality = read(args.command, args.site, args.out)
    name = site["name"] or pathlib.Path(args.site).stem
    net = network.Network(site, args.out)
    try:
        results = runs(args, net, personality)
    except drive.Fault as fault:
        print(f"FAULT: {fault}")
        return 1
    bound = library.Controller(library.load(ROOT, args.out), personality).bound
    print_tables(site, bound, results)
    pictures.network(net, args.out / "network.svg", f"{name} in SUMO")
    looks = {key: result.first for key, result in results.items()}
    pictures.queues(looks, LABELS, args.out / "queues.svg", f"{name}: queues, seed {args.seeds[0]}")
    means = {key: {group: mean(result.delays[group]) for group in sorted(results["library"].delays)} for key, result in results.items()}
    pictures.delays(means, LABELS, args.out / "delays.svg", f"{name}: mean delay of each group")
    print("\nno conflicting greens, no wait above the bound, nobody left behind. An example, not evidence.")
    print(f"pictures: {args.out}/network.svg queues.svg delays.svg")
    return 0


if __name__ == "__main__":
    sys.exit(main())
