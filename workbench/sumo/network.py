"""A site text with places as a network of SUMO.

Every vehicle group needs an approach, lanes and arrows, every calling or extending detector an approach and lanes. An arm is one road in
and one road out. README.md has the mapping."""

import pathlib
import subprocess
import xml.etree.ElementTree as xml
from math import cos, radians, sin

ARM = 250.0  # metres from the middle to the end of an arm
LOOP = 2.0  # metres: a detector without a length
JUNCTION = "junction"
TURNS = {"left": 90, "straight": 180, "right": -90}  # from the bearing of an arm to that of the exit
GREEN, YELLOW = 2, 1  # colours of the library; the others stop


class Link:
    """One path over the junction: a letter in SUMO's state."""

    def __init__(self, group, gives_way):
        self.group = group
        self.gives_way = gives_way


class Network:
    """The network of a site, and what belongs to its groups and detectors."""

    def __init__(self, site, folder):
        self.site = site
        self.folder = pathlib.Path(folder)
        self.arms = {arm["name"]: arm for arm in site["approaches"] if arm["bearing"] is not None}
        self.paths = [path for at, group in enumerate(site["groups"]) for path in self.paths_of(at, group)]
        self.crossings = {at: group for at, group in enumerate(site["groups"]) if group["mark"] == "pedestrian"}
        self.pavement = 1 if self.crossings else 0  # the first lane of a road of SUMO is then its pavement
        self.file = self.folder / "junction.net.xml"
        self.convert()
        self.links = self.links_of()

    def place(self, what, thing):
        """The arm and the lanes of a group or a detector."""
        if thing["approach"] not in self.arms or not thing["lanes"]:
            raise SystemExit(f"{what}, line {thing['line']}: SUMO needs its `approach` with a bearing, and its `lanes`")
        first, last = thing["lanes"]
        return thing["approach"], list(range(first, last + 1))

    def exit_of(self, what, arm, arrow):
        """The arm to which an arrow leads."""
        bearing = self.arms[arm]["bearing"] + TURNS[arrow]
        for name, other in self.arms.items():
            if name != arm and abs((other["bearing"] - bearing + 180) % 360 - 180) < 45:
                return name
        raise SystemExit(f"{what}: no arm lies {arrow} of {arm}")

    def paths_of(self, at, group):
        """The paths of a vehicle group: group, arm, lane, exit, arrow. Beside `straight` a turn has the outer lane only."""
        if group["mark"] == "pedestrian":
            return []
        name = f"group {group['name']}"
        arm, lanes = self.place(name, group)
        if not group["arrows"]:
            raise SystemExit(f"{name}, line {group['line']}: SUMO needs its `arrow`")
        paths = []
        for arrow in (one for one in group["arrows"] if one in TURNS):
            outer = lanes[:1] if arrow == self.kerb_turn() else lanes[-1:]
            own = outer if arrow != "straight" and "straight" in group["arrows"] else lanes
            paths += [(at, arm, lane, self.exit_of(name, arm, arrow), arrow) for lane in own]
        return paths

    def kerb_turn(self):
        return self.site["traffic"]

    def lanes_in(self, arm):
        things = self.site["groups"] + self.site["detectors"]
        used = [thing["lanes"][1] for thing in things if thing["approach"] == arm and thing["lanes"]]
        return max([self.arms[arm]["lanes"] or 1] + used)

    def lanes_out(self, arm):
        """As many as the widest movement into it needs."""
        widest = {}
        for group, _, _, leads, arrow in self.paths:
            if leads == arm:
                widest[group, arrow] = widest.get((group, arrow), 0) + 1
        return max([1, *widest.values()])

    def plain(self):
        """Nodes, edges and connections for netconvert."""
        nodes, edges, paths = xml.Element("nodes"), xml.Element("edges"), xml.Element("connections")
        xml.SubElement(nodes, "node", id=JUNCTION, x="0", y="0", type="traffic_light", radius="6")
        for name, arm in self.arms.items():
            x, y = ARM * sin(radians(arm["bearing"])), ARM * cos(radians(arm["bearing"]))
            xml.SubElement(nodes, "node", id=name, x=f"{x:.2f}", y=f"{y:.2f}")
            speed = f"{(arm['speed'] or 50) / 3.6:.2f}"
            walk = {"sidewalkWidth": "2"} if self.crossings else {}
            for edge, ends, lanes in ((f"{name}_in", (name, JUNCTION), self.lanes_in(name)),
                                      (f"{name}_out", (JUNCTION, name), self.lanes_out(name))):
                xml.SubElement(edges, "edge", {"id": edge, "from": ends[0], "to": ends[1], "numLanes": str(lanes), "speed": speed, **walk})
        for group, arm, lane, leads, arrow in self.paths:
            lanes = {"fromLane": self.lane(lane), "toLane": self.lane(self.exit_lane(group, lane, leads, arrow))}
            xml.SubElement(paths, "connection", {"from": f"{arm}_in", "to": f"{leads}_out", **lanes})
        for at, group in self.crossings.items():
            arm = group["approach"]
            if arm not in self.arms:
                raise SystemExit(f"group {group['name']}, line {group['line']}: SUMO needs the `approach` that the crossing leads over")
            xml.SubElement(paths, "crossing", node=JUNCTION, edges=f"{arm}_in {arm}_out", width="3")
        return {"node": nodes, "edge": edges, "connection": paths}

    def lane(self, lane):
        """The number of a lane in SUMO, which counts from 0 at the kerb."""
        return str(lane - 1 + self.pavement)

    def exit_lane(self, group, lane, leads, arrow):
        """The lanes of a movement go side by side into the exit, from the kerb or, for a turn across, from the middle."""
        own = sorted(path[2] for path in self.paths if path[0] == group and path[4] == arrow)
        across = arrow not in ("straight", self.kerb_turn())
        return self.lanes_out(leads) - own[::-1].index(lane) if across else 1 + own.index(lane)

    def convert(self):
        """Lets netconvert write the network."""
        files = []
        for kind, root in self.plain().items():
            file = self.folder / f"junction.{kind}.xml"
            xml.ElementTree(root).write(file)
            files.append(f"--{kind}-files={file}")
        side = ["--lefthand"] if self.site["traffic"] == "left" else []
        done = subprocess.run(["netconvert", *files, *side, f"--output-file={self.file}", "--no-turnarounds"], capture_output=True, text=True)
        if done.returncode:
            raise SystemExit(f"netconvert: {done.stderr}")

    def read_crossings(self, net):
        """The crossings of SUMO: for each its group, and the corners from which it is walked."""
        over = {group["approach"]: at for at, group in self.crossings.items()}
        crossed = {edge.get("id"): edge.get("crossingEdges") for edge in net.iter("edge") if edge.get("crossingEdges")}
        self.crossed = {edge: over[roads.split()[0].rsplit("_", 1)[0]] for edge, roads in crossed.items()}
        ends = [(one.get("from"), one.get("to")) for one in net.iter("connection")]
        self.corners = {at: [one for pair in ends if edge in pair for one in pair if one != edge] for edge, at in self.crossed.items()}

    def links_of(self):
        """The links in the order of SUMO's state, read from the network."""
        net = xml.parse(self.file).getroot()
        self.read_crossings(net)
        ways = {(f"{arm}_in", self.lane(lane), f"{leads}_out"): (at, arrow) for at, arm, lane, leads, arrow in self.paths}
        links = {}
        for one in (one for one in net.iter("connection") if one.get("tl") == JUNCTION):
            if one.get("to") in self.crossed:
                link = Link(self.crossed[one.get("to")], False)
            else:
                at, arrow = ways[one.get("from"), one.get("fromLane"), one.get("to")]
                link = Link(at, arrow != "straight" and "straight" in self.site["groups"][at]["arrows"])
            links[int(one.get("linkIndex"))] = link
        return [links[at] for at in range(len(links))]

    def state(self, colours):
        """SUMO's letters for the colours of all groups. A turn beside `straight` gives way."""
        def letter(link):
            colour = colours[link.group]
            if colour == GREEN:
                return "g" if link.gives_way else "G"
            return "y" if colour == YELLOW else "r"
        return "".join(letter(link) for link in self.links)

    def loops(self):
        """The lane areas of the detectors: name, detector, lane of SUMO, position from the stop line, length."""
        for at, detector in enumerate(self.site["detectors"]):
            arm, lanes = self.place(f"detector {at}", detector)
            for lane in lanes:
                yield f"d{at}_{lane}", at, f"{arm}_in_{self.lane(lane)}", detector["metres"] or 0, detector["length"] or LOOP
