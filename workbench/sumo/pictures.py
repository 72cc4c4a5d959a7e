"""Pictures of a comparison, as SVG: the network with its detectors, queues over time, delays."""

import xml.etree.ElementTree as xml
from math import dist

from network import JUNCTION

TEXT, GRID = "#1f2933", "#e4e7eb"
COLOURS = {"library": "#3f6fc4", "sumo": "#d64545"}
DASHES = {"library": "", "sumo": "5 3"}


class Picture:
    def __init__(self, width, height, title):
        self.root = xml.Element("svg", xmlns="http://www.w3.org/2000/svg", viewBox=f"0 0 {width} {height}", width=str(width), height=str(height))
        self.root.set("font-family", "DejaVu Sans, sans-serif")
        xml.SubElement(self.root, "title").text = title
        xml.SubElement(self.root, "rect", width=str(width), height=str(height), fill="#ffffff")
        self.text(12, 22, title, size=14, weight="bold")

    def text(self, x, y, text, size=11, anchor="start", weight="normal", fill=TEXT):
        look = {"font-size": str(size), "text-anchor": anchor, "font-weight": weight, "fill": fill}
        xml.SubElement(self.root, "text", x=f"{x:.1f}", y=f"{y:.1f}", **look).text = text

    def line(self, points, colour, width=1.0, dash="", cap="butt"):
        look = {"fill": "none", "stroke": colour, "stroke-width": f"{width:.2f}", "stroke-dasharray": dash or "none", "stroke-linecap": cap}
        xml.SubElement(self.root, "polyline", points=" ".join(f"{x:.1f},{y:.1f}" for x, y in points), **look)

    def bar(self, x, y, width, height, key):
        """A bar of a control: solid, or hollow with the control's dashes."""
        fill = "#ffffff" if DASHES[key] else COLOURS[key]
        look = {"fill": fill, "stroke": COLOURS[key], "stroke-width": "2", "stroke-dasharray": DASHES[key] or "none"}
        xml.SubElement(self.root, "rect", x=f"{x:.1f}", y=f"{y:.1f}", width=f"{width:.1f}", height=f"{height:.1f}", **look)

    def legend(self, x, y, labels):
        for key, label in labels.items():
            self.line([(x, y - 4), (x + 26, y - 4)], COLOURS[key], 2, DASHES[key])
            self.text(x + 32, y, label)
            x += 50 + 7 * len(label)

    def write(self, file):
        xml.ElementTree(self.root).write(file)


def shape(text):
    return [tuple(float(one) for one in point.split(",")[:2]) for point in text.split()]


class Plan:
    """The middle of a network, drawn."""

    SIZE, REACH, TOP = 620, 62.0, 34  # points, metres from the middle to the border, points above

    def __init__(self, net, title):
        self.root = xml.parse(net.file).getroot()
        self.middle = next(one for one in self.root.iter("junction") if one.get("id") == JUNCTION)
        self.centre = float(self.middle.get("x")), float(self.middle.get("y"))
        self.scale = self.SIZE / (2 * self.REACH)
        self.picture = Picture(self.SIZE, self.SIZE + self.TOP, title)
        self.lanes = {lane.get("id"): shape(lane.get("shape")) for lane in self.root.iter("lane")}

    def seen(self, points):
        """Points of the network in the picture; far ones at its border."""
        def near(value, middle):
            return min(max(value - middle, -self.REACH + 2), self.REACH - 2)
        flat = [(near(x, self.centre[0]), near(y, self.centre[1])) for x, y in points]
        return [((x + self.REACH) * self.scale, self.TOP + (self.REACH - y) * self.scale) for x, y in flat]

    def draw(self, function):
        """The lanes of all edges with a function of SUMO; roads have none."""
        for edge in (one for one in self.root.iter("edge") if one.get("function") == function):
            for lane in edge.iter("lane"):
                points = self.seen(self.lanes[lane.get("id")])
                width = float(lane.get("width") or 3.2) * self.scale * 0.94
                if function == "internal":
                    self.picture.line(points, "#dfe7ef", 1.5)
                elif function == "crossing":
                    self.picture.line(points, "#ffffff", width, "4 4")
                else:
                    self.picture.line(points, "#d9e2ec" if lane.get("allow") == "pedestrian" else "#9fb3c8", width)

    def loop(self, number, lane, metres, length):
        """A detector with its number."""
        start, end = self.lanes[lane][0], self.lanes[lane][-1]
        far = dist(start, end)
        back = [tuple(b + (a - b) * metre / far for a, b in zip(start, end)) for metre in (metres + 0.2, metres + length)]
        points = self.seen(back)
        self.picture.line(points, COLOURS["library"], 1.7 * self.scale)
        x, y = (sum(one) / 2 for one in zip(*points))
        self.picture.text(x, y + 4, str(number), anchor="middle", fill="#ffffff", weight="bold")

    def name(self, text, lane):
        """The name of an arm, on the far side of its first lane from the middle of the road."""
        (x, y), (along, down) = self.seen(self.lanes[lane])[0], self.seen(self.lanes[lane])[-1]
        upright = abs(x - along) < abs(y - down)
        side = 1 if (x > self.SIZE / 2 if upright else y - self.TOP > self.SIZE / 2) else -1
        if upright:
            x, y = x + side * 34, min(max(y, self.TOP + 16), self.SIZE + self.TOP - 12)
        else:
            x, y = min(max(x, 30), self.SIZE - 30), y + side * 24 + 4
        self.picture.text(x, y, text, anchor="middle", weight="bold")


def network(net, file, title):
    """The middle of the network as SUMO has it, with the site's detectors and the names of the arms."""
    plan = Plan(net, title)
    area = " ".join(f"{x:.1f},{y:.1f}" for x, y in plan.seen(shape(plan.middle.get("shape"))))
    plan.draw(None)
    xml.SubElement(plan.picture.root, "polygon", points=area, fill="#9fb3c8")
    plan.draw("internal")
    plan.draw("crossing")
    for _, number, lane, metres, length in net.loops():
        plan.loop(number, lane, metres, length)
    for arm in net.arms:
        plan.name(arm, f"{arm}_in_0")
    plan.picture.write(file)


def queues(looks, labels, file, title):
    """Standing vehicles on each arm over time: a diagram for each arm, a line for each control."""
    left, width, height, gap = 56, 860, 110, 34
    arms = list(next(iter(looks.values())))
    last = max(len(queue) for one in looks.values() for queue in one.values())
    highest = max([1] + [value for one in looks.values() for queue in one.values() for value in queue])
    picture = Picture(left + width + 24, 60 + len(arms) * (height + gap) + 10, title)
    picture.legend(left, 44, labels)
    for row, arm in enumerate(arms):
        top = 70 + row * (height + gap)
        for part in range(0, highest + 1, max(1, highest // 4)):
            y = top + height * (1 - part / highest)
            picture.line([(left, y), (left + width, y)], GRID)
            picture.text(left - 6, y + 4, str(part), size=9, anchor="end")
        for minute in range(0, last // 60 + 1, max(1, last // 60 // 10)):
            picture.text(left + width * minute * 60 / last, top + height + 13, f"{minute} min", size=9, anchor="middle")
        picture.text(left, top - 4, f"{arm}: vehicles standing", size=10)
        for key in labels:
            points = [(left + width * at / last, top + height * (1 - value / highest)) for at, value in enumerate(looks[key][arm])]
            picture.line(points, COLOURS[key], 1.4, DASHES[key])
    picture.write(file)


def delays(means, labels, file, title):
    """The mean delay of each group under each control, as bars."""
    left, height, wide = 56, 220, 84
    groups = list(next(iter(means.values())))
    highest = max([1.0] + [value for one in means.values() for value in one.values()])
    picture = Picture(max(560, left + wide * len(groups) + 20), height + 120, title)
    picture.legend(left, 44, labels)
    for part in range(0, int(highest) + 1, max(1, int(highest) // 5)):
        y = 70 + height * (1 - part / highest)
        picture.line([(left, y), (left + wide * len(groups), y)], GRID)
        picture.text(left - 6, y + 4, f"{part} s", size=9, anchor="end")
    for at, group in enumerate(groups):
        x = left + wide * at + 12
        for row, key in enumerate(labels):
            tall = height * means[key][group] / highest
            picture.bar(x + row * 30, 70 + height - tall, 26, tall, key)
            picture.text(x + row * 30 + 13, 66 + height - tall, f"{means[key][group]:.0f}", size=9, anchor="middle")
        picture.text(x + 28, 70 + height + 16, group, anchor="middle")
    picture.write(file)
