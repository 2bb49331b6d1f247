"""A pair whose page is served: three simulated PMUs, both nodes, the merger and `pdc watch`."""

import json
import urllib.request

from .frames import Device
from .pair import Pair
from .programs import WATCH
from .script import until
from .sockets import HOST

PMUS = (11, 12, 13)


class Watched:
    """What runs, by its name: a, b, m, the PMUs and the page. The merger waits for a node twice as many ticks as the nodes for a PMU, and its stream is so far
    behind where a node is gone."""

    def __init__(self, room, wait=25):
        self.room, self.page = room, room.ports.one()
        self.url = f"http://{HOST}:{self.page}/"
        more = {name: {"metrics_port": room.ports.one()} for name in "abm"}
        more["m"]["wait"] = 2 * wait
        self.pair = Pair(room, [Device(it) for it in PMUS], wait=wait, layout_every=100, more=more, window=256)
        self.programs = {name: self.pair.begin(name, "--quiet") for name in "abm"}
        for device, ports in self.pair.places():
            words = [*ports, "--grid", "--config-every", 1]
            self.programs[device.ident] = room.pmu(device.ident, 50, 30000, *words)
        self.programs["watch"] = room.begin("watch", *WATCH, "a.toml", "b.toml", "m.toml", "--port", self.page)
        until("the page is served", lambda: self.url in self.programs["watch"].printed + self.programs["watch"].said)

    def data(self):
        """What the page is drawn of."""
        with urllib.request.urlopen(self.url + "data.json", timeout=60) as answer:
            return json.load(answer)

    def alive(self):
        """Which of the three streams are alive."""
        return {it["name"]: it["alive"] for it in self.data()["streams"]}

    def shown(self):
        """For each PMU and stream whether its data came in the last cells that can be told of."""
        found = {}
        for pmu in self.data()["pmus"]:
            for row in pmu["presence"]:
                found[pmu["source"], row["stream"]] = sum(it in "wg" for it in row["cells"][-10:]) >= 3
        return found

    def until_alive(self, limit=60, **wanted):
        until(f"the streams are alive as {wanted}", lambda: self.alive() == wanted, limit, lambda: str(self.alive()))

    def kill(self, name):
        self.programs[name].kill()

    def again(self, name):
        self.programs[name] = self.pair.begin(name, "--quiet")
