"""Both nodes and the merger of the same PMUs: their ports, settings and programs."""

from .programs import settings
from .sockets import HOST, Reader

IDENTS = {"a": 201, "b": 202, "m": 301}
NAMES = {"a": "node A", "b": "node B", "m": "merger"}


class Pair:
    """Settings of a.toml, b.toml and m.toml in a room. What the nodes send goes to the merger as an output of theirs; with `relayed` it is sent on by
    their readers. `more` has for some of the three keys of their own."""

    def __init__(self, room, devices, relayed=False, more=(), **common):
        self.room, self.devices, self.rate = room, devices, common.get("rate", 50)
        self.ports = {name: room.ports.some(len(devices)) for name in "ab"}
        self.outs, self.sessions = ({name: room.ports.one() for name in "abm"} for _ in range(2))
        self.inlets, self.more = {name: room.ports.one() for name in "ab"}, dict(more)
        for name in "ab":
            pmus = [{"stream": it.ident, "port": port} for it, port in zip(devices, self.ports[name])]
            self.put(name, common, pmu=pmus, outputs=None if relayed else [f"{HOST}:{self.inlets[name]}"])
        nodes = [{"id": IDENTS[name], "port": self.inlets[name]} for name in "ab"]
        self.put("m", common, node=nodes, pmu=[{"source": it.ident} for it in devices])
        self.readers = {name: Reader(port, *([self.inlets[name]] if relayed and name in "ab" else []), rate=self.rate) for name, port in self.outs.items()}

    def put(self, name, common, **keys):
        keys = {**common, **keys, **self.more.get(name, {})}
        self.room.put(f"{name}.toml", settings(id=IDENTS[name], out_port=self.outs[name], session_port=self.sessions[name], **keys))

    def places(self, names="ab"):
        """Each PMU with its ports at these nodes."""
        return [(it, [self.ports[name][k] for name in names]) for k, it in enumerate(self.devices)]

    def begin(self, name, *words):
        """Begins one of the three, by its mark where it has one."""
        return (self.room.merger if name == "m" else self.room.node)(name, None, *words)
