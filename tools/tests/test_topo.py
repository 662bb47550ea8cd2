"""`topo` on captures of FRR's isisd, beside what FRR itself said of the topology at the time."""
import os
import re
import subprocess
import unittest

from support import HERE, program

LAB = os.path.join(HERE, "frr")
NAMES = ["core-1", "core-2", "core-3", "core-4", "access-1", "access-2", "access-3", "access-4"]
SYSTEMS = {name: f"0000.0000.{place:04d}" for place, name in enumerate(NAMES, 1)}


def topo(kind, topology, start):
    """The lines of `topo` on a capture of the lab, by their first word."""
    words = [program(), "topo", os.path.join(LAB, f"topologies-{kind}", "capture.pcap"), "2", topology, SYSTEMS[start]]
    done = subprocess.run(words, capture_output=True, text=True, timeout=60)
    assert done.returncode == 0, done.stdout
    lines = {}
    for line in done.stdout.splitlines():
        lines.setdefault(line.split()[0], []).append(line.split()[1:])
    return lines


def said(kind, protocol):
    """What FRR said on core-1: the cost to each router, and the routers before it on the shortest paths."""
    with open(os.path.join(LAB, f"topologies-{kind}", "topology.txt")) as file:
        part = re.search(rf"speak {protocol}\n(.*?)(\n\n|\Z)", file.read(), re.S)[1]
    costs, parents, vertex = {}, {}, None
    for line in part.splitlines():
        words = line.split()
        if line[:1].strip():
            vertex = words[0] if words[1:2] == ["TE-IS"] else None
            if vertex:
                costs[SYSTEMS[vertex]] = int(words[2])
        if vertex:
            parents.setdefault(SYSTEMS[vertex], []).append(SYSTEMS[words[-1].split("(")[0]])
    return costs, parents


class Topologies(unittest.TestCase):
    def check(self, kind, topology, protocol):
        lines, (costs, parents) = topo(kind, topology, "core-1"), said(kind, protocol)
        self.assertEqual([node for node, _ in lines["node"]], sorted(SYSTEMS.values()))
        self.assertEqual({to: int(cost) for to, cost in lines["path"]}, costs)
        edges = {(a, b): int(metric) for a, b, metric in lines["edge"]}
        for node, before in parents.items():
            for parent in before:
                self.assertEqual(costs.get(parent, 0) + edges[parent, node], costs[node])
        # each link is an edge in both directions
        self.assertEqual({(b, a) for a, b in edges}, set(edges))

    def test_single_topology(self):
        self.check("single", "0", "IP")
        self.check("single", "0", "IPv6")

    def test_two_topologies(self):
        self.check("multi", "0", "IP")
        self.check("multi", "2", "IPv6")

    def test_a_link_of_one_topology(self):
        """The link without IPv6 is in topology 0 and not in topology 2."""
        link = [SYSTEMS["core-1"], SYSTEMS["core-4"], "10"]
        self.assertIn(link, topo("multi", "0", "core-1")["edge"])
        self.assertNotIn(link, topo("multi", "2", "core-1")["edge"])

    def test_a_topology_that_nobody_has(self):
        self.assertEqual(list(topo("multi", "3", "core-1")), ["done"])


if __name__ == "__main__":
    unittest.main()
