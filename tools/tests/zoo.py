"""GraphML in the layout of the Internet Topology Zoo, of any size, for tests: tools/tests/zoo.py N > network.graphml

Cities in a ring with chords and stubs. As in the Zoo's files some nodes have no label or one that others have, some are on no link,
and some links are doubled; the numbers of each are the functions' results.
"""
import sys

HEAD = """<?xml version="1.0" encoding="utf-8"?><graphml xmlns="http://graphml.graphdrawing.org/xmlns"\
 xmlns:xsi="http://www.w3.org/2001/XMLSchema-instance"\
 xsi:schemaLocation="http://graphml.graphdrawing.org/xmlns http://graphml.graphdrawing.org/xmlns/1.0/graphml.xsd">
  <key attr.name="Network" attr.type="string" for="graph" id="d13" />
  <key attr.name="Latitude" attr.type="double" for="node" id="d29" />
  <key attr.name="Internal" attr.type="int" for="node" id="d32" />
  <key attr.name="label" attr.type="string" for="node" id="d33" />
  <key attr.name="LinkLabel" attr.type="string" for="edge" id="d36" />
  <key attr.name="id" attr.type="string" for="edge" id="d37" />
  <key attr.name="Length" attr.type="double" for="edge" id="d38" />
  <graph edgedefault="undirected">
    <data key="d13">Generated</data>
"""
CITIES = ["Zürich", "São Paulo", "St. Gallen", "Paris", "New York, NY", "Łódź", "3rd Street", "?"]


def label(place):
    """The label of a node; None for one in eleven."""
    return None if place % 11 == 10 else CITIES[place % len(CITIES)] + (f" {place}" if place % 3 else "")


def edges(count):
    """Pairs of indexes with a length: the last node is isolated, and the chords of every twentieth node are doubled."""
    linked, found = count - 1, []
    for place in range(linked):
        found.append((place, (place + 1) % linked, 100 + place))
        if place % 20 == 0 and linked > 20:
            found += [(place, (place + linked // 2) % linked, 250.4), (place, (place + linked // 2) % linked, 260)]
    return found


def doubled(count):
    return len(edges(count)) - len({frozenset(edge[:2]) for edge in edges(count)})


def graphml(count):
    parts = [HEAD]
    for place in range(count):
        name = label(place)
        parts.append(f'    <node id="{place}">\n      <data key="d32">1</data>\n')
        parts.append(f'      <data key="d33">{name}</data>\n' if name else "")
        parts.append("    </node>\n")
    for number, (a, b, length) in enumerate(edges(count)):
        parts.append(f'    <edge source="{a}" target="{b}">\n      <data key="d37">e{number}</data>\n')
        parts.append(f'      <data key="d38">{length}</data>\n    </edge>\n')
    return "".join(parts) + "  </graph>\n</graphml>\n"


if __name__ == "__main__":
    print(graphml(int(sys.argv[1])), end="")
