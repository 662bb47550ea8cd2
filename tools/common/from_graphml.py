"""A network from GraphML, as the Internet Topology Zoo has it: nodes with labels, and edges."""
import os
from xml.parsers import expat

from .network import MOST_METRIC, Link, Network, Router
from .trouble import Trouble


class Element:
    """A node or an edge, with the line where it begins and its data by the names of keys."""

    def __init__(self, line, attributes):
        self.line, self.attributes, self.data = line, attributes, {}


class Document:
    """The nodes, the edges and whether they are directed, collected as the parser comes to them."""

    def __init__(self, path):
        self.path, self.names, self.nodes, self.edges = path, {}, [], []
        self.is_directed, self.is_graphml = False, False
        self.open, self.key, self.text = [], None, []
        self.parser = expat.ParserCreate()
        self.parser.StartElementHandler, self.parser.EndElementHandler = self.start, self.end
        self.parser.CharacterDataHandler = self.characters
        self.parser.EntityDeclHandler = self.reject_entities

    def parse(self, octets):
        try:
            self.parser.Parse(octets, True)
        except expat.ExpatError as fault:
            raise Trouble(f"{self.path}:{fault.lineno}: not XML: {expat.ErrorString(fault.code)}")
        if not self.is_graphml:
            raise Trouble(f"{self.path}: not GraphML: the document isn't a `graphml` element")
        return self

    def reject_entities(self, *_):
        raise Trouble(f"{self.path}:{self.parser.CurrentLineNumber}: declares entities, which GraphML doesn't need")

    def start(self, tag, attributes):
        tag = tag.rpartition(":")[2]
        if tag == "graphml":
            self.is_graphml = True
        elif tag == "key":
            self.names[attributes.get("id")] = attributes.get("attr.name", attributes.get("id"))
        elif tag == "graph":
            self.is_directed = attributes.get("edgedefault") == "directed"
        elif tag in ("node", "edge"):
            element = Element(self.parser.CurrentLineNumber, attributes)
            (self.nodes if tag == "node" else self.edges).append(element)
            self.open.append(element)
        elif tag == "data":
            self.key, self.text = attributes.get("key"), []

    def characters(self, text):
        if self.key is not None:
            self.text.append(text)

    def end(self, tag):
        tag = tag.rpartition(":")[2]
        if tag in ("node", "edge"):
            self.open.pop()
        elif tag == "data" and self.key is not None:
            if self.open:
                self.open[-1].data[self.names.get(self.key, self.key)] = "".join(self.text).strip()
            self.key = None


def metric_of(edge, options, path):
    """An edge's metric, and whether the source has one."""
    text = edge.data.get(options.metric_key) if options.metric_key else None
    if text is None:
        return options.metric, False
    try:
        value = float(text)
    except ValueError:
        value = -1
    if not 0 < value < MOST_METRIC + 0.5:
        raise Trouble(f"{path}:{edge.line}: {options.metric_key} {text!r} isn't a number above 0 and up to {MOST_METRIC}")
    return max(1, round(value)), True


def routers_of(document, network, options):
    routers = {}
    for node in document.nodes:
        key = node.attributes.get("id")
        if key is None or key in routers:
            why = "a node without an id" if key is None else f"a second node of id {key!r}"
            raise Trouble(f"{document.path}:{node.line}: {why}")
        # A node without a label is named by its id.
        name = node.data.get(options.name_key)
        routers[key] = Router(name or f"node-{key}")
        routers[key].assigned |= set() if name else {"name"}
        routers[key].where = f"{os.path.basename(document.path)}:{node.line}: "
        network.routers.append(routers[key])
    return routers


def read(path, octets, options):
    document, network = Document(path).parse(octets), Network(options.level, options.area)
    if not document.nodes:
        raise Trouble(f"{path}: no nodes")
    names = {name for edge in document.edges for name in edge.data}
    if options.metric_key and options.metric_key not in names:
        raise Trouble(f"{path}: no edge has {options.metric_key!r}; edges have {', '.join(sorted(names)) or 'no data'}")
    for link in links_of(document, routers_of(document, network, options), options):
        network.add_link(link)
    given = sum(link.is_assigned for link in network.links)
    if given:
        network.head.append(f"{given} of {len(network.links)} links have the metric {options.metric} of --metric.")
    return network


def links_of(document, routers, options):
    """A link for each edge, or for the two directed ones between two nodes."""
    found, waiting = [], {}  # waiting: directed edges without one of the other direction
    for edge in document.edges:
        ends = tuple(edge.attributes.get(key) for key in ("source", "target"))
        for end in ends:
            if end not in routers:
                raise Trouble(f"{document.path}:{edge.line}: no node has the id {end!r}")
        metric, is_given = metric_of(edge, options, document.path)
        back = waiting.get(ends[::-1])
        if document.is_directed and back:
            back.pop(0).metric_ba = metric
            continue
        link = Link(routers[ends[0]], routers[ends[1]], metric, metric)
        link.is_assigned, link.where = not is_given, f"{os.path.basename(document.path)}:{edge.line}: "
        waiting.setdefault(ends, []).append(link)
        found.append(link)
    return found
