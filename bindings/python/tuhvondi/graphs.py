"""Graphs: of networkx, or of a file of GraphML, and what a network is as a graph."""

from __future__ import annotations

import xml.etree.ElementTree as ElementTree
from typing import Any, Callable, Dict, Hashable, Iterator, List, Mapping, Optional, Set, Tuple, Type, Union

from .files import write_text
from .status import BadCost, BadLink

CostGiven = Union[str, int, Callable[[Any, Any, Mapping[str, Any]], int]]
# The attributes that count if none is named, and what counts of an edge that has none: a cost, and a delay in
# microseconds. The same of a node: how long it takes to publish.
_COST, _DELAY, _PUBLICATION = ("weight", 1), ("delay", 1000), ("publication", 1000)


class Graph:
    """The part of networkx's Graph and DiGraph that a network is made of: nodes, edges with their attributes,
    and whether they are directed.

    >>> graph = Graph({"a": {}, "b": {}}, [("a", "b", {"weight": 5})], directed=False)
    >>> list(graph.nodes), list(graph.edges(data=True))
    (['a', 'b'], [('a', 'b', {'weight': 5})])
    """

    def __init__(self, nodes: Dict[Any, Dict[str, Any]], edges: List[Tuple[Any, Any, Dict[str, Any]]],
                 directed: bool) -> None:
        self.nodes = nodes
        self._edges = edges
        self._directed = directed

    def edges(self, data: bool = False) -> Iterator[Any]:
        """The edges: two nodes, and with `data` the attributes, too."""
        return iter(self._edges if data else [edge[:2] for edge in self._edges])

    def is_directed(self) -> bool:
        """Whether an edge leads from its first node to the second alone."""
        return self._directed


def _whole(value: Any, where: str, name: str = "cost", fault: Type[ValueError] = BadCost) -> int:
    """A value as a whole number. A text of a file, or a number such as 5.0, is one; 5.5 is none."""
    try:
        number = float(value)
        if number != int(number):
            raise ValueError
    except (TypeError, ValueError, OverflowError):
        raise fault(f"{value!r} of {where} is no whole number: give `{name}` a function that rounds") from None
    return int(number)


def _edges_of(graph: Any, given: CostGiven, default: Tuple[str, int]) -> "Iterator[tuple[Hashable, Hashable, Any]]":
    """What is given of each edge: by the name of its attribute, by a number for all, or by a function. A name that
    somebody has given is not misspelt: some edge has it."""
    edges = list(graph.edges(data=True))
    if isinstance(given, str) and given != default[0] and edges and not any(given in data for _, _, data in edges):
        there = sorted({str(key) for _, _, data in edges for key in data})
        raise ValueError(f"no edge has the attribute {given!r}: they have {', '.join(there) or 'none'}")
    for near, far, data in edges:
        if callable(given):
            yield near, far, given(near, far, data)
        else:
            yield near, far, data.get(given, default[1]) if isinstance(given, str) else given


def links_of(graph: Any, cost: CostGiven = "weight") -> "list[tuple[Hashable, Hashable, int, int]]":
    """The links of a graph: two nodes, the cost from the first, and the cost from the second.

    >>> graph = Graph({"a": {}, "b": {}}, [("a", "b", {"weight": "5"}), ("b", "a", {})], directed=True)
    >>> links_of(graph)
    [('a', 'b', 5, 1)]

    Raises BadLink, BadCost, and ValueError if no edge has the attribute.
    """
    costs: "dict[tuple[Hashable, Hashable], int]" = {}
    for near, far, found in _edges_of(graph, cost, _COST):
        where = f"the edge of {near!r} and {far!r}"
        if near == far:
            raise BadLink(f"{where} is a loop")
        if (near, far) in costs or (not graph.is_directed() and (far, near) in costs):
            raise BadLink(f"{where} has another beside it: make a Graph or a DiGraph of it first")
        costs[near, far] = _whole(found, where)
    links: "dict[tuple[Hashable, Hashable], tuple[int, int]]" = {}
    for (near, far), to in costs.items():
        if not graph.is_directed():
            links[near, far] = (to, to)
        elif (far, near) not in costs:
            raise BadLink(f"the edge from {near!r} to {far!r} has no edge back")
        elif (far, near) not in links:
            links[near, far] = (to, costs[far, near])
    return [(near, far, to, back) for (near, far), (to, back) in links.items()]


def delays_of(graph: Any, delay: CostGiven = "delay") -> "dict[tuple[Hashable, Hashable], int]":
    """The delays of a graph, in microseconds, by the node that sends and the node that receives. Without an
    attribute it is 1000.

    >>> graph = Graph({"a": {}, "b": {}}, [("a", "b", {"delay": "70"})], directed=False)
    >>> delays_of(graph)
    {('a', 'b'): 70, ('b', 'a'): 70}

    Raises ValueError if a delay is no whole number, or if no edge has the attribute.
    """
    delays: "dict[tuple[Hashable, Hashable], int]" = {}
    for near, far, found in _edges_of(graph, delay, _DELAY):
        delays[near, far] = _whole(found, f"the edge of {near!r} and {far!r}", "delay", ValueError)
        if not graph.is_directed():
            delays[far, near] = delays[near, far]
    return delays


def publications_of(graph: Any, publication: Any = "publication") -> Any:
    """How long the nodes of a graph take to publish, in microseconds: by the name of an attribute, 1000 without one, or
    as it is given.

    >>> publications_of(Graph({"a": {"publication": "70"}, "b": {}}, [], directed=False))
    {'a': 70, 'b': 1000}

    Raises ValueError if one is no whole number, or if no node has the attribute.
    """
    if not isinstance(publication, str):
        return publication
    if publication != _PUBLICATION[0] and not any(publication in graph.nodes[node] for node in graph.nodes):
        raise ValueError(f"no node has the attribute {publication!r}")
    return {node: _whole(graph.nodes[node].get(publication, _PUBLICATION[1]), f"the node {node!r}", "publication",
                         ValueError) for node in graph.nodes}


def attachments_of(graph: Any) -> "Optional[dict[Any, dict[str, int]]]":
    """The prefixes of nodes with their costs, as their attribute `prefixes` says, or None if no node has it.

    >>> attachments_of(Graph({"a": {"prefixes": "10.0.0.0/8 1, 10.1.0.0/16 3"}, "b": {}}, [], directed=False))
    {'a': {'10.0.0.0/8': 1, '10.1.0.0/16': 3}}

    Raises ValueError if one is no list of prefixes, each with a cost, between commas.
    """
    found: "dict[Any, dict[str, int]]" = {}
    texts = {node: graph.nodes[node]["prefixes"] for node in graph.nodes if "prefixes" in graph.nodes[node]}
    for node, text in texts.items():
        for pair in filter(None, map(str.split, str(text).split(","))):
            if len(pair) != 2 or not pair[1].isdecimal():
                raise ValueError(f"{text!r} of {node!r} is no list of prefixes, each with a cost")
            found.setdefault(node, {})[pair[0]] = int(pair[1])
    return found if texts else None


def down_of(graph: Any) -> "Set[tuple[Hashable, Hashable]]":
    """The links that are down, as the attribute `is_up` of their edges says.

    >>> down_of(Graph({"a": {}, "b": {}}, [("a", "b", {"is_up": "False"})], directed=False))
    {('a', 'b')}
    """
    return {(near, far) for near, far, data in graph.edges(data=True)
            if str(data.get("is_up", True)).lower() in ("false", "0")}


def write_graphml(graph: Graph, file: Any) -> None:
    """Writes a graph as GraphML, whose ids are the nodes' names as texts.

    >>> import sys
    >>> write_graphml(Graph({1: {}}, [], directed=False), sys.stdout)   # doctest: +ELLIPSIS
    <graphml xmlns="..."><graph edgedefault="undirected"><node id="1" /></graph></graphml>

    Raises ValueError if two names are the same text.
    """
    if len(set(map(str, graph.nodes))) < len(graph.nodes):
        raise ValueError("two routers would have one name in GraphML")
    root = ElementTree.Element("graphml", xmlns="http://graphml.graphdrawing.org/xmlns")
    made = ElementTree.SubElement(root, "graph", edgedefault="directed" if graph.is_directed() else "undirected")
    keys: Dict[Tuple[str, str], str] = {}

    def put(kind: str, data: Mapping[str, Any], **ends: str) -> None:
        element = ElementTree.SubElement(made, kind, ends)
        for name, value in data.items():
            if (kind, name) not in keys:
                keys[kind, name] = f"d{len(keys)}"
                of = {bool: "boolean", int: "long"}.get(type(value), "string")
                root.insert(len(keys) - 1, ElementTree.Element("key", {
                    "id": keys[kind, name], "for": kind, "attr.name": name, "attr.type": of}))
            ElementTree.SubElement(element, "data", key=keys[kind, name]).text = str(value)

    for node, data in graph.nodes.items():
        put("node", data, id=str(node))
    for near, far, data in graph.edges(data=True):
        put("edge", data, source=str(near), target=str(far))
    write_text(file, ElementTree.tostring(root, encoding="unicode") + "\n")


def _local(tag: str) -> str:
    """A tag without its namespace."""
    return tag.rpartition("}")[2]


def read_graphml(file: Any) -> Graph:
    """The graph of a file of GraphML, or of one that is open. Of parallel edges the first counts, and loops
    do not. Nodes are named by their labels, if each has one of its own, else by their ids.

    >>> import io
    >>> text = '<graphml><graph><node id="a"/><node id="b"/><edge source="a" target="b"/></graph></graphml>'
    >>> list(read_graphml(io.StringIO(text)).edges())
    [('a', 'b')]

    Raises ValueError if the file is no GraphML.
    """
    try:
        root = ElementTree.parse(file).getroot()
    except ElementTree.ParseError as error:
        raise ValueError(f"no GraphML: {error}") from None
    keys = {it.get("id"): it.get("attr.name") or it.get("id")
            for it in root.iter() if _local(it.tag) == "key"}
    graph = next((it for it in root if _local(it.tag) == "graph"), None)
    if graph is None:
        raise ValueError("no GraphML: there is no graph")

    def data_of(element: Any) -> Dict[str, Any]:
        return {keys.get(it.get("key"), it.get("key")): (it.text or "").strip()
                for it in element if _local(it.tag) == "data"}
    nodes = {it.get("id"): data_of(it) for it in graph if _local(it.tag) == "node"}
    labels = {node: data.get("label", "") for node, data in nodes.items()}
    if "" in labels.values() or len(set(labels.values())) < len(labels):
        labels = {node: node for node in nodes}
    directed = graph.get("edgedefault") == "directed"
    edges: Dict[Tuple[str, str], Dict[str, Any]] = {}
    for element in graph:
        if _local(element.tag) != "edge":
            continue
        near, far = element.get("source"), element.get("target")
        if near not in nodes or far not in nodes:
            raise ValueError(f"no GraphML: an edge of {near!r} and {far!r}, which are no nodes")
        pair = (labels[near], labels[far])
        if near != far and pair not in edges and (directed or pair[::-1] not in edges):
            edges[pair] = data_of(element)
    named = {labels[node]: data for node, data in nodes.items()}
    return Graph(named, [(*pair, data) for pair, data in edges.items()], directed)
