"""Least costs, by networkx where it is installed, else by a Dijkstra of our own."""

import heapq
import math

try:
    import networkx
except ImportError:
    networkx = None


def by_hand(costs, attached):
    """The least cost of each router to one that is attached. `costs` has a cost for each pair of
    neighbours.
    """
    least, heap = {}, [(cost, router) for router, cost in attached.items()]
    heapq.heapify(heap)
    while heap:
        cost, router = heapq.heappop(heap)
        if router in least:
            continue
        least[router] = cost
        # A packet goes from the neighbour to this router, at the neighbour's cost.
        for (near, far), more in costs.items():
            if far == router and near not in least:
                heapq.heappush(heap, (cost + more, near))
    return least


def by_networkx(costs, attached):
    """The same, from a node that stands behind all attached routers, along edges that are turned round."""
    graph = networkx.DiGraph()
    graph.add_weighted_edges_from([(far, near, cost) for (near, far), cost in costs.items()])
    graph.add_weighted_edges_from([(None.__class__, router, cost) for router, cost in attached.items()])
    graph.add_node(None.__class__)
    least = networkx.single_source_dijkstra_path_length(graph, None.__class__)
    return {router: cost for router, cost in least.items() if router is not None.__class__}


def distances(network, prefix):
    """What the distances of a network have to be, by its links and attachments as they are now."""
    costs = {}
    for link in network.links:
        if link.is_up:
            costs[link.a, link.b], costs[link.b, link.a] = link.cost, link.cost_back
    attached = {}
    for router in network.routers:
        cost = network.attachments(router).get(prefix)
        if cost:
            attached[router] = cost
    least = (by_networkx if networkx else by_hand)(costs, attached)
    return {router: least.get(router, math.inf) for router in network.routers}
