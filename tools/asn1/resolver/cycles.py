"""Groups of nodes of a graph that reach one another."""

from __future__ import annotations

from collections.abc import Hashable
from typing import TypeVar

Node = TypeVar("Node", bound=Hashable)
Graph = dict[Node, list[Node]]  # from each node the nodes that it names


def groups_of(graph: Graph[Node]) -> dict[Node, Node]:
    """A node of each group, by the nodes of the group: two nodes are of one group if each reaches the other."""
    group: dict[Node, Node] = {}
    reverse: Graph[Node] = {}
    for node, others in graph.items():
        for other in others:
            reverse.setdefault(other, []).append(node)
    for start in reversed(in_order_of_leaving(graph)):
        if start in group:
            continue
        group[start] = start
        waiting = [start]
        while waiting:
            for other in reverse.get(waiting.pop(), []):
                if other not in group:
                    group[other] = start
                    waiting.append(other)
    return group


def in_order_of_leaving(graph: Graph[Node]) -> list[Node]:
    """All nodes, each after those that are first reached by it."""
    left: list[Node] = []
    seen: set[Node] = set()
    for start in graph:
        waiting = [] if start in seen else [(start, iter(graph[start]))]
        seen.add(start)
        while waiting:
            node, others = waiting[-1]
            following = next((other for other in others if other not in seen), None)
            if following is None:
                waiting.pop()
                left.append(node)
            else:
                seen.add(following)
                waiting.append((following, iter(graph.get(following, []))))
    return left
