"""Writes YAML in dose's layout: each level is one blank further in, and values stand as they are.

dose quotes nothing, and its readers have regular expressions as often as a YAML library.
"""

from collections.abc import Sequence
from typing import Union

Value = Union[str, int, "Node", Sequence["Node"]]
Node = dict[str, Value]


def lines_of(node: Node, lead: str = "") -> list[str]:
    """The lines of a mapping, without their ends."""
    lines: list[str] = []
    add(lines, node, lead)
    return lines


def add(lines: list[str], node: Node, lead: str) -> None:
    """Adds the lines of a mapping."""
    for key, value in node.items():
        if isinstance(value, (str, int)):
            lines.append(f"{lead}{key}: {value}")
        elif isinstance(value, dict):
            lines.append(f"{lead}{key}:")
            add(lines, value, lead + " ")
        else:
            lines.append(f"{lead}{key}:")
            add_items(lines, value, lead + " ")


def add_items(lines: list[str], nodes: Sequence[Node], lead: str) -> None:
    """Adds the lines of a list of mappings."""
    for node in nodes:
        lines.append(lead + "-")
        add(lines, node, lead + " ")
