"""What was done to an interface, a line for each thing."""

from __future__ import annotations

from dataclasses import dataclass, field
from typing import Dict, List, NamedTuple, Set

from .tokens import Place

NOT_COMPARED, PARTLY, NO_EQUIVALENT, BARE = "not compared", "partly", "no equivalent", "bare"
ORDER = [NO_EQUIVALENT, PARTLY, NOT_COMPARED]


class Line(NamedTuple):
    """A line of a report."""

    kind: str
    place: Place
    text: str

    def __str__(self) -> str:
        return f"{self.place}: {self.kind}: {self.text}"


@dataclass
class Report:
    """The report of an interface. What is found while an operation is written is of this operation."""

    lines: List[Line] = field(default_factory=list)
    marks: Set[str] = field(default_factory=set)  # kinds that the thing that is written now has
    operations: Dict[str, Set[str]] = field(default_factory=dict)

    def add(self, kind: str, place: Place, text: str) -> None:
        """Adds a line, once."""
        line = Line(kind, place, text)
        if line not in self.lines:
            self.lines.append(line)
        self.marks.add(kind)

    def count(self, kind: str) -> int:
        """How many operations are of a kind: the worst of each counts."""
        worst = [next((k for k in [BARE, *ORDER] if k in marks), "whole") for marks in self.operations.values()]
        return worst.count(kind)

    def text(self, title: str) -> str:
        """The whole report: the sums, what has no equivalent, and then the rest in the order of the source."""
        sums = f"{len(self.operations) - self.count(BARE)} operations: {self.count('whole')} whole, {self.count(NOT_COMPARED)} whole without some comparison, " \
               f"{self.count(PARTLY)} in part, {self.count(NO_EQUIVALENT)} with a side that has no equivalent"
        ordered = sorted(self.lines, key=lambda line: (ORDER.index(line.kind) if line.kind in ORDER[:2] else 9, line.place.file, line.place.line, line.place.column))
        return "\n".join([f"{title}: {sums}", *map(str, ordered)]) + "\n"
