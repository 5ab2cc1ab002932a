"""What is printed and counted."""
import dataclasses
import pathlib

TOP = pathlib.Path(__file__).resolve().parents[3]
DEFINITION, TYPE, INTERFACE = "definition", "type", "interface"


@dataclasses.dataclass(eq=False)
class Piece:
    """A definition, a type with its model, or a trait or an impl with its clauses: where it stands, the comment before it, and its lines."""

    kind: str
    name: str
    path: pathlib.Path
    line: int
    comment: list[str]
    lines: list[str]

    def bare(self):
        """How many of its lines are no comment and not blank."""
        return sum(1 for line in self.lines if line.strip() and not line.strip().startswith(("--", "//")))

    def text(self):
        return "\n".join([f"-- [{self.path.relative_to(TOP)}:{self.line}]", *self.comment, *self.lines])
