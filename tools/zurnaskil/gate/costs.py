"""What the gate costs: the figures that it keeps in `tests/gate/costs.json`, and the table of docs/CONTRIBUTING.md.

The figures are seconds: of each crate the processor's, of its proof, its tests and its edits; of each script those that pass while it runs.
A run leaves its own in `out/gate-costs.json`. `./check --costs --write` takes them over: what the run didn't try keeps its figure.
"""
import json

FILE, LAST = "tests/gate/costs.json", "out/gate-costs.json"
PAGE, BEGIN, END = "docs/CONTRIBUTING.md", "<!-- printed by: ./check --costs -->\n", "\n\n"
HEAD = "| Crate | Proof | Tests | Edits |\n|---|---|---|---|"
KINDS = ("proof", "tests", "edits")


class Costs:
    """Seconds of crates, by kind, and of scripts."""

    def __init__(self, crates, scripts):
        self.crates, self.scripts = crates, scripts

    @staticmethod
    def read(path):
        try:
            kept = json.loads(path.read_text(encoding="utf-8"))
        except OSError:
            return Costs({}, {})
        return Costs(kept["crates"], kept["scripts"])

    def write(self, path):
        path.parent.mkdir(exist_ok=True)
        lines = ['{"crates": {']
        lines.append(",\n".join(f"  {json.dumps(crate)}: {json.dumps(row)}" for crate, row in self.crates.items()))
        lines.append('}, "scripts": {')
        lines.append(",\n".join(f"  {json.dumps(name)}: {seconds}" for name, seconds in self.scripts.items()))
        path.write_text("\n".join([*lines, "}}"]) + "\n", encoding="utf-8")

    def of(self, crate, kind):
        return self.crates.get(crate, {}).get(kind, 0)

    def updated(self, crates, newer):
        """These figures of the crates that are there, and the newer ones where there are some."""
        rows = {crate: {} for crate in crates}
        for crate, row in rows.items():
            for kind in KINDS:
                if seconds := newer.of(crate, kind) or self.of(crate, kind):
                    row[kind] = seconds
        return Costs(rows, newer.scripts or self.scripts)

    def table(self):
        """The table of processor minutes."""
        lines, sums = [HEAD], dict.fromkeys(KINDS, 0)
        for crate, row in self.crates.items():
            cells = [f"{row[kind] / 60:.1f}" if row.get(kind) else "" for kind in KINDS]
            lines.append(f"| `{crate}` | {' | '.join(cells)} |")
            for kind in KINDS:
                sums[kind] += row.get(kind, 0) / 60
        return "\n".join([*lines, f"| all: {sum(sums.values()):.0f} | {' | '.join(f'{sums[kind]:.0f}' for kind in KINDS)} |"])


def write_page(top, costs):
    """Puts the table into its page."""
    text = (top / PAGE).read_text(encoding="utf-8")
    head, mark, rest = text.partition(BEGIN)
    (top / PAGE).write_text(head + mark + costs.table() + END + rest.partition(END)[2], encoding="utf-8")
