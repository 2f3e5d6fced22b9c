"""What a run of tools/fuzz found: faults as they come, and a table of the answers."""
import collections
import os
import shlex
import tempfile

from .. import problem
from . import beside, commands, inputs, working

MOST_FAULTS = 10


class Report:
    """Counts and faults of one seed; faults are kept in a folder."""

    def __init__(self, seed, folder):
        self.seed, self.folder = seed, folder
        self.counts, self.sorts, self.said, self.texts, self.faults = collections.Counter(), collections.Counter(), collections.Counter(), {}, 0

    def add(self, batch):
        self.counts.update(batch.counts)
        self.sorts.update(batch.sorts)
        self.said.update(batch.said)
        self.texts = beside.smallest(self.texts, batch.texts)
        for one in batch.found:
            if self.faults < MOST_FAULTS:
                self.tell(one)
            self.faults += 1

    def is_enough(self):
        """Whether so many faults were found that no more inputs need be tried."""
        return self.faults >= MOST_FAULTS

    def tell(self, one):
        """Prints a fault, and keeps its words and its texts."""
        self.folder = self.folder or tempfile.mkdtemp(prefix="tagymelur-fuzz-")
        problem.make_folder(self.folder)
        kept = os.path.join(self.folder, f"{self.seed}-{one.number}")
        shown = " ".join(shlex.quote(word.decode("utf-8", "backslashreplace")) for word in one.words)
        problem.write_bytes(f"{kept}.words", b"".join(word + b"\n" for word in one.words))
        problem.write_bytes(f"{kept}.src", one.text)
        problem.write_bytes(f"{kept}.small.src", one.shrunk)
        print(f"seed {self.seed}, input {one.number}, words '{shown}': {one.fault.sentence}; its text is {kept}.src, a smaller one {kept}.small.src", flush=True)

    def keep_texts(self):
        """Keeps the smallest sources of which a compiler says otherwise than the program."""
        if self.folder and self.texts:
            problem.write_bytes(os.path.join(self.folder, f"{self.seed}-beside.txt"), beside.sources(self.texts))

    def table(self):
        """How many answers there were of each status: by commands, then by kinds of inputs."""
        statuses = sorted({status for _, status in self.counts})
        rows = [["status", *statuses, "all"]]
        for counted, names in ((self.counts, [*[command.name for command in commands.COMMANDS], working.BY_CHANCE]), (self.sorts, inputs.SORTS)):
            for name in names:
                numbers = [counted[name, status] for status in statuses]
                rows += [[name, *map(str, numbers), str(sum(numbers))]] if any(numbers) else []
            rows.append(["" for _ in rows[0]])
        widths = [max(len(row[column]) for row in rows) for column in range(len(rows[0]))]
        return "".join("  ".join(cell.rjust(width) if column else cell.ljust(width) for column, (cell, width) in enumerate(zip(row, widths))).rstrip() + "\n" for row in rows)

    def total(self):
        return sum(self.counts.values())
