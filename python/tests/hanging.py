"""A child process that answers as that of the package, but for commands that a file names.

    hanging.py FILE [--session] [PROGRAM WORDS..]

It hangs at a command whose first word stands in the file, gives no answer where a `!` stands behind the word, is so many seconds late where `~`
and their number do, and with the word `end` there it ends. Before it hangs it makes a file beside that one, whose name ends with its number."""

import os
import sys
import time
from collections.abc import Sequence
from pathlib import Path

sys.path.insert(0, str(Path(__file__).resolve().parent.parent))

from gdlsolve.solver.child import Answers, run
from gdlsolve.solver.faults import Ended
from gdlsolve.solver.replies import Reply


class Hanging(Answers):
    """Answers where a file does not say otherwise."""

    def __init__(self, held: Path, words: Sequence[str]):
        super().__init__(words)
        self.held = held

    def replies(self, batch: Sequence[Sequence[str]], rules: bytes) -> list[Reply]:
        held = self.held.read_text().split()
        if "end" in held:
            raise SystemExit(1)
        if any(f"{words[0]}!" in held for words in batch):
            raise Ended("no answer")
        if any(words[0] in held for words in batch):
            self.held.with_suffix(f".{os.getpid()}").touch()
            time.sleep(3600)
        late = dict(word.split("~") for word in held if "~" in word)
        time.sleep(max(float(late.get(words[0], 0)) for words in batch))
        return super().replies(batch, rules)


run(Hanging(Path(sys.argv[1]), sys.argv[2:]))
