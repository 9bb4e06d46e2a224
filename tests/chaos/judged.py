"""What is judged of a run, and what the audit of its logs says."""

import contextlib
import io
from pathlib import Path
from typing import NamedTuple

from hourstable.auditing import Audit, gaps_of

FEWEST_WRITES = 10  # acknowledged; fewer show nothing


class Judged:
    """What was judged, and whether it held."""

    def __init__(self) -> None:
        self.passed = self.failed = 0

    def tell(self, what: str, holds: bool) -> None:
        self.passed += holds
        self.failed += not holds
        print(f"{what}: {'held' if holds else 'FAILED'}", flush=True)


class Found(NamedTuple):
    """What an audit says: of all calls, or of those before the first gap."""

    what: str
    said: str
    is_one: bool

    @property
    def is_timely(self) -> bool:
        return self.is_one and "\ntimely yes\n" in self.said


def audited(program: Path, folder: Path) -> Found:
    """Audits the logs of a job."""
    gaps, audit = gaps_of(folder), Audit(folder, str(program))
    if not gaps:
        with contextlib.redirect_stdout(io.StringIO()) as said:
            status = audit.run()
        return Found("audit one", said.getvalue(), status == 0 and said.getvalue().startswith("audit one\n"))
    first = min(gap.first for gap in gaps)
    verdict = audit.judged([], 0, first)
    lines = "".join(f"gap {gap}\n" for gap in gaps)
    return Found(f"{len(gaps)} gaps are named, and audit one before them", verdict.said + lines, verdict.is_one)
