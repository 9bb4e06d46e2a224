"""Runs a module of the package as a program: MODULE WORD..

A bug is put in if the variable CHAOS_BUG names one. At SIGUSR1 it writes to the file that CHAOS_LOOPS names which
loops of its supervisors run, and which have ended. Logs allocate little ahead, so that a disk is full soon.
"""

import json
import os
import signal
import sys
from importlib import import_module
from pathlib import Path

HERE = Path(__file__).resolve().parent
sys.path[:0] = [str(HERE), str(HERE.parents[1] / "python")]

from bugs import put_in  # noqa: E402

from hourstable import segments  # noqa: E402
from hourstable.supervisor import Supervisor  # noqa: E402

AHEAD = 512  # bytes that a log allocates at a time


def tell_loops(path: str) -> None:
    """Lets the process tell at SIGUSR1 which loops it has."""
    supervisors: list[Supervisor] = []
    begin = Supervisor.__init__

    def noted(self: Supervisor, *given: object, **named: object) -> None:
        begin(self, *given, **named)  # type: ignore[arg-type]
        supervisors.append(self)

    def tell(*_: object) -> None:
        loops = [(loop, where) for it in supervisors for loop, where in it._loops.items()]
        told = {
            "run": sorted(where for loop, where in loops if not loop.done()),
            "ended": sorted(where for loop, where in loops if loop.done()),
        }
        Path(f"{path}.new").write_text(json.dumps(told))
        os.replace(f"{path}.new", path)

    setattr(Supervisor, "__init__", noted)
    signal.signal(signal.SIGUSR1, tell)


if __name__ == "__main__":
    put_in(os.environ.get("CHAOS_BUG"))
    segments.SEGMENT = AHEAD
    if "CHAOS_LOOPS" in os.environ:
        tell_loops(os.environ["CHAOS_LOOPS"])
    del sys.argv[0]
    sys.exit(import_module(sys.argv[0]).main())
