"""The command hourstable-show: explains and draws scripts and logs, and tells the report of an audit.

It runs `hourstable trace`, or reads with --trace what that has written.
"""

from __future__ import annotations

import argparse
import gc
import subprocess
import sys
from collections.abc import Callable, Iterable
from pathlib import Path

from hourstable import installed

from . import pictures, report, sentences, views, viewer
from .trace import Trace, Unreadable, read

DONE, FAULT, REFUSED, FAILED = range(4)
STATUSES = """exit statuses:
  0  done; of logs: the calls are one run
  1  of logs: the calls are not one run; of a report with --strict also clocks that were not timely
  2  the arguments, the script or a log are refused, or a file cannot be opened
  3  reading or writing failed, or memory ran out"""
SCRIPT = "the script, a JSON array of a job line and steps; standard input if it is - or missing"
NO_PROGRAM = "there is no program hourstable: install the package, or set HOURSTABLE_PROGRAM"


class Refusal(Exception):
    """Words that are refused, with what is wrong."""


class Ended(Exception):
    """`hourstable trace` has failed with a status, and has said why."""

    def __init__(self, status: int) -> None:
        super().__init__(status)
        self.status = status


def main(words: list[str] | None = None) -> int:
    """Runs the command, and returns its status."""
    gc.disable()  # the values of a trace have no cycles, and a collection looks at all of them
    chosen = parser().parse_args(words)
    try:
        status: int = chosen.run(chosen)
        return status
    except Ended as ended:
        return ended.status
    except (Refusal, views.BadView) as why:
        return failed(why, REFUSED)
    except Unreadable as why:
        return failed(f"the trace cannot be read: {why}", FAILED)
    except BrokenPipeError:
        sys.stdout = open("/dev/null", "w", encoding="utf-8")  # noqa: SIM115 - nothing more is written at the exit
        return FAILED
    except OSError as why:
        return failed(f"{why.filename or 'write fault'}: {why.strerror or why}", FAILED)


def failed(why: object, status: int) -> int:
    print(f"hourstable-show: {why}", file=sys.stderr)
    return status


def parser() -> argparse.ArgumentParser:
    made = argparse.ArgumentParser(prog="hourstable-show", description=__doc__, epilog=STATUSES,
                                   formatter_class=argparse.RawDescriptionHelpFormatter)
    subcommands = made.add_subparsers(required=True, metavar="COMMAND")
    explain = subcommands.add_parser("explain", help="write replies with the reasons for them")
    explain.add_argument("--number", action="store_true",
                         help="begin each reply line of a script with the number of its element and its step")
    explain.add_argument("file", nargs="?", metavar="FILE", help=SCRIPT)
    explain.set_defaults(run=explained)
    _shown_words(explain, "of the requests of logs, those for this key alone")
    timeline = subcommands.add_parser("timeline", help="draw a picture, or write a page to look at")
    timeline.add_argument("file", nargs="?", metavar="FILE", help=SCRIPT)
    timeline.set_defaults(run=drawn)
    timeline.add_argument("--clerks", action="store_true", help="draw the clerks too")
    timeline.add_argument("--html", metavar="OUT",
                          help="write a page that zooms and searches, in place of an SVG picture")
    _shown_words(timeline, "colour the readings at which each task may serve this key")
    _report_words(subcommands.add_parser("report", help="tell whether the calls of logs are one run"))
    return made


def _source_words(words: argparse.ArgumentParser) -> None:
    words.add_argument("--trace", metavar="FILE",
                       help="read what `hourstable trace` has written; - is standard input")


def _shown_words(words: argparse.ArgumentParser, key: str) -> None:
    words.add_argument("--logs", nargs="+", metavar="LOG", action="extend",
                       help="show these logs in place of a script, as audit reads them; - is standard input")
    words.add_argument("--around", metavar="LOG:LINE",
                       help="of logs, the 50 calls before and after the one that stands at this line")
    words.add_argument("--readings", metavar="A..B",
                       help="of logs, the calls from the first to the last that reads a clock in this range")
    words.add_argument("--key", help=key)
    words.add_argument("--slice-key", metavar="NUMBER",
                       help="of logs, as --key, by the number that the key is hashed to")
    _source_words(words)


def _report_words(words: argparse.ArgumentParser) -> None:
    words.set_defaults(run=reported)
    words.add_argument("logs", nargs="*", metavar="LOG",
                       help="the logs; - is standard input. At least one begins with the job line")
    words.add_argument("--all", action="store_true", help="go on after a fault, and report up to 20")
    words.add_argument("--strict", action="store_true",
                       help="end with status 1 if the clocks were not timely or did not keep the drift, too")
    words.add_argument("--drift", metavar="EXTRA/PER/GRAIN",
                       help="judge the samples of task clocks by this drift, and report whether they keep it")
    words.add_argument("--from", dest="state", metavar="STATE",
                       help="a state that an earlier audit saved, to go on from")
    _source_words(words)


# SOURCES


def program() -> str:
    """Returns the program hourstable."""
    found = installed.program()
    if found is None:
        raise Refusal(NO_PROGRAM)
    return found


def traced(words: Iterable[str]) -> Trace:
    """Runs `hourstable trace` with words, and returns what it writes. What it says goes to standard error."""
    with subprocess.Popen([program(), "trace", *words], stdout=subprocess.PIPE) as running:
        assert running.stdout is not None
        try:
            found = read(running.stdout)
        except Unreadable:
            running.stdout.close()
            status = running.wait()
            if status in (REFUSED, FAILED):
                raise Ended(status) from None
            raise
    return found


def from_file(name: str) -> Trace:
    if name == "-":
        return read(sys.stdin.buffer)
    with open(name, "rb") as lines:
        return read(lines)


def trace_of(chosen: argparse.Namespace) -> Trace:
    """Returns the trace of what is to be shown: of logs, of a script, or one that was written."""
    keys = [*given("--key", chosen.key), *given("--slice-key", chosen.slice_key)]
    if chosen.trace:
        if keys or chosen.file or chosen.logs:
            raise Refusal("error: --trace is given alone: a trace has its key, and says what it is of")
        return from_file(chosen.trace)
    if chosen.logs:
        return traced([*keys, "--logs", *chosen.logs])
    return traced([*keys, *([chosen.file] if chosen.file else [])])


def given(option: str, value: str | None) -> list[str]:
    return [] if value is None else [f"{option}={value}"]


def check(chosen: argparse.Namespace, for_logs: tuple[str, ...]) -> None:
    """Refuses options that cannot be given together."""
    if chosen.logs and chosen.file:
        raise Refusal(f"error: {chosen.file} cannot be given with --logs")
    if not chosen.logs and not chosen.trace:
        for name in for_logs:
            if getattr(chosen, name.replace("-", "_")) is not None:
                raise Refusal(f"error: --{name} is for logs, and needs --logs")
    if chosen.slice_key is not None:
        if chosen.key is not None:
            raise views.BadView(f"--slice-key {chosen.slice_key}: it cannot be given with --key")
        views.slice_key_of(chosen.slice_key)


def window_of(trace: Trace, view: views.View) -> views.Window:
    window = views.window_of(trace, view)
    if window is None:
        raise Refusal("nothing to show: no call stands at that line, or no clock reads in that range")
    return window


def view_of(chosen: argparse.Namespace, logs: tuple[str, ...]) -> views.View:
    return views.view_of(logs, chosen.around, chosen.readings)


def with_window(
    chosen: argparse.Namespace, show: Callable[[Trace, views.Window], str]
) -> tuple[Trace, str]:
    """Returns a trace, and what is shown of the wanted calls. Words are refused before anything is read."""
    view = None if chosen.trace else view_of(chosen, tuple(chosen.logs or ()))
    trace = trace_of(chosen)
    if not trace.head.of_logs:
        if chosen.around or chosen.readings:
            raise Refusal("error: the trace is of a script, and --around and --readings are for logs")
        return trace, show(trace, views.Window(0, len(trace.calls)))
    view = view or view_of(chosen, trace.head.logs)
    return trace, show(trace, window_of(trace, view))


# COMMANDS


def status_of(trace: Trace) -> int:
    return DONE if trace.end.verdict == "one" else FAULT


def explained(chosen: argparse.Namespace) -> int:
    check(chosen, ("around", "readings", "slice-key", "key"))

    def show(trace: Trace, window: views.Window) -> str:
        if not trace.head.of_logs:
            return sentences.explained(trace, chosen.number)
        return report.explained(trace, pictures.shown_calls(trace, window)) + report.report(trace)

    trace, text = with_window(chosen, show)
    write(text)
    return status_of(trace)


def drawn(chosen: argparse.Namespace) -> int:
    check(chosen, ("around", "readings", "slice-key"))

    def show(trace: Trace, window: views.Window) -> str:
        if chosen.html:
            return viewer.page(trace, window)
        if not trace.head.of_logs:
            return pictures.script_picture(trace, chosen.clerks)
        return pictures.log_picture(trace, window, chosen.clerks)

    trace, text = with_window(chosen, show)
    if trace.end.verdict != "one":
        print(report.report(trace), end="", file=sys.stderr)
    if chosen.html:
        Path(chosen.html).write_text(text, encoding="utf-8")
    else:
        write(text)
    return status_of(trace)


def reported(chosen: argparse.Namespace) -> int:
    if chosen.trace:
        if chosen.logs or chosen.drift or chosen.state:
            raise Refusal("error: --trace is given alone: it says what it is of")
        trace = from_file(chosen.trace)
    elif chosen.logs:
        options = [*given("--drift", chosen.drift), *given("--from", chosen.state)]
        trace = traced(["--no-calls", *options, "--logs", *chosen.logs])
    else:
        raise Refusal("error: no log is given")
    if not trace.head.of_logs:
        raise Refusal("error: the trace is of a script, and a report is of logs")
    write(report.report(trace, chosen.all))
    end = trace.end
    is_late = end.untimely is not None or end.drift is not None and not end.drift["kept"]
    return FAULT if chosen.strict and is_late else status_of(trace)


def write(text: str) -> None:
    sys.stdout.buffer.write(text.encode("utf-8", "surrogateescape"))
    sys.stdout.buffer.flush()
