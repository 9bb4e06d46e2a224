"""The command blocks of the pages are run, and print what the pages say.

A block fenced as ```sh is run. If a block fenced as ```text follows it, with nothing but blank lines between, that
is exactly what it prints on standard output and standard error together. If none follows, it must end with status 0.
A line `<!-- not run: REASON -->` directly above leaves a block out, with the text that follows it. A block fenced as
```python is not run, but must be Python. A block below a line `<!-- file: PATH -->` is that file, from the top of the
repository. An indented block that begins like a command fails.

The blocks of a page are run in order, in a copy of this checkout that is made for the page, as if they were typed
into one bash at the top of the repository: variables, the current directory and what runs in the background last from
block to block, and end with the page. Each block has 300 seconds. `/tmp/` in a block is a folder of this check, which
is removed when the page is done, and each `127.0.0.1:80NN` is an address with a port of its own.

No block proves, and none compiles Rattle. `hourstable`, `slicer_run` and `slicer_live` are on the PATH as they were
built (tools/built.py), and `hourstable-show` of this checkout; HOURSTABLE_BUILT names the folder of the former. `rt`
on that PATH is a stand-in, so that no kit is needed: `rt try` and `rt run` in the folder of a program run the built
program at once, with the arguments after `--`; all else fails.
"""
import ast
import difflib
import os
import re
import shutil
import signal
import socket
import subprocess
import sys
import tempfile
import time
from collections.abc import Iterator
from pathlib import Path

from built import PROGRAMS, Built
from pages import TOP, Fault, Fence, Page, Result, all_pages, repository_files

SECONDS = 300
KEPT: list[socket.socket] = []
NOT_RUN = re.compile(r"^not run: \S")
OF_FILE = re.compile(r"^file: (\S+)$")
ADDRESS = re.compile(r"\b127\.0\.0\.1:80\d\d\b")
OTHER_NAMES = {"bash", "shell", "console", "shell-session", "sh-session", "zsh"}
COMMANDS = (
    r"rt|hourstable(?:-show)?|slicer_run|slicer_live|python3?|gcc|g\+\+|cargo|rustc|go|git|cd|cp|mkdir|pip|curl"
    "|export"
)
LIKE_COMMAND = re.compile(
    rf"^(?: {{4,}}|\t)\(?(?:\$ )?(?:[A-Z_]+=\S+ )*"
    rf"(?:{COMMANDS}|[A-Z]+=\S+|\.ci/run|(?:tools|tests|bench)/[\w/-]+)(?: |$)"
)

SHOW = """#!/usr/bin/env bash
PYTHONPATH={top}/python exec {python} -B -m hourstable.show "$@"
"""
STAND_IN = """#!/usr/bin/env bash
name=$(basename "$PWD")
words=("${@:2}")
[ "${words[0]:-}" != -- ] || words=("${words[@]:1}")
case "${1:-} $name" in
  "try "* | "run "*) [ ! -x "out/$name" ] || exec "out/$name" "${words[@]}" ;;
esac
echo "rt $*: tests/docs/run does not run this in $name" >&2
exit 2
"""

# Runs the file $1, and keeps variables in $2 and the current directory in $3 for the next block.
RUN_BLOCK = """trap 'code=$?; env -0 >"$2"; pwd >"$3"; exit $code' EXIT
set -a
[ -z "$4" ] || set -eo pipefail
. "$1"
"""


class Copy:
    """A copy of the checkout with the built programs, in which the blocks of one page are run."""

    def __init__(self, room: Path, built: Built) -> None:
        self.room, self.top, self.temporary = room, room / "repository", room / "tmp"
        self.bin = room / "bin"
        self.folder = self.top
        self.addresses: dict[str, str] = {}
        self.left: list["subprocess.Popen[bytes]"] = []  # each leads a group, which may have processes that run
        for folder in (self.top, self.temporary, self.bin):
            folder.mkdir()
        for path in repository_files():
            target = self.top / path
            target.parent.mkdir(parents=True, exist_ok=True)
            shutil.copy2(TOP / path, target, follow_symlinks=False)
            if path.startswith("examples/") and not target.is_symlink():
                target.write_bytes(self.here(target.read_bytes().decode("latin-1")).encode("latin-1"))
        for name in PROGRAMS:
            for place in (self.top / f"crates/{name}/out/{name}", self.bin / name):
                place.parent.mkdir(parents=True, exist_ok=True)
                place.symlink_to(built.program(name))
        for name, text in (("rt", STAND_IN), ("hourstable-show", SHOW.format(top=self.top, python=sys.executable))):
            (self.bin / name).write_text(text)
            (self.bin / name).chmod(0o755)
        self.variables = {
            **os.environ,
            "PATH": f"{self.bin}:{os.environ['PATH']}",
            "HOURSTABLE_BUILT": str(built.folder),
            "TMPDIR": str(self.temporary),
            "LC_ALL": "C.UTF-8",
            "PYTHONDONTWRITEBYTECODE": "1",
        }

    def here(self, text: str) -> str:
        """A text with the addresses of this check in place of those of the page."""
        return ADDRESS.sub(lambda it: self.addresses.setdefault(it[0], f"127.0.0.1:{free_port()}"), text)

    def as_on_the_page(self, text: str) -> str:
        for shown, own in self.addresses.items():
            text = text.replace(own, shown)
        return text.replace(f"{self.temporary}/", "/tmp/")

    def end(self) -> None:
        """Ends all that the blocks left running."""
        while self.left:
            end_group(self.left.pop())

    def run(self, text: str, strict: bool) -> tuple[int | None, str]:
        """Runs a block: its status, None if time ran out, and what it printed."""
        block, variables, folder, said = (self.room / it for it in ("block", "variables", "folder", "said"))
        block.write_text(self.here(text).replace("/tmp/", f"{self.temporary}/"))
        words = ["bash", "--noprofile", "--norc", "-c", RUN_BLOCK, "bash"]
        words += [str(block), str(variables), str(folder), "yes" if strict else ""]
        with open(said, "wb") as output:
            ran = subprocess.Popen(
                words,
                cwd=self.folder,
                env=self.variables,
                stdin=subprocess.DEVNULL,
                stdout=output,
                stderr=subprocess.STDOUT,
                start_new_session=True,
            )
            self.left.append(ran)
            status = wait_for(ran, SECONDS)
        if folder.exists():
            self.folder = Path(folder.read_text().rstrip("\n"))
            pairs = (it.partition("=") for it in variables.read_text().split("\0") if it)
            self.variables = {name: value for name, _, value in pairs}
        return status, self.as_on_the_page(said.read_text(encoding="utf-8", errors="replace"))


def free_port() -> int:
    """Returns a port of 127.0.0.1 that is kept until this process ends: the kernel gives it to no connection, and a
    server that sets SO_REUSEADDR, as all of the pages do, listens at it."""
    kept = socket.socket()
    kept.setsockopt(socket.SOL_SOCKET, socket.SO_REUSEADDR, 1)
    kept.bind(("127.0.0.1", 0))
    KEPT.append(kept)
    return int(kept.getsockname()[1])


def wait_for(ran: "subprocess.Popen[bytes]", seconds: float) -> int | None:
    """Waits for a process, and returns its status, or None if time ran out. The process stays a zombie, so that no
    other group gets its number."""
    until = time.monotonic() + seconds
    options = os.WEXITED | os.WNOHANG | os.WNOWAIT
    while not (ended := os.waitid(os.P_PID, ran.pid, options)) and time.monotonic() < until:
        time.sleep(0.02)
    if ended is None:
        return None
    return ended.si_status if ended.si_code == os.CLD_EXITED else -ended.si_status


def end_group(leader: "subprocess.Popen[bytes]") -> None:
    os.killpg(leader.pid, signal.SIGKILL)
    leader.wait()


def is_run(fence: Fence) -> bool:
    return fence.language == "sh" and not NOT_RUN.match(fence.comment)


def text_after(page: Page, fence: Fence) -> Fence | None:
    """The ```text block that follows directly."""
    for other in page.fences:
        if other.line > fence.last and not any(it.strip() for it in page.lines[fence.last : other.line - 1]):
            return other if other.language == "text" else None
    return None


def misplaced(page: Page) -> Iterator[Fault]:
    """Blocks that look like commands or their output and would not be run, and Python that cannot be read."""
    after = {it.line for fence in page.fences if fence.language == "sh" and (it := text_after(page, fence))}
    for fence in page.fences:
        if fence.language in OTHER_NAMES:
            yield Fault(page.path, fence.line, f"fence commands as ```sh, not as ```{fence.language}")
        if fence.language == "python":
            try:
                compile(fence.text, page.path, "exec", flags=ast.PyCF_ALLOW_TOP_LEVEL_AWAIT)
            except SyntaxError as fault:
                yield Fault(page.path, fence.line + (fault.lineno or 0), fault.msg)
        if fence.language == "text" and fence.line not in after:
            why = "a ```text block stands directly after a ```sh block; fence other texts as ``` alone"
            yield Fault(page.path, fence.line, why)
        shown = OF_FILE.match(fence.comment)
        if shown and (not (TOP / shown[1]).is_file() or (TOP / shown[1]).read_text(encoding="utf-8") != fence.text):
            yield Fault(page.path, fence.line, f"the block is not the file {shown[1]}")
    above = ""
    for number, line in enumerate(page.prose.split("\n"), 1):
        if LIKE_COMMAND.match(line) and not above.strip():
            yield Fault(page.path, number, "an indented block of commands is not run: fence it as ```sh")
        above = line


def difference(expected: str, printed: str) -> str:
    old, new = expected.splitlines(), printed.splitlines()
    lines = difflib.unified_diff(old, new, "the page", "the commands", lineterm="", n=1)
    return "".join(f"\n    {it}" for it in lines)


def outcome(copy: Copy, page: Page, fence: Fence, text: Fence | None) -> list[Fault]:
    status, printed = copy.run(fence.text, strict=text is None)
    if status is None:
        return [Fault(page.path, fence.line, f"the commands did not end within {SECONDS} seconds")]
    if text and printed.rstrip("\n") != text.text.rstrip("\n"):
        return [Fault(page.path, fence.line, f"the commands print something else:{difference(text.text, printed)}")]
    if not text and status != 0:
        return [Fault(page.path, fence.line, f"status {status}:\n    " + printed[-1000:].replace("\n", "\n    "))]
    return []


def check_page(page: Page, built: Built) -> Iterator[Result]:
    with tempfile.TemporaryDirectory(prefix="docs.") as room:
        copy = Copy(Path(room).resolve(), built)
        try:
            for fence in filter(is_run, page.fences):
                yield Result(f"{page.path}:{fence.line}", outcome(copy, page, fence, text_after(page, fence)))
        finally:
            copy.end()


def check(built: Built) -> Iterator[Result]:
    """A result for each command block, and for each page whose blocks are as they should be."""
    for page in all_pages():
        yield Result(page.path, list(misplaced(page)))
        for fence in page.fences:
            if fence.language == "sh" and not is_run(fence):
                print(f"{page.path}:{fence.line}: {fence.comment}")
        if any(map(is_run, page.fences)):
            yield from check_page(page, built)
