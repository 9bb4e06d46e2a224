"""Fixtures: a store of each kind, over an engine that runs as long as the tests. In the gate, which
sets CI=true, a test that is skipped has failed, unless may-skip.txt names it."""

import functools
import os
import shutil
import subprocess
import tempfile
from collections.abc import AsyncIterator, Callable, Generator, Iterator
from contextlib import ExitStack, contextmanager
from pathlib import Path
from typing import Any

import pytest

import needed
from hourstable.demo import engines
from hourstable.store import Store
from stores import opened

KINDS = ("sqlite", "postgresql", "etcd")
MAY_SKIP = Path(__file__).with_name("may-skip.txt")
BUGS = Path(__file__).resolve().parents[2] / "examples/audit/bugs"
SETUP = Path(__file__).resolve().parents[2] / "tools/setup"


def pytest_runtest_makereport() -> Generator[None, Any, None]:
    made = yield
    fail_if_skipped(made.get_result())


def pytest_make_collect_report() -> Generator[None, Any, None]:
    made = yield
    fail_if_skipped(made.get_result())


for hook in (pytest_runtest_makereport, pytest_make_collect_report):
    pytest.hookimpl(hookwrapper=True)(hook)


def fail_if_skipped(report: pytest.TestReport | pytest.CollectReport) -> None:
    """Makes a report of a skip one of a failure in the gate."""
    if os.environ.get("CI") != "true" or not report.skipped or hasattr(report, "wasxfail"):
        return
    if report.nodeid.partition("[")[0] not in may_skip():
        report.outcome = "failed"
        report.longrepr = f"the gate skips no test: {report.longrepr}\n{lacking_packages()}"


@functools.cache
def may_skip() -> set[str]:
    """Returns the tests that the gate lets be skipped: each line names one, and says why."""
    lines = MAY_SKIP.read_text(encoding="utf-8").splitlines()
    return {line.split()[0] for line in lines if line and not line.startswith("#")}


@functools.cache
def lacking_packages() -> str:
    words = [str(SETUP), "--missing", "tests"]
    ran = subprocess.run(words, stdout=subprocess.PIPE, text=True, check=False)
    return f"packages of Debian that tests lack: {', '.join(ran.stdout.split()) or 'none'}"


@contextmanager
def folder_for_engines() -> Iterator[Path]:
    """A folder that other users may enter, as PostgreSQL does not run as root."""
    top = Path(tempfile.mkdtemp(prefix="hourstable-engines."))
    top.chmod(0o755)
    try:
        yield top
    finally:
        shutil.rmtree(top, ignore_errors=True)


@pytest.fixture(scope="session")
def running() -> Iterator[Callable[[str], str]]:
    """Returns the URL of an engine of a kind, which is started when it is first asked for."""
    with ExitStack() as stack:
        top = stack.enter_context(folder_for_engines())
        urls: dict[str, str] = {}

        def url_of(kind: str) -> str:
            needed.engine(kind)
            if kind not in urls:
                urls[kind] = stack.enter_context(engines.STARTS[kind](top / kind)).url
            return urls[kind]

        yield url_of


@pytest.fixture(params=KINDS)
def url(request: pytest.FixtureRequest, running: Callable[[str], str], tmp_path: Path) -> str:
    """The URL of a store of each kind."""
    if request.param == "sqlite":
        return f"sqlite:{tmp_path}/jobs.sqlite"
    return running(request.param)


@pytest.fixture
async def store(url: str) -> AsyncIterator[Store]:
    async with opened(url) as made:
        yield made


@pytest.fixture(scope="session")
def bug_logs(tmp_path_factory: pytest.TempPathFactory) -> Path:
    """Plays a story on the service of examples/audit for each of its bugs, and returns the folder of their logs."""
    from showing import stored_texts

    folder = tmp_path_factory.mktemp("bugs")
    words = [str(BUGS), "--jobs", "2", "--logs", str(folder), "--hourstable", needed.program()]
    names = list(stored_texts("bugs.txt"))
    ran = subprocess.run([*words, *names], capture_output=True, text=True, check=False, timeout=300)
    assert ran.returncode == 0, ran.stdout + ran.stderr
    return folder


@pytest.fixture
async def file(tmp_path: Path) -> AsyncIterator[Store]:
    """A store in a file of SQLite."""
    async with opened(f"sqlite:{tmp_path}/jobs.sqlite") as made:
        yield made


@pytest.fixture
def job(request: pytest.FixtureRequest) -> str:
    """A name that no other test uses: engines outlast tests."""
    job.number = getattr(job, "number", 0) + 1  # type: ignore[attr-defined]
    return f"job-{job.number}"  # type: ignore[attr-defined]


@pytest.fixture
def certificates(tmp_path: Path) -> Path:
    """An authority, and a certificate of it for a plane and for a caller."""
    needed.command("openssl")

    def run(*words: str) -> None:
        subprocess.run(["openssl", *words], cwd=tmp_path, check=True, capture_output=True)

    run("req", "-x509", "-newkey", "rsa:2048", "-nodes", "-keyout", "ca.key", "-out", "ca.pem",
        "-subj", "/CN=authority", "-days", "2")
    (tmp_path / "names").write_text("subjectAltName=IP:127.0.0.1\n")
    for name in ("plane", "caller"):
        run("req", "-newkey", "rsa:2048", "-nodes", "-keyout", f"{name}.key", "-out", f"{name}.csr",
            "-subj", f"/CN={name}")
        run("x509", "-req", "-in", f"{name}.csr", "-CA", "ca.pem", "-CAkey", "ca.key",
            "-CAcreateserial", "-out", f"{name}.pem", "-days", "2", "-extfile", "names")
    return tmp_path
