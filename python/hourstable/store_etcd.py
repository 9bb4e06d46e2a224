"""The store of jobs in etcd, by its JSON gateway."""

import base64
import json
import ssl
import urllib.parse
from collections import deque
from collections.abc import Sequence
from typing import Any

import aiohttp

from hourstable.store import (
    DEADLINE, TRIES, Conflict, Damaged, Holding, NoSuchJob, Store, Stored, StoreFailed, StoreRefused,
)
from hourstable.store_rows import Rows
from hourstable.system import SYSTEM, System
from hourstable.waiting import within

REFUSALS = (400, 401, 403, 404)  # statuses: it knows no such call, or not who asks


class EtcdStore(Store):
    """A store in some keys a job of etcd: /hourstable/policy/JOB, /hourstable/table/JOB, and others
    beside it, and one a plane: /hourstable/planes/PROCESS. A version is the revision at which the
    second was written.

    It asks one of the members, and another one after that one failed or was late."""

    name = "etcd"
    POLICY, TABLE, LIVES = "/hourstable/policy/", "/hourstable/table/", "/hourstable/lives/"
    EPOCH = "/hourstable/epoch"
    ASSIGNMENTS, HOLDER, RIGHTS = "/hourstable/assignments/", "/hourstable/holder/", "/hourstable/rights/"
    PLANES = "/hourstable/planes/"

    def __init__(
        self, members: Sequence[tuple[str, int]], tls: ssl.SSLContext | None = None,
        deadline: float = DEADLINE, system: System = SYSTEM,
    ) -> None:
        super().__init__(deadline, system)
        scheme = "http" if tls is None else "https"
        self._members = deque(f"{scheme}://{_host(name)}:{port}" for name, port in members)
        self._tls = tls
        self._rows = Rows()
        self._session: aiohttp.ClientSession | None = None

    async def _ask(self, call: str, body: dict[str, Any]) -> dict[str, Any]:
        if self._session is None:
            forever = aiohttp.ClientTimeout()  # each call has the deadline
            jar = aiohttp.DummyCookieJar()
            self._session = aiohttp.ClientSession(timeout=forever, cookie_jar=jar)
        member = self._members[0]
        try:
            async with self._session.post(
                f"{member}/v3/kv/{call}", data=json.dumps(body), ssl=self._tls
            ) as answer:
                text = await answer.read()
                if answer.status in REFUSALS:
                    raise StoreRefused(f"etcd: {answer.status} {text[:200]!r}")
                if answer.status != 200:
                    raise StoreFailed(f"etcd: {answer.status} {text[:200]!r}")
                told: dict[str, Any] = json.loads(text)
                return told
        except aiohttp.ClientConnectorCertificateError as error:
            self._leave(member)
            raise StoreRefused(f"etcd: {error!r}") from error
        except (aiohttp.ClientError, OSError, ValueError) as error:
            self._leave(member)
            raise StoreFailed(f"etcd: {error!r}") from error
        except BaseException:  # it is late: aiohttp closes the connection
            self._leave(member)
            raise

    def _leave(self, member: str) -> None:
        """Asks another member from now on."""
        if self._members[0] == member:
            self._members.rotate(-1)

    async def _read(self, call: str, body: dict[str, Any]) -> dict[str, Any]:
        return await self.in_time(self._asked_twice(call, body))

    async def _asked_twice(self, call: str, body: dict[str, Any]) -> dict[str, Any]:
        """Asks; again, and another member if there is one, if that fails or takes half of the
        time."""
        try:
            return await within(self.deadline / 2, self._ask(call, body))
        except (StoreFailed, TimeoutError):
            return await self._ask(call, body)

    async def _write(
        self, written: dict[str, str], compared: str, revision: int, also: Sequence[dict[str, object]] = ()
    ) -> int | None:
        """Writes keys if the compared one was written at this revision, 0 for never, and what is
        compared besides holds. Returns the revision of the write, None if it was not done."""
        told = await self.in_time(self._ask("txn", {
            "compare": [{
                "target": "MOD", "result": "EQUAL",
                "key": _base64(compared), "mod_revision": revision,
            }, *also],
            "success": [
                {"request_put": {"key": _base64(key), "value": _base64(value)}}
                for key, value in written.items()
            ],
        }))
        return int(told["header"]["revision"]) if told.get("succeeded") else None

    async def jobs(self) -> list[str]:
        body = {**self._all_of(self.TABLE), "keys_only": True}
        found = (await self._read("range", body)).get("kvs", [])
        return sorted(_text(one["key"]).removeprefix(self.TABLE) for one in found)

    async def create(self, job: str, policy: str, kept: bytes, rights: str = "") -> int:
        row = {
            self.POLICY + job: policy,
            self.TABLE + job: json.dumps({"kept": kept.decode(), "line": None}),
            self.LIVES + job: "{}",
            self.RIGHTS + job: rights,
        }
        version = await self._write(row, self.TABLE + job, 0)
        if version is None:
            raise Conflict(f"{job} has a row")
        return version

    async def load(self, job: str) -> Stored | None:
        keys = [it + job for it in (self.TABLE, self.POLICY, self.ASSIGNMENTS, self.HOLDER, self.RIGHTS)]
        told = await self._read("txn", {
            "success": [{"request_range": {"key": _base64(key)}} for key in keys]
        })
        found = [one["response_range"].get("kvs") for one in told["responses"]]
        if not found[0]:
            return None
        if not found[1]:
            raise Damaged(f"etcd: {job} has no key {self.POLICY}{job}")
        (table,), (policy,) = found[:2]
        version = int(table["mod_revision"])
        assignments, holder, rights = (_text(one[0].get("value", "")) if one else None for one in found[2:])
        try:
            row = json.loads(_text(table["value"]))
            kept, line = self._rows.whole(job, version, row["kept"], assignments), row["line"]
        except (ValueError, KeyError, TypeError, AttributeError) as error:
            raise Damaged(f"etcd: the value of {self.TABLE}{job} cannot be read: {error!r}") from error
        return Stored(version, _text(policy["value"]), kept, line, holder or "", rights or "")

    async def version(self, job: str) -> int | None:
        body = {"key": _base64(self.TABLE + job), "keys_only": True}
        found = (await self._read("range", body)).get("kvs")
        return int(found[0]["mod_revision"]) if found else None

    async def swap(
        self, job: str, version: int, kept: bytes, line: str | None, holding: Holding | None = None
    ) -> int:
        parts = self._rows.parts(job, kept)
        row = {self.TABLE + job: json.dumps({"kept": parts.rest, "line": line})}
        if not self._rows.has(job, version, parts):
            row[self.ASSIGNMENTS + job] = parts.assignments
        compared = list[dict[str, object]]()
        if holding is not None:
            row[self.RIGHTS + job] = holding.rights
            compared = [_is_text(self.HOLDER + job, holding.before)]
            if holding.holder != holding.before:
                row[self.HOLDER + job] = holding.holder
        written = await self._write(row, self.TABLE + job, version, compared)
        if written is None:
            raise Conflict(f"{job} is not of version {version}")
        self._rows.wrote(job, written, parts)
        return written

    async def recover(self, job: str, version: int, kept: bytes, lives: str, holding: Holding) -> None:
        """As a store does. The version is the revision of etcd, which only rises by what is written: a snapshot is
        restored with --bump-revision."""
        stored = await self.load(job)
        if stored is None:
            raise NoSuchJob(job)
        parts = self._rows.parts(job, kept)
        row = {
            self.TABLE + job: json.dumps({"kept": parts.rest, "line": stored.line}),
            self.ASSIGNMENTS + job: parts.assignments, self.LIVES + job: lives,
            self.HOLDER + job: holding.holder, self.RIGHTS + job: holding.rights,
        }
        compared = [_is_text(self.HOLDER + job, holding.before)]
        if await self._write(row, self.TABLE + job, version, compared) is None:
            raise Conflict(f"{job} is not of version {version}")

    async def read_lives(self, job: str) -> tuple[str, Any]:
        body = {"key": _base64(self.LIVES + job)}
        found = (await self._read("range", body)).get("kvs")
        if not found:
            raise NoSuchJob(job)
        return _text(found[0]["value"]), int(found[0]["mod_revision"])

    async def swap_lives(self, job: str, compared: Any, lives: str) -> bool:
        written = await self._write({self.LIVES + job: lives}, self.LIVES + job, compared)
        return written is not None

    async def beats(self) -> dict[int, str]:
        return self._beats_in(await self._read("range", self._all_of(self.PLANES)))

    async def beat(self, process: int, text: str) -> dict[int, str]:
        put = {"key": _base64(f"{self.PLANES}{process}"), "value": _base64(text)}
        told = await self.in_time(self._ask("txn", {
            "success": [{"request_put": put}, {"request_range": self._all_of(self.PLANES)}],
        }))
        return self._beats_in(told["responses"][1]["response_range"])

    def _beats_in(self, found: dict[str, Any]) -> dict[int, str]:
        rows = {_text(one["key"]).removeprefix(self.PLANES): _text(one["value"]) for one in found.get("kvs", [])}
        return {int(number): text for number, text in rows.items() if number.isdecimal()}

    def _all_of(self, prefix: str) -> dict[str, Any]:
        """Returns what asks for all keys that begin so."""
        return {"key": _base64(prefix), "range_end": _base64(prefix[:-1] + chr(ord("/") + 1))}

    async def draw_epoch(self, steps: int = 1) -> int:
        for _ in range(TRIES):
            found = (await self._read("range", {"key": _base64(self.EPOCH)})).get("kvs")
            before, revision = (int(_text(found[0]["value"])), int(found[0]["mod_revision"])) if found else (0, 0)
            if await self._write({self.EPOCH: str(before + steps)}, self.EPOCH, revision) is not None:
                return before + steps
        raise StoreFailed(f"etcd: other writers drew an epoch first {TRIES} times")

    async def close(self) -> None:
        session, self._session = self._session, None
        if session is not None:
            await session.close()


def _host(name: str) -> str:
    return f"[{name}]" if ":" in name else name


def _is_text(key: str, text: str) -> dict[str, object]:
    """Returns what compares the value of a key, which is not there if the text is empty."""
    if not text:
        return {"target": "CREATE", "result": "EQUAL", "key": _base64(key), "create_revision": 0}
    return {"target": "VALUE", "result": "EQUAL", "key": _base64(key), "value": _base64(text)}


def _base64(text: str) -> str:
    return base64.b64encode(text.encode()).decode()


def _text(encoded: str) -> str:
    return base64.b64decode(encoded).decode()


def etcd_of(
    url: urllib.parse.SplitResult, deadline: float = DEADLINE, system: System = SYSTEM
) -> EtcdStore:
    """Returns the store of etcd://HOST:PORT,.. or etcds://HOST:PORT,..?ca=FILE&cert=FILE&key=FILE.
    Raises ValueError, and StoreFailed if a file cannot be read."""
    members = [urllib.parse.urlsplit(f"//{member}") for member in url.netloc.split(",")]
    if url.path or url.fragment or not all(it.hostname and "@" not in it.netloc for it in members):
        raise ValueError("no members")
    files = dict(urllib.parse.parse_qsl(url.query, strict_parsing=bool(url.query)))
    if not files.keys() <= ({"ca", "cert", "key"} if url.scheme == "etcds" else set()):
        raise ValueError("other words")
    tls = _tls_of(files) if url.scheme == "etcds" else None
    hosts = [(str(it.hostname), it.port or 2379) for it in members]
    return EtcdStore(hosts, tls, deadline, system)


def _tls_of(files: dict[str, str]) -> ssl.SSLContext:
    try:
        tls = ssl.create_default_context(cafile=files.get("ca"))
        tls.minimum_version = ssl.TLSVersion.TLSv1_2
        if "cert" in files:
            tls.load_cert_chain(files["cert"], files.get("key"))
        return tls
    except OSError as error:
        raise StoreFailed(f"etcd: {error}") from error
