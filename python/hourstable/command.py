"""The command hourstable-service."""

import argparse
import asyncio
import logging
import os
import resource
import signal
import ssl
import sys
from collections.abc import Sequence
from functools import partial
from pathlib import Path

from hourstable import capacity, context, installed, logs
from hourstable.assigner import AssignerOfJobs
from hourstable.auditing import Audit
from hourstable.callers import Callers, secrets_in, warn_if_open
from hourstable.clock import local_clock
from hourstable.desk import HttpDesk, Unreachable
from hourstable.limits import Limits
from hourstable.plans import Hysteresis, slices_in
from hourstable.recover import StillRuns, recover
from hourstable.service import ControlPlane, Options, process_number
from hourstable.store import (
    DEADLINE, Conflict, LivesSpent, NoSuchJob, StoreFailed, open_store, password_in,
)
from hourstable.tickets import NoTickets, Tickets

DEMO_SECONDS = 34
STORE = "HOURSTABLE_STORE"  # the variable with the URL of the store
OTHER_FILES = 256  # logs, connections of the store, and so on


def main(words: list[str] | None = None) -> int:
    """Runs the command, and returns its status: 0 if it did what was asked, 1 if an audit or the
    demo found a fault, 2 if the words or the input are refused, 3 if something failed."""
    chosen = parser().parse_args(words)
    level = logging.DEBUG if chosen.verbose else logging.INFO
    context.show(level)
    logging.getLogger("psycopg.pool").setLevel(logging.ERROR)  # what fails is told by the plane
    try:
        status: int = chosen.run(chosen)
        return status
    except (ValueError, BlockingIOError, FileNotFoundError) as error:
        print(f"hourstable-service: {error}", file=sys.stderr)
        return 2
    except (StoreFailed, Unreachable, OSError) as error:
        print(f"hourstable-service: {error}", file=sys.stderr)
        return 3


def parser() -> argparse.ArgumentParser:
    made = argparse.ArgumentParser(prog="hourstable-service", description=__doc__)
    made.add_argument("--verbose", action="store_true", help="tell more on standard error")
    subcommands = made.add_subparsers(required=True, metavar="COMMAND")
    _control_words(subcommands.add_parser("control", help="run a control plane"))
    _assigner_words(subcommands.add_parser("assigner", help="run an assigner beside the planes"))
    _drain_words(subcommands.add_parser("drain", help="let a task own no more keys"))
    _evict_words(subcommands.add_parser("evict", help="let another process of a task in"))
    _end_words(subcommands.add_parser("end", help="end a job"))
    _recover_words(subcommands.add_parser("recover", help="recover jobs whose store went back, as to a backup"))
    _doctor_words(subcommands.add_parser("doctor", help="say what ails a control plane, and what to do"))
    capacity.add_words(subcommands.add_parser("plan", help="say what a service of some size costs"))
    _audit_words(subcommands.add_parser("audit", help="audit the logs of a job"))
    _demo_words(subcommands.add_parser("demo", help="run a cache, break it, and audit it"))
    return made


def _store_words(words: argparse.ArgumentParser) -> None:
    store = words.add_mutually_exclusive_group()
    store.add_argument("--store", metavar="URL",
                       help="sqlite:FILE, postgresql://.., etcd://HOST:PORT,.. or etcds://.. without a password")
    store.add_argument("--store-file", metavar="FILE",
                       help=f"the first line is the URL; without both words it is that of ${STORE}")
    words.add_argument("--store-deadline", type=float, default=DEADLINE, metavar="SECONDS",
                       help=f"in which a call of the store is answered, or fails ({DEADLINE:g})")


def _control_words(words: argparse.ArgumentParser) -> None:
    words.set_defaults(run=_control)
    _store_words(words)
    words.add_argument("--listen", required=True, metavar="HOST:PORT")
    logged = words.add_mutually_exclusive_group(required=True)
    logged.add_argument("--logs", metavar="FOLDER", type=Path, help="for the logs of all jobs")
    logged.add_argument("--no-logs", action="store_const", const=None, dest="logs",
                        help="keep no logs: what this plane does cannot be audited")
    words.add_argument("--keep-logs", metavar="DAYS", type=int,
                       help="remove its logs after so many days, audited or not (never)")
    words.add_argument("--state", metavar="FOLDER", type=Path,
                       help="for the tickets of this process ($STATE_DIRECTORY, or else the one of the logs with"
                       " .state behind its name)")
    words.add_argument("--process", type=int, default=0, metavar="N",
                       help="its number among all planes and assigners, 0 to 63 (0)")
    shared = words.add_mutually_exclusive_group()
    shared.add_argument("--shared", action="store_true", default=None, dest="shared",
                        help="other planes may use the store (the default but for SQLite)")
    shared.add_argument("--alone", action="store_false", dest="shared",
                        help="no other plane uses the store")
    words.add_argument("--need-keys", action="store_true",
                       help="give no lease to lives that show no key, as those of tasks of versions up to 1.0")
    words.add_argument("--standby", type=float, default=2.0, metavar="SECONDS",
                       help="for how long another plane is silent before this one takes its jobs (2)")
    words.add_argument("--address", default="", metavar="URL",
                       help="at which callers and the other planes reach it (that of --listen)")
    words.add_argument("--assigner", type=int, default=1, metavar="N",
                       help="the number of its assigner, 0 for none (1)")
    _access_words(words)
    limits = Limits()
    words.add_argument("--most-jobs", type=int, default=limits.jobs, metavar="N")
    words.add_argument("--most-connections", type=int, default=limits.connections, metavar="N")
    words.add_argument("--most-connections-of-peer", type=int, default=limits.peer, metavar="N",
                       help="of one address (half of --most-connections)")
    words.add_argument("--grants", type=float, default=limits.grants, metavar="RATE",
                       help="grants a second of a task")
    _rule_words(words)


def _access_words(words: argparse.ArgumentParser) -> None:
    words.add_argument("--callers", metavar="FILE",
                       help="who may do what, in TOML: each caller has a role, and a secret or a certificate")
    words.add_argument("--secret-file", metavar="FILE",
                       help="each line is a secret of callers who may do everything")
    words.add_argument("--host", metavar="NAME", action="append", default=[],
                       help="by which callers reach the plane; again for each other one (addresses are always right)")
    words.add_argument("--tls-cert", metavar="FILE", help="its certificate: HTTPS")
    words.add_argument("--tls-key", metavar="FILE", help="the key of its certificate")
    words.add_argument("--tls-client-ca", metavar="FILE",
                       help="callers show a certificate of this authority; with a secret of --callers they need none")
    words.add_argument("--tls-peer-ca", metavar="FILE",
                       help="the authority of the other planes' certificates (--tls-client-ca, or else the system's)")


def _rule_words(words: argparse.ArgumentParser) -> None:
    rules = Hysteresis()
    words.add_argument("--settle", type=float, default=rules.settle, metavar="SECONDS",
                       help="after a commit, before a new task gets keys")
    words.add_argument("--rest", type=float, default=rules.rest, metavar="SECONDS",
                       help="after a commit, before loads alone move keys")


def _rules_in(chosen: argparse.Namespace) -> Hysteresis:
    return Hysteresis(settle=chosen.settle, rest=chosen.rest)


def _caller_words(words: argparse.ArgumentParser) -> None:
    words.add_argument("--control", required=True, action="append", metavar="URL",
                       help="a control plane; again for each other one")
    _identity_words(words)


def _identity_words(words: argparse.ArgumentParser) -> None:
    words.add_argument("--secret-file", metavar="FILE", help="the first line is the secret")
    words.add_argument("--tls-ca", metavar="FILE", help="the authority of the planes")
    words.add_argument("--tls-cert", metavar="FILE", help="the certificate to show")
    words.add_argument("--tls-key", metavar="FILE", help="the key of the certificate")


def _assigner_words(words: argparse.ArgumentParser) -> None:
    words.set_defaults(run=_assigner)
    _caller_words(words)
    words.add_argument("--assigner", type=int, required=True, metavar="N",
                       help="its number, which no other assigner has")
    words.add_argument("--process", type=int, required=True, metavar="N",
                       help="its number among all planes and assigners, 0 to 63")
    words.add_argument("--ticket", metavar="FILE", help="the file of its last ticket")
    _rule_words(words)


def _drain_words(words: argparse.ArgumentParser) -> None:
    words.set_defaults(run=_drain)
    _caller_words(words)
    words.add_argument("--wait", type=float, default=0.0, metavar="SECONDS",
                       help="wait so long until it owns no keys (0: do not wait)")
    words.add_argument("job")
    words.add_argument("task", type=int)


def _evict_words(words: argparse.ArgumentParser) -> None:
    words.set_defaults(run=_evict)
    _caller_words(words)
    words.add_argument("--favour", type=int, default=0, metavar="LIFE",
                       help="the life of a process that waits, which alone is let in then")
    words.add_argument("job")
    words.add_argument("task", type=int)


def _end_words(words: argparse.ArgumentParser) -> None:
    words.set_defaults(run=_end)
    _caller_words(words)
    words.add_argument("job")


def _recover_words(words: argparse.ArgumentParser) -> None:
    words.set_defaults(run=_recover)
    words.description = (
        "Run it after a backup of the store was put back, or a replica was promoted that lacked writes, and before"
        " any control plane runs. All that only rises is raised above what may have been answered, all keys of lives"
        " are void, and planes give no lease until those that may be out have ended."
    )
    _store_words(words)
    words.add_argument("jobs", nargs="*", metavar="JOB", help="what to recover (all jobs of the store)")


def _doctor_words(words: argparse.ArgumentParser) -> None:
    words.set_defaults(run=_doctor)
    words.description = (
        "Asks a control plane for all that shows whether it does its work, and changes nothing. The status is 1 if"
        " something is to be mended; what that is stands in lines that begin with MEND."
    )
    _identity_words(words)
    words.add_argument("url", metavar="URL", help="of the plane, as http://10.0.0.1:8070")


def _doctor(chosen: argparse.Namespace) -> int:
    from hourstable import doctor

    return doctor.run(chosen.url, secret_of(chosen), client_tls(chosen))


def _audit_words(words: argparse.ArgumentParser) -> None:
    words.set_defaults(run=_audit)
    words.add_argument("folder", type=Path, help="the logs of a job, or of all jobs")
    words.add_argument("--hourstable", metavar="PROGRAM",
                       help=f"the program; else that of ${installed.PROGRAM}, else the one that was"
                       " installed with this command, else hourstable in PATH")
    words.add_argument("--strict", action="store_true",
                       help="clocks that are not timely or break the drift are a fault, too")
    words.add_argument("--all", action="store_true", help="tell the first 20 wrong replies")
    words.add_argument("--drift", metavar="EXTRA/PER/GRAIN",
                       help="judge the samples of task clocks by this drift")
    words.add_argument("--from", type=Path, metavar="STATE", dest="begins",
                       help="go on from the state that earlier logs of the job left")
    words.add_argument("--until", type=Path, metavar="STATE",
                       help="save the state that the logs of the job leave, if they are one run")
    words.add_argument("--keep", type=int, metavar="DAYS",
                       help="if the logs are one run, keep those of today and so many days before, and the state that"
                       " older ones leave, from which the next audit goes on; remove the older ones")


def _demo_words(words: argparse.ArgumentParser) -> None:
    words.set_defaults(run=_demo)
    words.description = (
        "Runs a control plane, tasks that keep sessions in memory, and their clients on this"
        " machine. A task is killed, one is added, one is drained, and the control plane is gone"
        " for a while. At the end all that happened is audited."
    )
    words.add_argument("--store", choices=["sqlite", "postgresql", "etcd"], default="sqlite",
                       help="of the control plane; a server is started for it (sqlite)")
    words.add_argument("--page", action="store_true",
                       help="open the page of the control plane in a browser")
    words.add_argument("--plain", action="store_true", help="print a line a second, and no table")
    words.add_argument("--seconds", type=float, default=DEMO_SECONDS, metavar="N",
                       help=f"how long it lasts, without start and audit ({DEMO_SECONDS})")


def _demo(chosen: argparse.Namespace) -> int:
    from hourstable.demo import run

    return run.main(chosen.store, chosen.seconds, plain=chosen.plain, page=chosen.page)


def _control(chosen: argparse.Namespace) -> int:
    return asyncio.run(_run_control(chosen))


def options_of(chosen: argparse.Namespace) -> Options:
    """Returns the options of a control plane from the words of the command. Raises ValueError."""
    host, _, port = chosen.listen.rpartition(":")
    if not host or not port.isdigit():
        raise ValueError(f"{chosen.listen!r} is not HOST:PORT")
    if not chosen.store_deadline > 0:
        raise ValueError("--store-deadline is above 0")
    if chosen.keep_logs is not None and chosen.keep_logs < 1:
        raise ValueError("--keep-logs is a number of days, 1 or more")
    limits = Limits(
        jobs=chosen.most_jobs, connections=chosen.most_connections, peer=chosen.most_connections_of_peer,
        grants=chosen.grants, burst=2 * chosen.grants,
    )
    callers, tls = access_of(chosen)
    return Options(
        store_in(chosen), chosen.logs, host.strip("[]"), int(port),
        process=process_number(chosen.process), shared=chosen.shared, standby=chosen.standby,
        assigner=chosen.assigner, callers=callers, hosts=[host, *chosen.host],
        tls=tls, limits=limits, rules=_rules_in(chosen),
        store_deadline=chosen.store_deadline, state=chosen.state, keep_logs=chosen.keep_logs,
        address=chosen.address.rstrip("/"), peer_tls=peer_tls(chosen), needs_keys=chosen.need_keys,
    )


def store_in(chosen: argparse.Namespace) -> str:
    """Returns the URL of the store. Raises ValueError, also if a password stands where other users read it."""
    if chosen.store_file:
        warn_if_open(chosen.store_file)
        with open(chosen.store_file, encoding="utf-8") as file:
            return file.readline().strip()
    if chosen.store and password_in(chosen.store):
        raise ValueError(
            "other users of this host can read a password on a command line: put the URL into a file (--store-file)"
            f" or into ${STORE}"
        )
    url: str = chosen.store or os.environ.get(STORE, "")
    if not url:
        raise ValueError(f"say where jobs are stored: --store, --store-file or ${STORE}")
    return url


async def _run_control(chosen: argparse.Namespace) -> int:
    """Runs a control plane until the process is told to end."""
    ended, again, options = signalled(), hung_up(), options_of(chosen)
    raise_open_files(chosen.most_connections)
    running = ControlPlane(options)
    if not await running.start_unless(ended):
        return 0
    running.reload_at(again, partial(access_of, chosen))
    url = f"{'https' if options.tls else 'http'}://{chosen.listen.rpartition(':')[0]}:{running.port}"
    print(f"listening on {url}", flush=True)
    warn_of_callers(chosen)
    await ended.wait()
    await running.stop()
    return 0


def raise_open_files(connections: int) -> None:
    """Lets the process have so many connections open, and other files, if the system allows it."""
    least, most = resource.getrlimit(resource.RLIMIT_NOFILE)
    wanted = max(least, connections + OTHER_FILES)
    if most != resource.RLIM_INFINITY and wanted > most:
        logging.getLogger("hourstable").warning(
            "only %d files may be open, with %d connections: raise the limit (LimitNOFILE)", most,
            connections,
        )
        wanted = most
    resource.setrlimit(resource.RLIMIT_NOFILE, (wanted, most))


def signalled() -> asyncio.Event:
    """Returns what is set at SIGINT or SIGTERM from now on."""
    ended = asyncio.Event()
    for number in (signal.SIGINT, signal.SIGTERM):
        asyncio.get_running_loop().add_signal_handler(number, ended.set)
    return ended


def hung_up() -> asyncio.Event:
    """Returns what is set at SIGHUP from now on."""
    again = asyncio.Event()
    asyncio.get_running_loop().add_signal_handler(signal.SIGHUP, again.set)
    return again


def access_of(chosen: argparse.Namespace) -> tuple[Callers, ssl.SSLContext | None]:
    """Reads the callers of a plane, and its certificates. Raises OSError and ValueError."""
    callers = Callers.admins(secrets_in(chosen.secret_file)) if chosen.secret_file else Callers()
    if chosen.callers:
        callers += Callers.read(chosen.callers)
    return callers, server_tls(chosen, callers)


def warn_of_callers(chosen: argparse.Namespace) -> None:
    """Says at the start who may do everything, if that is more than the admins of --callers."""
    who = {
        "everybody who reaches the plane": not (chosen.callers or chosen.secret_file or chosen.tls_client_ca),
        "everybody with a secret of --secret-file": chosen.secret_file,
        "everybody with a certificate of --tls-client-ca":
            chosen.tls_client_ca and not (chosen.callers or chosen.secret_file),
    }
    for some in (some for some, is_so in who.items() if is_so):
        logging.getLogger("hourstable").warning("%s may do everything: give each caller a role by --callers", some)
    if (chosen.callers or chosen.secret_file) and not (chosen.tls_cert or is_loopback(chosen.listen)):
        logging.getLogger("hourstable").warning(
            "secrets of callers and of planes go over the network in the clear: use TLS (--tls-cert, --tls-key)"
        )


def is_loopback(listen: str) -> bool:
    """Whether nobody reaches HOST:PORT from another host."""
    host = listen.rpartition(":")[0].strip("[]")
    return host in ("localhost", "::1") or host.startswith("127.")


def server_tls(chosen: argparse.Namespace, callers: Callers) -> ssl.SSLContext | None:
    """Returns how the plane speaks TLS. With callers of --callers who are known by a secret, nobody has to show a
    certificate. Raises OSError and ValueError."""
    if callers.have_certificates() and not chosen.tls_client_ca:
        raise ValueError("a caller with a certificate needs --tls-client-ca, the authority of that")
    if not chosen.tls_cert:
        if chosen.tls_key or chosen.tls_client_ca:
            raise ValueError("--tls-key and --tls-client-ca go with --tls-cert")
        return None
    warn_if_open(chosen.tls_key or chosen.tls_cert)
    tls = ssl.SSLContext(ssl.PROTOCOL_TLS_SERVER)
    tls.minimum_version = ssl.TLSVersion.TLSv1_2
    tls.load_cert_chain(chosen.tls_cert, chosen.tls_key)
    if chosen.tls_client_ca:
        tls.load_verify_locations(chosen.tls_client_ca)
        is_optional = chosen.callers and callers.have_secrets()
        tls.verify_mode = ssl.CERT_OPTIONAL if is_optional else ssl.CERT_REQUIRED
    return tls


def peer_tls(chosen: argparse.Namespace) -> ssl.SSLContext | None:
    """Returns how a plane reaches the other planes of its store: it shows its own certificate."""
    if not chosen.tls_cert:
        return None
    tls = ssl.create_default_context(cafile=chosen.tls_peer_ca or chosen.tls_client_ca)
    tls.load_cert_chain(chosen.tls_cert, chosen.tls_key)
    return tls


def client_tls(chosen: argparse.Namespace) -> ssl.SSLContext | None:
    if not (chosen.tls_ca or chosen.tls_cert):
        return None
    tls = ssl.create_default_context(cafile=chosen.tls_ca)
    if chosen.tls_cert:
        tls.load_cert_chain(chosen.tls_cert, chosen.tls_key)
    return tls


def desk_of(chosen: argparse.Namespace, tickets: Tickets) -> HttpDesk:
    return HttpDesk(chosen.control, tickets, secret_of(chosen), client_tls(chosen))


def secret_of(chosen: argparse.Namespace) -> str | None:
    return secrets_in(chosen.secret_file)[0] if chosen.secret_file else None


def _assigner(chosen: argparse.Namespace) -> int:
    return asyncio.run(_run_assigner(chosen))


async def _run_assigner(chosen: argparse.Namespace) -> int:
    ended, tickets = signalled(), Tickets(process_number(chosen.process), chosen.ticket)
    desk = desk_of(chosen, tickets)
    jobs = AssignerOfJobs(chosen.assigner, desk, local_clock(), _rules_in(chosen))
    running, told = asyncio.create_task(jobs.run()), asyncio.create_task(ended.wait())
    try:
        await asyncio.wait({running, told}, return_when=asyncio.FIRST_COMPLETED)
        if running.done():
            running.result()
    finally:
        for one in (running, told):
            one.cancel()
        await asyncio.gather(running, told, return_exceptions=True)
        await desk.close()
        tickets.close()
    return 0


def _drain(chosen: argparse.Namespace) -> int:
    if not 1 <= chosen.task <= 64:
        raise ValueError("a task is 1 to 64")
    return asyncio.run(_run_drain(chosen))


async def _run_drain(chosen: argparse.Namespace) -> int:
    """Drains a task, and waits until it owns no key, if that is asked for."""
    desk = desk_of(chosen, NoTickets())
    loop = asyncio.get_running_loop()
    end = loop.time() + chosen.wait
    try:
        await desk.drain(chosen.job, chosen.task)
        while chosen.wait and chosen.task in owners_in(await desk.assignment(chosen.job)):
            if loop.time() > end:
                raise Unreachable(f"task {chosen.task} still owns keys")
            await asyncio.sleep(0.2)
    finally:
        await desk.close()
    return 0


def _evict(chosen: argparse.Namespace) -> int:
    if not 1 <= chosen.task <= 64:
        raise ValueError("a task is 1 to 64")
    return asyncio.run(_run_evict(chosen))


async def _run_evict(chosen: argparse.Namespace) -> int:
    """Evicts the life of a task that is let in, and says which it was."""
    desk = desk_of(chosen, NoTickets())
    try:
        life = await desk.evict(chosen.job, chosen.task, chosen.favour)
    finally:
        await desk.close()
    print(f"task {chosen.task}: {f'life {life} gets no more leases' if life else 'no life is let in'}")
    return 0


def _end(chosen: argparse.Namespace) -> int:
    return asyncio.run(_run_end(chosen))


async def _run_end(chosen: argparse.Namespace) -> int:
    """Ends a job, and waits until none of its leases lasts."""
    desk = desk_of(chosen, NoTickets())
    try:
        while True:
            state, after = await desk.end(chosen.job)
            if state == "ended":
                return 0
            await asyncio.sleep(max(0.1, after))
    finally:
        await desk.close()


def _recover(chosen: argparse.Namespace) -> int:
    return asyncio.run(_run_recover(chosen))


async def _run_recover(chosen: argparse.Namespace) -> int:
    """Recovers jobs, and says what is to be done then."""
    store = await open_store(store_in(chosen), chosen.store_deadline)
    try:
        recovered = await recover(store, chosen.jobs)
    except NoSuchJob as error:
        raise ValueError(f"there is no job {error}") from error
    except (StillRuns, Conflict, LivesSpent) as error:
        raise StoreFailed(str(error)) from error
    finally:
        await store.close()
    for job, seconds in recovered:
        print(f"{job}: recovered. Its planes give no lease for {seconds:g} s from their start on")
    return 0


def owners_in(assignment: bytes | None) -> set[int]:
    """Returns the tasks that own keys in the message of an assignment."""
    slices = slices_in(assignment) if assignment else []
    return {owner for _, owners in slices for owner in owners}


def _audit(chosen: argparse.Namespace) -> int:
    program = installed.program(chosen.hourstable)
    if not program:
        raise ValueError(
            f"there is no hourstable in PATH: say where by --hourstable or ${installed.PROGRAM}"
        )
    folders = [chosen.folder] if logs.files_of(chosen.folder) else sorted(
        path for path in chosen.folder.glob("*") if logs.files_of(path)
    )
    if not folders:
        raise ValueError(f"{chosen.folder} has no logs")
    if len(folders) > 1 and (chosen.begins or chosen.until):
        raise ValueError("a state is one of a job: name the folder of its logs")
    if chosen.keep is not None and (chosen.begins or chosen.until or chosen.keep < 0):
        raise ValueError("--keep takes a number of days, and finds and saves states by itself")
    options = _audit_options(chosen)
    return max(audit(folder, program, options, len(folders) > 1, chosen.keep) for folder in folders)


def _audit_options(chosen: argparse.Namespace) -> list[str]:
    options = [f"--{name}" for name in ("strict", "all") if getattr(chosen, name)]
    if chosen.drift:
        options += ["--drift", chosen.drift]
    for name, state in (("from", chosen.begins), ("until", chosen.until)):
        if state:
            options += [f"--{name}", str(state.absolute())]
    return options


def audit(
    folder: Path, program: str, options: Sequence[str], tell: bool, keep: int | None = None
) -> int:
    """Hands the logs of a job to the program, with its options, and returns its status; 1 if the logs lack calls."""
    if tell:
        print(f"{folder.name}:", flush=True)
    return Audit(folder, program, options).run(keep)


if __name__ == "__main__":
    sys.exit(main())
