"""Faults of processes and hosts."""

import os
from functools import partial

from hourstable.versions import ROWS, ROWS_BEFORE

from ..services import Service
from ..world import MILLISECOND, SECOND, Host
from .base import Strike, kind
from .people import drain

DRAINED = 2.0  # seconds after a plane that ends was told so, after which a task is drained
MOVED = 5.0  # seconds after which that has no key: a third of what is left of a term of the job lease, or less
LOOKED_FOR = 4.0  # seconds in which a process that was overtaken hears of it


@kind
def strike_kill(strike: Strike) -> None:
    service = strike.any()
    if service.process is not None and not service.process.is_stalled:
        strike.tell(service.name)
        service.kill(strike.rng.choice((0.05, 1.0, strike.leases(1.5))))


def _may_crash(strike: Strike, host: Host) -> bool:
    processes = [it.process for it in strike.cluster.on(host) if it.process is not None]
    return not host.is_down and not host.is_asleep and not any(it.is_stalled for it in processes)


def _crash(strike: Strike, host: Host, seconds: float) -> None:
    """A host stands still for good: nobody is told. CLOCK_BOOTTIME begins anew at its boot, and real time may then be
    behind."""
    for service in strike.cluster.on(host):
        service.kill(None, silent=True)
    host.is_down = True

    def boot() -> None:
        host.boot(strike.rng.randrange(60_000) * MILLISECOND)
        if strike.rng.random() < 0.5:
            host.wall -= strike.rng.randrange(60 * SECOND)
        for service in strike.cluster.on(host):
            service.start()

    strike.lasts_for(seconds, boot)


@kind
def strike_crash(strike: Strike) -> None:
    """A host crashes and boots. Its disk has all that was written."""
    host = strike.any().host
    if _may_crash(strike, host):
        strike.tell(host.address)
        _crash(strike, host, strike.leases(3) * strike.rng.random() ** 2)


@kind
def strike_power(strike: Strike) -> None:
    """A host loses its power: its files lose what was not on the disk, or only mapped ones do. At times it boots in
    less than a second."""
    host = strike.any(*strike.rng.choice((("plane",), ("plane", "task")))).host
    if _may_crash(strike, host):
        strike.tell(host.address)
        seconds = strike.leases(3) * strike.rng.random() ** 2
        _crash(strike, host, strike.rng.choice((seconds, strike.rng.uniform(0.1, 1.0))))
        host.disk.lose_power(strike.world.now, strike.rng, strike.cluster.scene.keeps_lines)


@kind
def strike_failover(strike: Strike) -> None:
    """The plane that holds the job is lost, by a kill or with its host, while another one runs."""
    service = strike.cluster.holder("shop")
    if service is None or not _may_crash(strike, service.host):
        return
    silent = strike.rng.random() < 0.5
    strike.tell(f"{service.name} {'crashes' if silent else 'is killed'}")
    if silent:
        _crash(strike, service.host, strike.leases(2))
    else:
        service.kill(strike.leases(2))


@kind
def strike_hand_over(strike: Strike) -> None:
    """The plane that holds the job is asked to end, as by SIGTERM, while another one runs. It is started again. At
    times a task is drained just then, and asked to end soon after: it has no key any more, so nobody is denied."""
    service = strike.cluster.holder("shop")
    if service is None or not _ask_to_end(strike, service):
        return
    strike.tell(service.name)
    if strike.rng.random() < 0.5:
        number, host = strike.rng.choice(strike.cluster.scene.jobs[0].tasks), strike.any("client").host
        task = strike.cluster.services[f"task{number}"]
        ended = partial(strike.lasts_for, MOVED, lambda: _ask_to_end(strike, task))
        strike.world.after(DRAINED, lambda: drain(strike, "shop", number, host, ended))


def _ask_to_end(strike: Strike, service: Service) -> bool:
    """Asks a process to end, as by SIGTERM, if it runs. It is started again."""
    process = service.process
    if process is None or process.on_signal is None:
        return False
    strike.world.enter(process, process.on_signal)
    return True


@kind
def strike_turn(strike: Strike) -> None:
    """A plane is asked to end, as by SIGTERM, and started as one of the other release: all of them one after the
    other, and back."""
    cluster = strike.cluster
    planes = cluster.of("plane")
    service = planes[cluster.turns % len(planes)]
    form = ROWS_BEFORE if cluster.forms[service.name] == ROWS else ROWS
    cluster.forms[service.name], cluster.turns = form, cluster.turns + 1
    strike.tell(f"{service.name} is to read rows up to form {form}")
    process = service.process
    if process is not None and process.on_signal is not None:
        strike.world.enter(process, process.on_signal)


@kind
def strike_stop(strike: Strike) -> None:
    """A process stands still, as by SIGSTOP."""
    _stand_still(strike, strike.any())


@kind
def strike_freeze(strike: Strike) -> None:
    """A plane stands still, for longer than another one waits before it takes over."""
    service = strike.any("plane")
    if service.process is not None:
        process = service.process
        process.stop()
        strike.tell(service.name)
        strike.lasts_for(strike.rng.uniform(2, strike.leases(3)), process.go_on)


def _stand_still(strike: Strike, service: Service) -> None:
    process = service.process
    if process is not None:
        process.stop()
        strike.tell(service.name)
        strike.lasts(strike.leases(3), process.go_on)


@kind
def strike_sleep(strike: Strike) -> None:
    """A host is suspended: its CLOCK_MONOTONIC stands still, and its CLOCK_BOOTTIME does not."""
    host, begun = strike.any("task", "plane").host, strike.world.now
    processes = [it.process for it in strike.cluster.on(host) if it.process is not None]
    if host.is_asleep or host.is_down or not processes:
        return
    host.is_asleep, boots = True, host.boots
    for process in processes:
        process.stop()
    strike.tell(host.address)

    def wake() -> None:
        host.is_asleep = False
        if host.boots == boots:
            host.slept += strike.world.now - begun
        for service in strike.cluster.on(host):
            if service.process is not None and service.process not in processes:
                service.process.go_on()  # it was started meanwhile
        for process in processes:
            process.go_on()

    strike.lasts(strike.leases(3), wake)


@kind
def strike_stalls(strike: Strike) -> None:
    """Processes lose the processor in the middle of their code."""
    world = strike.world
    world.stall_every = strike.rng.choice((0.001, 0.01))
    world.stall_most = int(strike.rng.choice((0.05, 0.5, strike.leases(2))) * SECOND)
    strike.tell(f"{world.stall_every} of all readings and writes, up to {world.stall_most / SECOND} s")
    strike.lasts(4, lambda: setattr(world, "stall_every", 0.0))


@kind
def strike_term(strike: Strike) -> None:
    """A process is asked to end, as by SIGTERM. It is started again."""
    service = strike.any()
    process = service.process
    if process is not None and process.main is not None:
        strike.tell(service.name)
        strike.world.enter(process, process.on_signal or process.main.cancel)


def _start_wrongly(strike: Strike, how: str) -> None:
    service, cluster = strike.any("plane"), strike.cluster
    if service.process is None or service.process.is_stalled:
        return
    cluster.wrong[service.name] = how
    strike.tell(f"{service.name}: {how}")
    service.kill(0.1)

    def mend() -> None:
        cluster.wrong.pop(service.name, None)
        service.kill(0.1)

    strike.lasts(strike.leases(4), mend)


@kind
def strike_rogue(strike: Strike) -> None:
    """A plane is started with another secret, or something else listens in its place."""
    from ..strangers import KINDS as STRANGERS

    _start_wrongly(strike, strike.rng.choice(("401", "401", *STRANGERS)))


@kind
def strike_stranger(strike: Strike) -> None:
    """Something else listens in the place of a plane."""
    from ..strangers import KINDS as STRANGERS

    _start_wrongly(strike, strike.rng.choice(STRANGERS))


@kind
def strike_wrong_secret(strike: Strike) -> None:
    """A plane or a task is started with another secret."""
    if strike.rng.random() < 0.5:
        _start_wrongly(strike, "401")
        return
    service, cluster = strike.any("task"), strike.cluster
    if service.process is None or service.process.is_stalled:
        return
    cluster.wrong_secrets.add(service.name)
    strike.tell(service.name)
    service.kill(0.1)

    def mend() -> None:
        cluster.wrong_secrets.discard(service.name)
        service.kill(0.1)

    strike.lasts(strike.leases(2), mend)


@kind
def strike_second(strike: Strike) -> None:
    """A second process of a task runs on another host for a while."""
    _run_beside(strike, strike.any("again"))


@kind
def strike_beside(strike: Strike) -> None:
    """A second process of a task is started on its host, with its folders, again and again for a while."""
    _run_beside(strike, strike.any("beside"))


@kind
def strike_copy(strike: Strike) -> None:
    """The lock and the keys of a task are copied to the host of its second process, which may show them then. The
    tickets stay: those that were kept ahead would be drawn, and clocks would seem untimely."""
    number = strike.rng.choice(strike.cluster.scene.seconds)
    here, there = (strike.cluster.services[f"{it}{number}"].host.disk.folder for it in ("task", "again"))
    for path in sorted((here / "state").rglob(f"task-{number}.[kl]*")):
        made = there / path.relative_to(here)
        made.parent.mkdir(parents=True, exist_ok=True)
        made.write_bytes(path.read_bytes())  # a file that is there keeps its inode, as cp does
    strike.tell(f"task{number}")


@kind
def strike_share(strike: Strike) -> None:
    """The folder of a task is that of its second process as well, on another host, which starts just then, shows the
    keys in it, and gets the lock: that of the first process is lost."""
    number = strike.rng.choice(strike.cluster.scene.seconds)
    first, second = (strike.cluster.services[f"{it}{number}"] for it in ("task", "again"))
    if second.process is not None:
        return
    here, there = first.host.disk.folder, second.host.disk.folder
    for path in sorted((here / "state").rglob(f"task-{number}.[kl]*")):
        made = there / path.relative_to(here)
        made.parent.mkdir(parents=True, exist_ok=True)
        made.unlink(missing_ok=True)
        if path.suffix == ".lock":
            os.link(path, made)  # one inode
        else:
            made.write_bytes(path.read_bytes())
    first.host.disk.lose_lock(f"task-{number}.lock")
    _run_beside(strike, second)
    strike.look(LOOKED_FOR)


@kind
def strike_freeze_task(strike: Strike) -> None:
    """A task stands still, for longer than its leases last."""
    service = strike.any("task", "again")
    if service.process is not None:
        process = service.process
        process.stop()
        strike.tell(service.name)
        strike.lasts_for(strike.rng.uniform(1, strike.leases(2)), process.go_on)


def _run_beside(strike: Strike, service: Service) -> None:
    if service.process is not None:
        return
    service.is_wanted = True
    service.start()
    strike.tell(service.name)

    def leave() -> None:
        service.is_wanted = False
        service.kill(None)

    strike.lasts_for(strike.rng.uniform(1, strike.leases(3)), leave)
