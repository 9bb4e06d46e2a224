"""The disks of simulated hosts: what a run sees of a file does not depend on the machine."""

import os
from pathlib import Path
from typing import Any

from simulation.disks import Disk

PROCESS: Any = None  # whose files they are
FLAGS = os.O_RDWR | os.O_CREAT


def identities(folder: Path) -> list[tuple[int, int]]:
    """Opens two files, one of them twice and once more after it was removed, and returns what the disk tells."""
    folder.mkdir()
    disk = Disk(folder, may_lose=False, allocates=True)
    made: list[tuple[int, int]] = []
    for name in ("a", "b", "a", "a"):
        if len(made) == 3:
            (folder / "a").unlink()
        file = disk.open(PROCESS, folder / name, FLAGS, 0o600)
        made.append(disk.identity(file))
        disk.close(file)
    return made


def test_inodes_are_those_of_the_run(tmp_path: Path) -> None:
    one = identities(tmp_path / "one")
    for number in range(20):
        (tmp_path / f"other-{number}").touch()
    assert identities(tmp_path / "two") == one
    assert one[2] == one[0] and len(set(one)) == 3


def test_a_file_that_was_there_before_has_one_of_its_own(tmp_path: Path) -> None:
    (tmp_path / "copied").touch()
    disk = Disk(tmp_path, may_lose=False, allocates=True)
    found = [disk.identity(disk.open(PROCESS, tmp_path / name, FLAGS, 0o600)) for name in ("copied", "new", "copied")]
    assert found[0] == found[2] != found[1]
