"""Disks of runs: small filesystems in memory that are filled. What is mounted is seen by this process and by those
that it starts, and goes with them."""

import errno
import os
import shutil
import subprocess
import sys
from pathlib import Path

ALONE = "CHAOS_MOUNTS"  # the variable that says that this process has mounts of its own
FILLING = "filling"  # the file that fills a disk
PAGE = 4096
WAYS = (["unshare", "--mount"], ["unshare", "--mount", "--map-root-user"])  # as root, and as anybody


def run_with_mounts() -> None:
    """Goes on in a process whose mounts nobody else sees. Exits if the system allows none."""
    if os.environ.get(ALONE):
        return
    for way in WAYS:
        trial = subprocess.run([*way, "mount", "-t", "tmpfs", "none", "/mnt"], capture_output=True, check=False)
        if trial.returncode == 0:
            os.environ[ALONE] = "1"
            os.execvp(way[0], [*way, sys.executable, *sys.argv])
    sys.exit("chaos: no filesystem can be mounted here, so no disk is ever full")


class Disk:
    """A filesystem at a folder, which is made."""

    def __init__(self, folder: Path, megabytes: int) -> None:
        self.folder = folder
        self.is_full = False
        folder.mkdir(parents=True)
        size = f"size={megabytes}m,mode=755"
        subprocess.run(["mount", "-t", "tmpfs", "-o", size, "none", str(folder)], check=True)

    def fill(self) -> None:
        """Takes all space that is left. What was allocated before still takes lines."""
        self.is_full = True
        with open(self.folder / FILLING, "ab") as file:
            while pages := _free_pages(self.folder):
                try:
                    os.posix_fallocate(file.fileno(), os.fstat(file.fileno()).st_size, pages * PAGE)
                except OSError as error:  # somebody else took some
                    if error.errno != errno.ENOSPC:
                        raise

    def empty(self) -> None:
        """Gives the space back."""
        (self.folder / FILLING).unlink(missing_ok=True)
        self.is_full = False

    def move_into(self, folder: Path) -> None:
        """Ends the filesystem, and moves its files into a folder of another one."""
        self.empty()
        shutil.copytree(self.folder, folder, dirs_exist_ok=True)
        subprocess.run(["umount", str(self.folder)], check=True)


def _free_pages(folder: Path) -> int:
    found = os.statvfs(folder)
    return found.f_bavail * found.f_frsize // PAGE
