"""Runs a command where the folders HIDDEN are empty and there is no network but the loopback.

usage: unshare --mount --net python3 apart.py [--root] FOLDER HIDDEN.. -- COMMAND..

The command runs in FOLDER, with a PATH of the system's folders and no other variable of the caller. With --root it runs
in a root of its own: the system as it stands, over which everything that is written goes to memory.
"""
import fcntl
import os
import socket
import struct
import subprocess
import sys
from pathlib import Path

SIOCSIFFLAGS, IFF_UP, IFF_RUNNING = 0x8914, 0x1, 0x40
SYSTEM = {"PATH": "/usr/sbin:/usr/bin:/sbin:/bin", "LANG": "C.UTF-8", "PYTHONDONTWRITEBYTECODE": "1"}


def mount(*words: str) -> None:
    subprocess.run(["mount", *words], check=True)


def raise_loopback() -> None:
    with socket.socket(socket.AF_INET, socket.SOCK_DGRAM) as any_socket:
        fcntl.ioctl(any_socket, SIOCSIFFLAGS, struct.pack("16sH14x", b"lo", IFF_UP | IFF_RUNNING))


def make_root(folder: str) -> str:
    """A root whose writes are kept in memory, in which the folder is the same."""
    held = f"{folder}/root"
    os.makedirs(held, exist_ok=True)
    mount("-t", "tmpfs", "none", held)
    for name in ("upper", "work", "all"):
        os.mkdir(f"{held}/{name}")
    root = f"{held}/all"
    mount("-t", "overlay", "overlay", f"-olowerdir=/,upperdir={held}/upper,workdir={held}/work", root)
    for bound in ("/dev", "/proc"):
        mount("--rbind", bound, f"{root}{bound}")
    Path(f"{root}{folder}").mkdir(parents=True, exist_ok=True)
    mount("--bind", folder, f"{root}{folder}")
    return root


def main() -> None:
    words = sys.argv[1:]
    owns_root = words[0] == "--root"
    folder, *hidden = words[owns_root:words.index("--")]
    command = words[words.index("--") + 1:]
    mount("--make-rprivate", "/")
    root = make_root(folder) if owns_root else ""
    for place in hidden:
        mount("-t", "tmpfs", "none", f"{root}{place}")
    raise_loopback()
    if root:
        os.chroot(root)
    os.chdir(folder)
    os.execvpe(command[0], command, SYSTEM | {"HOME": folder})


main()
