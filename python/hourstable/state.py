"""Where a process keeps its state: the file of its tickets. It stands apart from logs, which may be moved away."""

import fcntl
import os
import shutil
from pathlib import Path

from hourstable.logs import folder_of
from hourstable.system import make_folder

FOLDER = "STATE_DIRECTORY"  # the variable by which systemd names the folder of a unit's state


def state_folder(given: str | os.PathLike[str] | None, logs: str | os.PathLike[str] | None) -> Path:
    """Returns the folder of state of a process, and makes it: the one that is given, or else that of systemd, or else
    the one beside its logs, with the ending `.state`. Raises ValueError if there is none of them, and OSError, which
    says how to name another one."""
    chosen = given or os.environ.get(FOLDER)
    if chosen:
        folder = Path(chosen)
    elif logs is not None:
        folder = Path(logs).absolute().with_name(f"{Path(logs).absolute().name}.state")
    else:
        raise ValueError("a process without logs needs a folder for its state (--state)")
    try:
        return make_folder(folder)
    except OSError as error:
        why = f"{error.strerror}; name a folder for the state of the process (--state)"
        raise type(error)(error.errno, why, str(folder)) from error


def kept_in(folder: Path, name: str, before: Path) -> Path:
    """Returns the path of a file of state. If it is not there, and the folder in which versions up to 1.0 kept it has
    one, that is moved. Raises BlockingIOError if another process uses it, and OSError."""
    path, old = folder / name, before / name
    if not path.exists() and old.is_file():
        with open(old, "rb") as file:
            fcntl.flock(file, fcntl.LOCK_EX | fcntl.LOCK_NB)
            shutil.move(old, path)
    return path


def tickets_in(
    state: str | os.PathLike[str] | None, logs: str | os.PathLike[str] | None, job: str, name: str
) -> Path | None:
    """Returns the path of the tickets of a task or a client of a job, in a folder of the job below that of state,
    which is made; None if there is neither a folder of state nor one of logs. Raises as `kept_in` does."""
    if state is None and logs is None:
        return None
    folder = make_folder(folder_of(state_folder(state, logs), job))
    return kept_in(folder, name, folder if logs is None else folder_of(logs, job))
