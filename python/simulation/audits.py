"""The audit of the logs of a run, by the program `hourstable`."""

import subprocess
from pathlib import Path

from hourstable import logs
from hourstable.auditing import gaps_of

SECONDS = 600  # that it may take


def gather(folder: Path, job: str) -> Path:
    """Copies the logs of a job from the disks of all hosts into one folder. Two processes of one task have files of
    one name on their hosts."""
    into = folder / "gathered" / job
    into.mkdir(parents=True, exist_ok=True)
    for path in sorted(folder.glob(f"10.*/{job}/*{logs.ENDING}")):
        made = into / path.name
        if made.exists():
            made = into / f"{path.parents[1].name.replace('.', '-')}-{path.name}"
        made.write_bytes(path.read_bytes())
    return into


def audit(folder: Path, job: str, program: str, must_be_timely: bool) -> str:
    """Audits the logs of a job, and returns what is wrong: nothing, if all its calls are one run and
    its clocks were timely, where they must be. Logs that say that lines are missing are no run."""
    gathered = gather(folder, job)
    files = logs.lay_out(gathered, folder / "audit" / job)
    if not files or gaps_of(gathered):
        return ""
    made = subprocess.run(
        [program, "audit", *map(str, files)], capture_output=True, text=True, timeout=SECONDS,
        check=False,
    )
    said = made.stdout.splitlines()
    is_one = made.returncode == 0 and any(line.startswith("audit one") for line in said)
    is_timely = "timely yes" in said
    if is_one and (is_timely or not must_be_timely):
        return ""
    told = (made.stdout + made.stderr).replace(f"{folder}/", "").strip().splitlines()
    return f"{job}: status {made.returncode}: " + "; ".join(told)[-500:]
