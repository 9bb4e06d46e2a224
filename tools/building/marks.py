"""How a program or a library that was built without proof says so. This needs no kit."""
import subprocess
from pathlib import Path

# The section of each such file, which goes on into what is linked from it, and the file beside them.
SECTION = ".not_proved"
NOTE = "NOT-PROVED"
TEXT = "tools/build --unproved built the files in this folder from their sources. Nothing of them was proved.\n"


def has_section(file: Path) -> bool:
    said = subprocess.run(["readelf", "-SW", file], capture_output=True, text=True, check=True).stdout
    return SECTION in said.split()


def is_unproved(file: Path) -> bool:
    """Whether a program or a library says of itself that it is not proved, or a file beside it does."""
    return file.with_name(NOTE).exists() or has_section(file)
