"""Writes the C++ file of docs/BINDINGS.md: the one block that is fenced as ```cpp.

usage: extract.py PAGE FOLDER
"""
import re
import sys
from pathlib import Path


def main() -> int:
    page, folder = Path(sys.argv[1]), Path(sys.argv[2])
    blocks = re.findall(r"^```cpp\n(.*?)^```$", page.read_text(encoding="utf-8"), re.MULTILINE | re.DOTALL)
    if len(blocks) != 1:
        print(f"{page}: {len(blocks)} blocks are fenced as ```cpp; one whole file is wanted")
        return 1
    (folder / "place.hpp").write_text(blocks[0], encoding="utf-8")
    return 0


sys.exit(main())
