"""Runs a module of the package as a program, over the package in which this file is: MODULE WORD..

Processes of the demo are started by this path, so that they need no PYTHONPATH and find the same
package as the process that starts them.
"""

import runpy
import sys
from pathlib import Path

FOLDER = str(Path(__file__).resolve().parents[2])

if __name__ == "__main__":
    if FOLDER not in sys.path:
        sys.path.insert(0, FOLDER)
    del sys.argv[0]
    runpy.run_module(sys.argv[0], run_name="__main__", alter_sys=True)
