"""Fails tests where what they need is missing. `tools/setup tests` installs it."""

import os
import shutil

import pytest


def library() -> None:
    """Fails the module if the shared object of the library cannot be loaded."""
    try:
        import hourstable.library  # noqa: F401
    except OSError as error:
        pytest.fail(f"there is no library: {error}", pytrace=False)


def command(name: str) -> None:
    """Fails the test if there is no such command."""
    if shutil.which(name) is None:
        pytest.fail(f"there is no {name} (tools/setup tests)", pytrace=False)


def engine(kind: str) -> None:
    """Fails the test if the servers of a kind of store are not there."""
    from hourstable.demo import engines

    why = engines.missing(kind)
    if why:
        pytest.fail(why, pytrace=False)


def program() -> str:
    """Returns the program `hourstable`, or fails the test."""
    found = os.environ.get("HOURSTABLE_PROGRAM") or shutil.which("hourstable")
    if found is None:
        why = "there is no program hourstable: HOURSTABLE_PROGRAM says where it is"
        pytest.fail(why, pytrace=False)
    return found
