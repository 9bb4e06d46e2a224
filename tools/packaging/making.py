"""Makes packages in a folder."""
import tempfile
from collections.abc import Iterator
from contextlib import contextmanager
from pathlib import Path

import bill
import library
import packs
from inputs import Inputs


@contextmanager
def libraries(inputs: Inputs) -> Iterator[Path]:
    """A folder with libhourstable.a and libhourstable.so, which were checked, as were the programs."""
    with tempfile.TemporaryDirectory(prefix="library.") as folder:
        built = Path(folder)
        library.check_archive(library.merge(inputs, built))
        shared = library.share(inputs, built)
        library.check_shared(shared)
        for it in (shared, *inputs.programs.values()):
            library.check_needs(it)
        yield built


def make(inputs: Inputs, out: Path) -> list[Path]:
    """The packages that this machine can make, with what is inside them, and checksums."""
    out.mkdir(parents=True, exist_ok=True)
    with libraries(inputs) as built:
        made = [pack(inputs, built, out) for pack in packs.can_be_made()]
    told = bill.write(inputs, made, out)
    return [*made, told, bill.write_sums([*made, told], out)]
