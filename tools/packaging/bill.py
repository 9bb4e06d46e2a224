"""What is in the packages, as SPDX 2.3, and their checksums."""
import hashlib
import json
import re
import time
from pathlib import Path

import licences
import sources
from inputs import Inputs, epoch

NONE = "NOASSERTION"
SUMS = "SHA256SUMS"


def sha256(file: Path) -> str:
    return hashlib.sha256(file.read_bytes()).hexdigest()


def package(name: str, number: str | None, licence: str | None, comment: str, holder: str = NONE) -> dict[str, object]:
    told = {"SPDXID": f"SPDXRef-{re.sub('[^A-Za-z0-9.-]', '-', name)}", "name": name, "downloadLocation": NONE, "filesAnalyzed": False,
            "licenseConcluded": NONE, "licenseDeclared": licence or NONE, "copyrightText": holder, "comment": comment}
    return told | ({"versionInfo": number} if number else {})


def bill(inputs: Inputs, made: list[Path]) -> dict[str, object]:
    """One document: each package file is Hourstable, which holds crates of the kit. It names the sources by their digest,
    so that the commit which has the packages can have their bill too."""
    digest = hashlib.sha256("".join(sources.digests().values()).encode()).hexdigest()
    kit, number = licences.kit_name(), inputs.version
    files = [package(it.name, number, licences.OWN, f"made from the sources {digest}", licences.HOLDER) | {
        "packageFileName": it.name, "checksums": [{"algorithm": "SHA256", "checksumValue": sha256(it)}]} for it in made]
    crates = [package(f"{kit}-{it.name}", it.follows and f"after {it.follows}", it.licence(), f"a crate of {kit}")
              for it in licences.crates()]
    holds = [{"spdxElementId": file["SPDXID"], "relationshipType": "CONTAINS", "relatedSpdxElement": crate["SPDXID"]}
             for file in files for crate in crates]
    return {
        "spdxVersion": "SPDX-2.3", "dataLicense": "CC0-1.0", "SPDXID": "SPDXRef-DOCUMENT",
        "name": f"hourstable-{number}",
        "documentNamespace": f"https://hourstable.invalid/spdx/{number}/{digest}",
        "creationInfo": {"created": time.strftime("%Y-%m-%dT%H:%M:%SZ", time.gmtime(epoch())),
                         "creators": ["Tool: tools/package"]},
        "documentDescribes": [it["SPDXID"] for it in files],
        "packages": [*files, *crates], "relationships": holds,
    }


def write(inputs: Inputs, made: list[Path], out: Path) -> Path:
    """The bill, beside the packages."""
    told = out / f"hourstable-{inputs.version}.spdx.json"
    told.write_text(json.dumps(bill(inputs, made), indent=1, sort_keys=True) + "\n", encoding="utf-8")
    return told


def write_sums(files: list[Path], out: Path) -> Path:
    """The checksums of files, beside them."""
    sums = out / SUMS
    sums.write_text("".join(f"{sha256(it)}  {it.name}\n" for it in files), encoding="ascii")
    return sums
