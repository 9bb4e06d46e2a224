"""The codes, the functions with their parameters, the structs and the words of the header are those of
python/hourstable/library.py, and the codes those of docs/BINDINGS.md. hs_code_name names each code of the header. The
version of the header is that of the library. The function `minus` of docs/BINDINGS.md is the one that slicelets.c
tries.

Run at the top of the repository, with HOURSTABLE_LIBRARY set.
"""

import ctypes
import re
import sys
from typing import Any

sys.path.insert(0, "python")
from hourstable import library as hourstable  # noqa: E402

with open("include/hourstable.h", encoding="utf-8") as file:
    header = file.read()
with open("docs/BINDINGS.md", encoding="utf-8") as file:
    page = file.read()
with open("tests/c/slicelets.c", encoding="utf-8") as file:
    checks = file.read()
in_header = {name: int(number) for name, number in re.findall(r"HS_(\w+) = (-?\d+)", header.split("enum hs_kind")[0])}
in_python = {name: number for number, name in hourstable.CODES.items()}
in_page = {name: int(number) for number, name in re.findall(r"^\| (-?\d+) \| `HS_(\w+)`", page, re.M)}
named = {name: text for name, text in re.findall(r'case HS_(\w+):\s*return "HS_(\w+)";', header)}
version = tuple(map(int, re.findall(r"^#define HS_LIBRARY_(?:MAJOR|MINOR|PATCH) (\d+)$", header, re.M)))
version_text = re.findall(r'^#define HS_LIBRARY_VERSION "(.*)"$', header, re.M)
kinds, actions = ({word.lower(): int(number) for word, number in re.findall(r"HS_(\w+) = (\d+)", words)}
                  for words in re.findall(r"enum hs_(?:kind|action) \{(.*?)\}", header, re.S))

task_actions = re.findall(r"HS_(\w+) = \d+", header.split("enum hs_task_action {")[1].split("};")[0])
calls = {word.lower(): int(number) for word, number in re.findall(r"HS_CALL_(\w+) = (\d+)", header)}


def class_of(struct: str) -> Any:
    """Returns the class of a struct, such as KeyHandle for hs_key_handle."""
    return getattr(hourstable, "".join(map(str.capitalize, struct.split("_"))), None)


def member_of(c_type: str, length: str) -> Any:
    """Returns the Python type of a member of a struct."""
    struct = re.fullmatch(r"struct hs_(\w+) ", c_type)
    member = class_of(struct[1]) if struct else {
        "void *": ctypes.c_void_p, "uint64_t ": ctypes.c_uint64, "uint32_t ": ctypes.c_uint32,
        "int32_t ": ctypes.c_int32, "uint8_t ": ctypes.c_uint8,
    }[c_type]
    return member * int(length) if length else member


def parameter_of(c_type: str) -> Any:
    """Returns the Python type of a parameter."""
    struct = re.fullmatch(r"(?:const )?struct hs_(\w+) (\*?)", c_type)
    if struct:
        return ctypes.POINTER(class_of(struct[1])) if struct[2] else class_of(struct[1])
    return {
        "uint32_t ": hourstable.U32, "uint64_t ": hourstable.U64, "size_t ": hourstable.SIZE,
        "const uint8_t *": ctypes.c_char_p, "uint8_t *": ctypes.c_void_p, "const uint64_t *": ctypes.c_void_p,
        "uint32_t *": ctypes.POINTER(ctypes.c_uint32), "uint64_t *": ctypes.POINTER(ctypes.c_uint64),
        "size_t *": ctypes.POINTER(ctypes.c_size_t),
    }[c_type]


functions: dict[str, tuple[Any, list[Any]]] = {}
answers = {"int32_t": ctypes.c_int32, "uint64_t": ctypes.c_uint64, "void": None}
for answer, name, parameters in re.findall(r"^(int32_t|uint64_t|void) hs_(\w+)\(([^;]*)\);", header, re.M):
    c_types = [re.sub(r"\w+$", "", parameter.strip()) for parameter in parameters.split(",")]
    functions[name] = (answers[answer], [parameter_of(c_type) for c_type in c_types])
declared = {name: (function.restype, list(function.argtypes)) for name, function in (
    (name, getattr(hourstable.library, f"hs_{name}"))
    for name in [*hourstable.DECLARED, "library_version", "slice_key", "place_free"])}
structs = {}
for name, members in re.findall(r"^struct hs_(\w+) \{(.*?)^\};", header, re.M | re.S):
    found = re.findall(r"^    (u?int\d+_t |void \*|struct hs_\w+ )(\w+)(?:\[(\d+)\])?;", members, re.M)
    structs[name] = [(member, member_of(c_type, length)) for c_type, member, length in found]
faults = [what for what, same in [
    ("names of hs_code_name", named == {name: name for name in in_header}),
    ("codes in Python", in_python == in_header),
    ("codes in docs/BINDINGS.md", in_page == in_header),
    ("minus of docs/BINDINGS.md", any(
        "size_t minus(" in block and block in checks
        for block in re.findall(r"^```c\n(.*?)^```$", page, re.M | re.S))),
    ("functions in Python", set(declared) == set(functions)),
    ("version of the library", hourstable.library_version() == version),
    ("text of the version", version_text == [".".join(map(str, version))]),
    ("kinds in Python", hourstable.KINDS == kinds),
    ("actions in Python", hourstable.ACTIONS == {number: word for word, number in actions.items()}),
    ("task actions in Python", list(hourstable.TASK_ACTIONS)
     == [word.lower().replace("_", " ").removeprefix("task ") for word in task_actions]),
    ("calls in Python", hourstable.CALLS == calls),
    *[(f"parameters of {name} in Python", declared.get(name) == function) for name, function in functions.items()],
    *[(f"fields of {name} in Python", getattr(class_of(name), "_fields_", None) == fields)
      for name, fields in structs.items()],
] if not same]
for fault in faults:
    print(f"{fault}: not those of the header")
sys.exit(1 if faults else 0)
