"""What include/mooringeye.h declares, read by the compiler's preprocessor: constants, structs and functions.

The tests that compare the header with something else use it.
"""
import re
import subprocess
import tempfile
from pathlib import Path
from typing import NamedTuple

ROOT = Path(__file__).resolve().parent.parent
HEADER = ROOT / "include/mooringeye.h"
WIDTHS = {"uint8_t": 1, "uint16_t": 2, "uint32_t": 4, "uint64_t": 8, "size_t": 8, "bool": 1}


class Parameter(NamedTuple):
    """`count` is None for a number, 0 for a pointer, and the elements of an array of a fixed size."""

    name: str
    type: str
    const: bool
    count: int | None

    def text(self) -> str:
        mark = "" if self.count is None else f" [{self.count}]" if self.count else " *"
        return ("const " if self.const else "") + self.type + mark


class Function(NamedTuple):
    name: str
    returns: str
    parameters: list[Parameter]

    def text(self) -> str:
        return f"{self.returns} ({', '.join(p.text() for p in self.parameters) or 'void'})"


class Interface(NamedTuple):
    constants: dict[str, int]
    structs: dict[str, list[str]]
    functions: dict[str, Function]


def preprocessed() -> str:
    """The header, and what it includes, without macros and comments, on one line."""
    words = ["cc", "-std=c11", "-E", "-P", str(HEADER)]
    text = subprocess.run(words, check=True, capture_output=True, text=True).stdout
    return re.sub(r"\b_Bool\b", "bool", " ".join(text.split()))


def parameter(text: str, constants: dict[str, int]) -> Parameter:
    found = re.fullmatch(r"(const )?(\w+) (\*?)(\w+)(?:\[(\w+)\])?", text.strip())
    if not found:
        raise ValueError(f"tests/interface.py cannot read the parameter {text!r}")
    const, kind, star, name, size = found.groups()
    count = None if not star and size is None else 0 if star else constants.get(size, 0) or int(size)
    return Parameter(name, kind, bool(const), count)


def read() -> Interface:
    text = preprocessed()
    constants = {}
    for body in re.findall(r"\benum \w*\s*\{(.*?)\}", text):
        for name, value in re.findall(r"(MOORINGEYE_\w+) = (\d+)", body):
            constants[name] = int(value)
    structs = {}
    for body, name in re.findall(r"typedef struct mooringeye_\w+ \{(.*?)\} (\w+);", text):
        structs[name] = re.findall(r"\b(\w+)(?:\[\w+\])?;", body)
    functions = {}
    for returns, name, inside in re.findall(r"(\w+) (mooringeye_\w+)\(([^()]*)\);", text):
        if returns == "return" or "->" in inside:
            continue  # a call in a body
        parts = [] if inside == "void" else inside.split(",")
        functions[name] = Function(name, returns, [parameter(p, constants) for p in parts])
    return Interface(constants, structs, functions)


def layouts(structs: dict[str, list[str]]) -> dict[str, str]:
    """Size and alignment of each struct, offset and size of each member, as the compiler says."""
    lines = []
    for name, members in structs.items():
        lines.append(f'printf("{name} size %zu align %zu\\n", sizeof({name}), _Alignof({name}));')
        for member in members:
            place = f"offsetof({name}, {member}), sizeof((({name} *)0)->{member})"
            lines.append(f'printf("{name}.{member} offset %zu size %zu\\n", {place});')
    program = f'#include "{HEADER}"\n#include <stdio.h>\nint main(void) {{ {" ".join(lines)} }}\n'
    with tempfile.TemporaryDirectory() as folder:
        (Path(folder) / "layouts.c").write_text(program)
        # The functions are not linked: none is called.
        words = ["cc", "-std=c11", "-O1", "layouts.c", "-o", "layouts"]
        subprocess.run(words, check=True, cwd=folder)
        out = subprocess.run(["./layouts"], check=True, cwd=folder, capture_output=True, text=True).stdout
    return dict(line.split(" ", 1) for line in out.splitlines())

