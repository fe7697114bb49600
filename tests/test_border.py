"""The calls as Rattle exports them, as the header declares them and as the package does: the same parameters and answers.

Nothing else holds the three together. A parameter is written `NAME TYPE`, with `const` where the call only reads it; an answer is
the numbers of its struct, in their order, an array with how many it has.
"""

import re
import sys
import unittest
from ctypes import Structure
from math import prod
from pathlib import Path

ROOT = Path(__file__).resolve().parent.parent
sys.path.insert(1, str(ROOT / "python"))

from reserving_desk import library

HEADER = (ROOT / "include" / "desk.h").read_text()
SOURCES = "\n".join(path.read_text() for crate in ("telling", "desk") for path in sorted((ROOT / "crates" / crate / "src").glob("*.rt")))

Call = tuple[list[str], list[str]]  # parameters, and the numbers of the answer


def split(parameters: str) -> list[str]:
    return [" ".join(parameter.split()) for parameter in parameters.split(",") if parameter.strip(" \n") not in ("", "void")]


def calls_of_rattle() -> dict[str, Call]:
    found = re.findall(r"pub extern \"C\" fn (\w+)(?:<'a>)?\((.*?)\)(?: -> (\w+))?\n", SOURCES, re.DOTALL)
    structs = dict(re.findall(r"#\[repr\(C\)\]\n(?:#\[[^\n]*\]\n)*pub struct (\w+) \{\n(.*?)\}", SOURCES, re.DOTALL))
    fields = {name: [(field, rattle_kind(kind)) for field, kind in re.findall(r"pub (\w+): ([^,]+),", structs[name])] for name in structs}
    return {name: (rattle_parameters(parameters), numbers(answer, fields)) for name, parameters, answer in found}


def rattle_kind(kind: str) -> str:
    """`u64`, or of an array `u64[31]`."""
    return re.sub(r"\[(\w+); (\d+)\]", r"\1[\2]", kind)


def rattle_parameters(parameters: str) -> list[str]:
    """A slice is two parameters to C, where it starts and how long it is: `length`, or where there are two of them `NAME_length`."""
    written, slices = [], re.findall(r"\[\w+\]", parameters)
    for name, kind in (parameter.split(": ") for parameter in split(parameters)):
        borrow, element, count = re.fullmatch(r"(&(?:'a )?(?:mut )?)?\[?(\w+)(?:; (\d+))?\]?", kind).groups()
        read_only = "const " if borrow and "mut" not in borrow else ""
        written.append(f"{name} {read_only}{element}" + (f"[{count}]" if count else "*" if borrow else ""))
        written += [f"{name}_length usize" if len(slices) > 1 else "length usize"] if borrow and not count else []
    return written


def numbers(answer: str, fields: dict[str, list[tuple[str, str]]]) -> list[str]:
    """The fields of a struct, those of a struct inside it in its place; or one number, by its type."""
    if answer in C_TYPES.values():
        return [answer]
    found = []
    for name, kind in fields.get(answer, []):
        found += [f"{name}.{number}" for number in numbers(kind, fields)] if kind in fields else [f"{name} {kind}"]
    return found


C_TYPES = {"uint64_t": "u64", "int64_t": "i64", "uint8_t": "u8", "size_t": "usize"}


def in_rattle(c_text: str) -> str:
    return re.sub(r"\b(?:u?int\d+|size)_t\b", lambda found: C_TYPES[found[0]], c_text)


def calls_of_the_header() -> dict[str, Call]:
    found = re.findall(r"^(\w+) (desk_\w+)\(([^)]*)\);", HEADER, re.MULTILINE)
    structs = re.findall(r"typedef struct (desk_\w+) \{\n(.*?)\}", HEADER, re.DOTALL)
    fields = {name: header_fields(in_rattle(body)) for name, body in structs}
    return {name: (header_parameters(parameters), numbers(in_rattle(answer), fields)) for answer, name, parameters in found}


def header_fields(body: str) -> list[tuple[str, str]]:
    """C lays rows of an array out one behind another: `matrix[31][31]` is one of 961 numbers."""
    found = []
    for kind, name, counts in re.findall(r"^ +(\w+) (\w+)((?:\[\d+\])*);", body, re.MULTILINE):
        sizes = [int(size) for size in re.findall(r"\d+", counts)]
        found.append((name, f"{kind}[{prod(sizes)}]" if sizes else kind))
    return found


def header_parameters(parameters: str) -> list[str]:
    written = []
    for parameter in split(in_rattle(parameters)):
        kind, pointer, name, count = re.fullmatch(r"((?:const )?\w+) (\*?)(\w+)(\[\d+\])?", parameter).groups()
        written.append(f"{name} {kind}{count or pointer}")
    return written


CTYPES = {"c_ulong": "u64", "c_long": "i64", "c_ubyte": "u8"}  # by the names that ctypes has on x86-64


def calls_of_the_package() -> dict[str, list[str]]:
    """The types alone: ctypes has no names for parameters, and no const."""
    return {name: [ctypes_name(kind) for kind in parameters] for name, (_, parameters) in library.FUNCTIONS.items()}


def ctypes_name(kind: type) -> str:
    if kind is library.c_char_p:
        return "u8*"
    target = kind._type_
    if isinstance(target, str):
        return CTYPES[kind.__name__]
    return field_name(target) if hasattr(target, "_length_") else f"{CTYPES[target.__name__]}*"


def structure_numbers(answer: type | None) -> list[str]:
    if answer and not issubclass(answer, Structure):
        return [CTYPES[answer.__name__]]
    found = []
    for name, kind in answer._fields_ if answer else ():
        inside = structure_numbers(kind) if issubclass(kind, Structure) else []
        found += [f"{name}.{number}" for number in inside] or [f"{name} {field_name(kind)}"]
    return found


def field_name(kind: type) -> str:
    return f"{CTYPES[kind._type_.__name__]}[{kind._length_}]" if hasattr(kind, "_length_") else CTYPES[kind.__name__]


def bare(parameter: str) -> str:
    """The type alone, as ctypes has it: a length is a number of 64 bits."""
    kind = parameter.split(" ", 1)[1].removeprefix("const ")
    return "u64" if kind == "usize" else kind


class Border(unittest.TestCase):
    maxDiff = None

    def test_there_are_calls(self) -> None:
        self.assertGreaterEqual(len(calls_of_rattle()), 9)
        self.assertEqual(len(calls_of_rattle()), SOURCES.count("#[unsafe(no_mangle)]"))

    def test_what_the_header_lends(self) -> None:
        """Each field of a session stands at the place of its name, and what else a call is given behind them."""
        lent = re.findall(r"\b(desk_\w+_lent)\((s->[^;]*)\);", HEADER)
        self.assertEqual({name for name, _ in lent}, {name for name in calls_of_rattle() if name.endswith("_lent")})
        for name, arguments in lent:
            fields = [argument.removeprefix("s->") for argument in split(arguments) if argument.startswith("s->")]
            parameters = [parameter.split()[0] for parameter in calls_of_rattle()[name][0]]
            self.assertEqual(fields, parameters[: len(fields)], name)
            self.assertTrue(set(fields).isdisjoint(parameters[len(fields) :]), name)

    def test_the_header(self) -> None:
        self.assertEqual(calls_of_the_header(), calls_of_rattle())

    def test_the_package(self) -> None:
        rattle = calls_of_rattle()
        self.assertEqual(calls_of_the_package(), {name: [bare(text) for text in rattle[name][0]] for name in rattle})
        answers = {name: structure_numbers(answer) for name, (answer, _) in library.FUNCTIONS.items()}
        self.assertEqual(answers, {name: call[1] for name, call in rattle.items()})

    def test_a_session(self) -> None:
        """The header's struct and the package's fields are what desk_open_lent is lent."""
        body = re.search(r"typedef struct desk_session \{\n(.*?)\}", in_rattle(HEADER), re.DOTALL)[1]
        struct = [f"{name} {kind}{count}" for kind, name, count in re.findall(r"^ +(\w+) (\w+)(\[\d+\]);", body, re.MULTILINE)]
        fields = [f"{name} {CTYPES[field._type_.__name__]}[{field._length_}]" for name, field in library.SESSION_FIELDS.items()]
        lent = calls_of_rattle()["desk_open_lent"][0][:-2]
        self.assertEqual(struct, lent)
        self.assertEqual(fields, lent)

    def test_the_sizes(self) -> None:
        """Told one by one, as a number for a number: a struct that grew would be written behind that of an older program."""
        self.assertEqual(calls_of_rattle()["desk_size"], (["array u64"], ["u64"]))

    def test_every_function_is_called_from_c_and_from_cpp(self) -> None:
        behind = {f"{name}_lent" for name in re.findall(r"inline \w+ (desk_\w+)\(", HEADER)}
        declared = set(re.findall(r"\b(desk_\w+)\(", HEADER)) - behind
        for name in ("desk_test.c", "sample.cpp"):
            text = "".join((ROOT / "tests" / "c" / file).read_text() for file in (name, "header_test.c"))  # which is compiled as both
            self.assertEqual({call for call in declared if f"{call}(" not in text}, set(), name)


if __name__ == "__main__":
    unittest.main()
