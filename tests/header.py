#!/usr/bin/env python3
"""Compares clients/c/td.h with the exports of crates/td_c, and both clients with the header: functions, their parameters in order, structs, their
fields in order, and the numbers of refusals.

    tests/header.py         needs Python alone"""

import ctypes
import importlib.util
import re

from lib import ROOT, fail

SOURCES = ROOT / "crates/td_c"
# What a type of an export is in C. A slice is a pointer, and its length after it; a `Global` is nothing.
SCALARS = {"u64": "uint64_t", "i64": "int64_t", "u32": "uint32_t", "u8": "uint8_t", "usize": "size_t",
           "TdRecord": "struct td_record", "TdState": "struct td_state", "TdChange": "struct td_change", "TdCounts": "struct td_counts"}
STRUCTS = {"TdRecord": "td_record", "TdState": "td_state", "TdChange": "td_change", "TdCounts": "td_counts"}
# The structs as the clients name them.
CLIENT_STRUCTS = [name.removeprefix("Td") for name in STRUCTS]


def source():
    return "\n".join(file.read_text() for file in sorted((SOURCES / "src").glob("*.rt")))


def header():
    """The header without its comments."""
    return re.sub(r"/\*.*?\*/", "", (ROOT / "clients/c/td.h").read_text(), flags=re.S)


def in_c(name, kind):
    """The parameters that one of the source is in C: each a type and a name."""
    if kind == "Global":
        return []
    shared, of_slice = not kind.startswith("&mut "), kind.endswith("]")
    scalar = SCALARS.get(re.sub(r"^&(mut )?\[?|\]$", "", kind)) or fail(f"{name}: what is {kind} in C?")
    if not kind.startswith("&"):
        return [(scalar, name)]
    pointer = [(f"const {scalar} *" if shared else f"{scalar} *", name)]
    return pointer + [("size_t", f"{name}_len")] * of_slice


def exports():
    """Each export's result and parameters, as C has them."""
    found = {}
    for name, given, result in re.findall(r'extern "C" fn (\w+)\((.*?)\) -> (\w+)', source(), re.S):
        pairs = [pair.split(":") for pair in given.split(",") if pair.strip()]
        found[name] = SCALARS[result], [each for left, right in pairs for each in in_c(left.strip(), right.strip())]
    return found


def prototypes():
    """Each prototype's result and parameters."""
    found = {}
    for result, name, given in re.findall(r"(\w+) (td_\w+)\(([^)]*)\);", header()):
        pairs = [re.fullmatch(r"(.*?[ *])(\w+)", " ".join(each.split())) for each in given.split(",")]
        found[name] = result, [(pair[1].strip(), pair[2]) for pair in pairs]
    return found


def fields_of_source():
    return {STRUCTS[name]: [(SCALARS[kind], field) for field, kind in re.findall(r"pub (\w+): (\w+)", body)]
            for name, body in re.findall(r"#\[repr\(C\)\]\npub struct (\w+) \{(.*?)\}", source(), re.S)}


def fields_of_header():
    return {name: re.findall(r"(\w+) (\w+);", body) for name, body in re.findall(r"struct (\w+) \{(.*?)\};", header(), re.S)}


def names_of_plan_faults():
    """The numbers of a plan's faults, by their names in td_plan, as constants."""
    text = (ROOT / "crates/td_plan/src/error.rt").read_text()
    return {constant(name): int(number) for name, number in re.findall(r"PlanError::(\w+)(?:\(_\))? => (\d+),", text)}


def constant(name):
    """The constant of a refusal's name."""
    words = {"NoInputOrOutput": "NO_ENDS"}.get(name) or re.sub(r"(?<=[a-z])(?=[A-Z])", "_", name).upper()
    return f"TD_{words}"


def numbers_of_closures():
    """The numbers of what is wrong with closures in text; that of want of memory is the refusal's own."""
    found = re.findall(r"Wrong::(\w+) => (\d+),", source())
    return {constant(f"Closures{name}"): int(number) for name, number in found if name != "Memory"}


def numbers_of_source():
    """The number of each refusal, and of an answer that is none."""
    own = re.findall(r"Refusal::(\w+)(?:\(_\w*\))? => (\d+),", source())
    return {"TD_DONE": 0, **names_of_plan_faults(), **numbers_of_closures(), **{constant(name): int(number) for name, number in own}}


def numbers_of_header():
    return {name: int(number) for name, number in re.findall(r"(TD_[A-Z_]+) = (\d+)", header())}


def numbers_of_python(client):
    return {0, *client.ANSWERS}


def client_of_python():
    spec = importlib.util.spec_from_file_location("td_c", ROOT / "clients/python/td_c.py")
    client = importlib.util.module_from_spec(spec)
    spec.loader.exec_module(client)
    return client


def fields_of_python(client):
    kinds = {ctypes.c_uint64: {"uint64_t", "size_t"}, ctypes.c_int64: {"int64_t"}, ctypes.c_size_t: {"uint64_t", "size_t"}}
    return {f"td_{name.lower()}": [(kinds[kind], field) for field, kind in getattr(client, name)._fields_] for name in CLIENT_STRUCTS}


def fields_of_rust():
    text = (ROOT / "clients/rust/src/lib.rs").read_text()
    return {f"td_{name.lower()}": [(SCALARS[kind], field) for field, kind in re.findall(r"(\w+): (u64|i64|usize)", body)]
            for name, body in re.findall(r"#\[repr\(C\)\]\n(?:pub )?struct (\w+) \{(.*?)\}", text, re.S)}


def compare(what, got, wanted):
    if got != wanted:
        fail(f"{what}:\n   has {got}\nwanted {wanted}")


def main():
    functions, structs, numbers = exports(), fields_of_source(), numbers_of_source()
    if not functions or len(structs) != len(STRUCTS) or len(numbers) != len(set(numbers.values())):
        fail(f"the source has {functions}, {structs}, {numbers}")
    compare("the prototypes of td.h", prototypes(), functions)
    compare("the structs of td.h", fields_of_header(), structs)
    compare("the numbers of td.h", numbers_of_header(), numbers)
    compare("the structs of clients/rust", fields_of_rust(), structs)
    client = client_of_python()
    compare("the numbers of clients/python", numbers_of_python(client), set(numbers.values()))
    for name, fields in fields_of_python(client).items():
        if len(fields) != len(structs[name]) or any(kind not in kinds or field != own for (kinds, field), (kind, own) in zip(fields, structs[name])):
            fail(f"{name} of clients/python has {fields}, and the source {structs[name]}")
    print(f"td.h and its clients: {len(functions)} functions, {len(structs)} structs, {len(numbers)} numbers, as in the source")


if __name__ == "__main__":
    main()
