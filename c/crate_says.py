#!/usr/bin/env python3
"""What crates/dmc_c says of the header, as a C source that compiles beside dmclock.h only where both agree: each export's
name and types, the types, the order and the sizes of the structs' fields, and each code's number. VERSION says which version
the header has."""
import re
import sys
from pathlib import Path

SRC = Path(__file__).resolve().parent.parent / "crates" / "dmc_c" / "src"
NUMBERS = {"i64": "int64_t", "u64": "uint64_t", "u32": "uint32_t", "bool": "bool", "*mut u8": "void *"}


def snake(name):
    return re.sub(r"(?<=[a-z])(?=[A-Z])", "_", name).lower()


def read(name):
    return (SRC / name).read_text()


def c_type(rust, handle):
    if rust in NUMBERS:
        return NUMBERS[rust]
    if rust.startswith("&mut "):
        inner = rust[len("&mut "):]
        return ("struct " + handle if inner == "Handle" else c_type(inner, handle)) + " *"
    if rust.startswith("&"):
        return "const " + c_type(rust[1:], handle) + " *"
    return "struct " + snake(rust)


def structs():
    """The fields of each struct that C writes or reads, and of the three that it holds."""
    sources = read("reading.rt") + read("outputs.rt")
    for name, body in re.findall(r"#\[repr\(C\)\]\s*(?:#\[.*\]\s*)?pub struct (\w+) \{\n(.*?)\n\}", sources, re.S):
        yield snake(name), re.findall(r"pub (\w+): ([^,]+),", body)
    body = re.search(r"pub struct Handle \{\n(.*?)\n\}", read("handle.rt"), re.S).group(1)
    fields = re.findall(r"^    (\w+): ([^,]+),", body, re.M)
    yield "dmc_queue", fields
    yield "dmc_tracker", fields
    yield "dmc_shards", fields


def exports():
    """Each export's name, types and whether it returns a code."""
    for file, handle in (("queue.rt", "dmc_queue"), ("tracker.rt", "dmc_tracker"), ("shards.rt", "dmc_shards"), ("rates.rt", None)):
        for name, params, code in re.findall(r'pub extern "C" fn (\w+)\((.*?)\)( -> u32)?\s*\n\s*ensures', read(file), re.S):
            types = [p.split(":")[1].strip() for p in params.split(",") if ":" in p]
            yield name, [c_type(t, handle) for t in types if t != "Global"], bool(code)


def codes():
    """Each code's name in the header and its number."""
    for name, number in re.findall(r"^\s+((?:Fault|Refusal)::[\w:()]+) => (\d+),", read("fault.rt"), re.M):
        word = snake(re.findall(r"\w+", name)[-1]).upper()
        if "ValueFault" in name or word == "PHASE":
            word = "BAD_" + word
        if "Inexact" in name:
            word = "INEXACT_" + word
        yield "DMC_" + word, int(number)


def constant(file, name):
    """The text of a constant of dmc_types."""
    return re.search(rf"{name} = ([^;]+);", (SRC.parent.parent / "dmc_types" / "src" / file).read_text()).group(1)


def main():
    header = (Path(__file__).resolve().parent / "dmclock.h").read_text()
    print('#include "dmclock.h"\n#include <stddef.h>')
    for name, fields in structs():
        print(f"struct crate_{name} {{ " + " ".join(f"{c_type(t, name)} {f};" for f, t in fields) + " };")
        print(f'_Static_assert(sizeof(struct {name}) == sizeof(struct crate_{name}), "{name}");')
        for field, rust in fields:
            print(f'_Static_assert(offsetof(struct {name}, {field}) == offsetof(struct crate_{name}, {field}), "{name}.{field}");')
            print(f'_Static_assert(_Generic(((struct {name} *)0)->{field}, {c_type(rust, name)}: 1, default: 0), "{name}.{field}");')
    declared = set(re.findall(r"^(?:uint32_t|void) +(dmc_\w+)\(", header, re.M))
    found = {"dmc_version"}  # of version.c
    for name, types, answers in exports():
        found.add(name)
        print(("uint32_t " if answers else "void ") + f"{name}({', '.join(types)});")
    told = dict(re.findall(r"\b(DMC_\w+) = (\d+)", header.split("enum dmc_code")[1].split("};")[0]))
    given = {name: str(number) for name, number in codes()}
    given["DMC_OK"] = "0"
    if declared != found:
        sys.exit(f"exports differ: {sorted(declared ^ found)}")
    if told != given:
        sys.exit(f"codes differ: {sorted(set(told.items()) ^ set(given.items()))}")
    given["DMC_FINE_HZ"] = constant("rates.rt", "FINE_HZ: u32").replace("_", "")
    given["DMC_MAX_AGE"] = constant("limits.rt", "MAX_MOMENT: u64").replace("1 <<", "UINT64_C(1) <<")
    major, minor, patch = map(int, (SRC.parent.parent.parent / "VERSION").read_text().split("."))
    given["DMC_VERSION"] = str(major * 10000 + minor * 100 + patch)
    for name, number in given.items():
        print(f'_Static_assert({name} == {number}, "{name}");')
    print("int main(void) { return 0; }")


main()
