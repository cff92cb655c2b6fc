#!/usr/bin/env python3
"""The exported functions are declared three times, by hand: crates/ffi/src/lib.rt, include/recipe_store.h and rust/src/raw.rs. They must agree.

  tests/signatures.py

A slice of Rattle is a pointer and a length. Names, the order and types of parameters, const pointers and results are compared; parameters' names are not.
"""
import os
import re
import sys

ROOT = os.path.dirname(os.path.dirname(os.path.abspath(__file__)))
C_TYPES = {"uint32_t": "u32", "uint64_t": "u64", "uint8_t": "u8", "size_t": "usize", "bool": "bool"}


def text_of(path):
    with open(os.path.join(ROOT, path)) as file:
        return file.read()


def parts(parameters):
    return [part.strip() for part in parameters.split(",") if part.strip()]


def of_rattle(kind):
    slice_of = re.fullmatch(r"&(mut )?\[(\w+)\]", kind)
    if slice_of:
        return [f"*{'mut' if slice_of[1] else 'const'} {slice_of[2]}", "usize"]
    return [re.sub(r"^&mut ", "*mut ", kind)]


def of_c(parameter):
    const, kind, pointer = re.fullmatch(r"(const )?(\w+) (\*?)\w+", parameter).groups()
    return f"*{'const' if const else 'mut'} {C_TYPES[kind]}" if pointer else C_TYPES[kind]


def rattle():
    found = re.findall(r'#\[unsafe\(no_mangle\)\]\s+pub extern "C" fn (\w+)\(([^)]*)\)\s*->\s*(\w+)', text_of("crates/ffi/src/lib.rt"))
    return {name: (sum((of_rattle(p.split(":")[1].strip()) for p in parts(given)), []), result) for name, given, result in found}


def header():
    text = re.sub(r"/\*.*?\*/", "", text_of("include/recipe_store.h"), flags=re.S)
    found = re.findall(r"^(\w+) (recipe_\w+)\(([^)]*)\);", text, flags=re.M)
    return {name: ([of_c(p) for p in parts(given)], C_TYPES[result]) for result, name, given in found}


def rust():
    found = re.findall(r"pub fn (recipe_\w+)\(([^)]*)\) -> (\w+);", text_of("rust/src/raw.rs"))
    return {name: ([p.split(":")[1].strip() for p in parts(given)], result) for name, given, result in found}


def main():
    first = rattle()
    wrong = [f"{where}: {name}: {there.get(name)}, not {first.get(name)}" for where, there in (("include/recipe_store.h", header()), ("rust/src/raw.rs", rust()))
             for name in sorted(set(first) | set(there)) if there.get(name) != first.get(name)]
    print("\n".join(wrong + [f"{len(first)} functions, {len(wrong)} declarations differ"]))
    sys.exit(1 if wrong or not first else 0)


main()
