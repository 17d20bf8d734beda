#!/usr/bin/env python3
"""Compares the library's C header and the Rust example's declarations with the source.

    tests/abi/header.py ROOT

ROOT is the repository. Functions, structs and constants have to agree: names, order and widths of fields and parameters, numbers.
Prints a line for each difference, and ends with status 1 if there is one.
"""
import re
import sys
from pathlib import Path

C_TYPES = {"u8": "uint8_t", "u16": "uint16_t", "u32": "uint32_t", "u64": "uint64_t", "usize": "size_t"}
faults = []


def compare(what, expected, found):
    if isinstance(expected, dict) and isinstance(found, dict) and sorted(expected) == sorted(found):
        for name in expected:
            compare(f"{what}, {name}", expected[name], found[name])
    elif expected != found:
        if isinstance(expected, dict):
            expected, found = sorted(expected), sorted(found)
        faults.append(f"{what}: expected {expected}, and got {found}")


def snake(name):
    return re.sub(r"(?<=[a-z])(?=[A-Z])", "_", name).lower()


def split(text):
    return [part for part in (" ".join(piece.split()) for piece in text.split(",")) if part]


# ---- the source


def c_params(name, kind):
    """The parameters of C that a parameter of the source crosses as."""
    slice_of = re.fullmatch(r"&(mut )?\[(\w+)\]", kind)
    if slice_of:
        const = "" if slice_of[1] else "const "
        return [(f"{const}{C_TYPES[slice_of[2]]} *", name), ("size_t", f"{name}_len")]
    return [(C_TYPES.get(kind) or f"chudopolk_{snake(kind)}", name)]


def pairs(text):
    return [tuple(part.removeprefix("pub ").split(": ", 1)) for part in split(text)]


def source_structs(text):
    found = re.findall(r"#\[repr\(C\)\]\n(?:#\[[^\n]*\]\n)?pub struct (\w+) \{(.*?)\}", text, re.S)
    return {f"chudopolk_{snake(name)}": [(C_TYPES[kind], field) for field, kind in pairs(body)] for name, body in found}


def source_functions(text):
    found = re.findall(r'#\[unsafe\(no_mangle\)\]\npub extern "C" fn (\w+)\((.*?)\) -> (\w+)', text, re.S)
    return {
        name: (C_TYPES.get(given) or f"chudopolk_{snake(given)}", [c for field, kind in pairs(params) for c in c_params(field, kind)])
        for name, params, given in found
    }


def type_row_numbers(text):
    """The numbers of a type row, in the order in which it is read from them."""
    body = re.search(r"\bfn type_row\((.*?)\n\}", text, re.S)[1]
    kind = re.match(r"numbers: &\[(\w+)\]", body)[1]
    found = re.findall(r"(\w+): .*\bnumbers\[at(?: \+ (\d+))?\]", body)
    return [(C_TYPES[kind], field) for field, _ in sorted(found, key=lambda pair: int(pair[1] or 0))]


def value_row_numbers(text):
    return [(C_TYPES[kind], field) for field, kind in pairs(re.search(r"\bstruct Numbers \{(.*?)\}", text, re.S)[1])]


# ---- the header


def c_declared(text):
    """The type and the name of a declaration, as `const uint64_t *` and `types`."""
    kind, name = re.fullmatch(r"(.*?)(\w+)", text).groups()
    return (kind.strip(), name)


def header_structs(text):
    found = re.findall(r"typedef struct (\w+) \{(.*?)\} (\w+);", text, re.S)
    for tag, _, name in found:
        compare("a struct's two names", tag, name)
    return {name: [c_declared(" ".join(line.split())) for line in body.split(";") if line.strip()] for name, body, _ in found}


def header_functions(text):
    found = re.findall(r"^(\w+) (chudopolk_\w+)\((.*?)\);", text, re.S | re.M)
    return {name: (given, [c_declared(part) for part in split(params)]) for given, name, params in found}


def header_constants(text):
    found = re.findall(r"enum (\w+) \{(.*?)\};", text, re.S)
    return {name: {c: int(v, 0) for c, v in re.findall(r"CHUDOPOLK_(\w+) = (\w+)", body)} for name, body in found}


def uncommented(text):
    """Constants, fields, structs and functions that have no comment: at their line's end, or right before them."""
    lines = text.splitlines()
    missing = []
    for i, line in enumerate(lines):
        named = re.match(r"    (CHUDOPOLK_\w+ = \w+|\w+ \w+;)", line)
        headed = re.match(r"(enum chudopolk_|typedef struct |\w+ chudopolk_\w+\(|#define CHUDOPOLK_\w+\()", line)
        if (named and "/*" not in line) or (headed and not lines[i - 1].rstrip().endswith("*/")):
            missing.append(line.strip())
    return missing


# ---- the declarations of the Rust example


def rust_functions(text):
    block = re.search(r'extern "C" \{(.*?)\n\}', text, re.S)[1]
    known = {"*const u64": "const uint64_t *", "*const u8": "const uint8_t *", "*mut u64": "uint64_t *", "*mut u8": "uint8_t *"}

    def c_type(kind):
        return known.get(kind) or C_TYPES.get(kind) or f"chudopolk_{snake(kind)}"

    found = re.findall(r"fn (\w+)\((.*?)\) -> (\w+);", block, re.S)
    return {name: (c_type(given), [(c_type(kind), field) for field, kind in pairs(params)]) for name, params, given in found}


def rust_constants(text):
    found = re.findall(r"pub mod (\w+) \{(.*?)\n\}", text, re.S)
    return {name: {c: int(v, 0) for c, v in re.findall(r"const (\w+): \w+ = (\w+);", body)} for name, body in found}


# ---- the numbers of the source


def number_of(path, pattern):
    return int(re.search(pattern, path.read_text())[1], 0)


def source_constants(crates):
    verdicts = re.findall(r"Verdict::(\w+) => (\d+),", (crates / "wire/src/verdict.rt").read_text())
    types = re.findall(r"const (\w+): MessageType = MessageType\((\w+)\);", (crates / "message/src/message_type.rt").read_text())
    rows = (crates / "chudopolk/src/rows.rt").read_text()
    shown = re.findall(r"Value::(\w+)\S* => numbered\((\d+),", rows) + re.findall(r"Value::(\w+) \{ place, len \} => Numbers \{\s+what: (\d+),", rows)
    header_len = number_of(crates / "wire/src/header.rt", r"const LEN: usize = (\d+);")
    payload_most = number_of(crates / "payload/src/read.rt", r"const PAYLOAD_MOST: usize = (\d+);")
    return {
        "chudopolk_verdict": {"VERDICT_" + snake(name).upper(): int(number) for name, number in verdicts},
        "chudopolk_message_type": {name: int(number, 0) for name, number in types},
        "chudopolk_what": {"IS_" + name.upper(): int(number) for name, number in sorted(shown, key=lambda pair: int(pair[1]))},
        "chudopolk_limit": {
            "ROWS_MOST": number_of(crates / "payload/src/table.rt", r"rows: \[TypeRow; (\d+)\]"),
            "HEADER_LENGTH": header_len,
            "PAYLOAD_MOST": payload_most,
            "MESSAGE_MOST": header_len + payload_most,
            "NO_CODE": number_of(crates / "chudopolk/src/head.rt", r"const NO_CODE: u32 = (\d+);"),
        },
        "chudopolk_mark": {"OPTIONAL": 0, "REQUIRED": 1, "TOLD": 0, "FIXED": 1},
    }


def check_kinds(crates, kinds):
    text = (crates / "wire/src/kind.rt").read_text()
    named = {name: int(number) for name, number in re.findall(r"const (\w+): usize = (\d+);", text)}
    sizes = [int(size) for size in re.findall(r"Kind \{ size: (\d+), wire: \d+ \}", text)]
    compare("the kinds' numbers", list(range(1, len(sizes))), list(kinds.values()))
    for name, number in kinds.items():
        bits = re.search(r"\d+$", name)
        compare(f"the bytes of {name}", int(bits[0]) // 8 if bits else sizes[number], sizes[number])
        compare(f"the number of {name}", named.get(name, number), number)


def main(root):
    crates = root / "crates"
    header = (root / "include/chudopolk.h").read_text()
    bare = re.sub(r"/\*.*?\*/", "", header, flags=re.S)
    binding = (root / "examples/rust/src/chudopolk.rs").read_text()
    source = "\n".join(path.read_text() for path in sorted((crates / "chudopolk/src").glob("*.rt")))

    functions, structs, constants = header_functions(bare), header_structs(bare), header_constants(bare)
    compare("the functions of the header", source_functions(source), functions)
    compare("the functions of the Rust example", functions, rust_functions(binding))
    rows = {name: structs.pop(name, []) for name in ("chudopolk_type_row", "chudopolk_value_row")}
    compare("the structs of the header", source_structs(source), structs)
    compare("the structs of the Rust example", {**rows, **structs}, source_structs(binding))
    compare("the numbers of chudopolk_type_row", type_row_numbers(source), rows["chudopolk_type_row"])
    compare("the numbers of chudopolk_value_row", value_row_numbers(source), rows["chudopolk_value_row"])

    kinds = constants.pop("chudopolk_kind", {})
    compare("the constants of the header", source_constants(crates), constants)
    check_kinds(crates, kinds)
    shared = {name.removeprefix("chudopolk_"): all_of for name, all_of in constants.items() if name not in ("chudopolk_limit", "chudopolk_mark")}
    shared = {name: {c.removeprefix("VERDICT_"): v for c, v in all_of.items()} for name, all_of in {**shared, "kind": kinds}.items()}
    compare("the constants of the Rust example", shared, rust_constants(binding))
    compare("lines of the header without a comment", [], uncommented(header))

    for fault in faults:
        print(f"header: {fault}")
    if not faults:
        count = len(kinds) + sum(len(all_of) for all_of in constants.values())
        print(f"header: {len(functions)} functions, {len(structs) + len(rows)} structs and {count} constants agree with the source")
    return 1 if faults else 0


if __name__ == "__main__":
    if len(sys.argv) != 2:
        sys.exit("usage: tests/abi/header.py ROOT")
    sys.exit(main(Path(sys.argv[1])))
