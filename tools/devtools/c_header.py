"""Compares c/include/baybowl.h and c/src/exports.h with the source that they speak of.

From the sources it makes a C file of static assertions, on the size of each struct, the place of each field and each number, and
of the exports' declarations once more: a compiler refuses it where header and source differ. What a compiler can't see (a number
that the header has and the source lacks, the words of rules and faults) is compared here.
"""

import re
from dataclasses import dataclass

SIZES = {"u8": (1, "uint8_t"), "u32": (4, "uint32_t"), "u64": (8, "uint64_t")}
# What baybowl.c answers by itself, with no call of the library.
OF_THE_SHIM = {"BAYBOWL_POINTER", "BAYBOWL_LENGTH"}
OF_THE_HEADER = {"BAYBOWL_MAX_LEN", "BAYBOWL_FORM_ROOM", "BAYBOWL_BLOCK_ROOM", "BAYBOWL_MODE_BITS", "BAYBOWL_INLINE", "BAYBOWL_H"}
STRUCT_FILES = ("passed", "block")
# The structs of exports.h, which calls return to the shim alone.
RETURNED = "returned"


@dataclass(frozen=True)
class Field:
    name: str
    size: int
    align: int
    offset: int


@dataclass(frozen=True)
class Struct:
    name: str
    fields: tuple
    size: int
    align: int


def words_of(name):
    """SetVxattr as SET_VXATTR."""
    return re.sub(r"(?<=[a-z])(?=[A-Z])", "_", name).upper()


def c_struct(name, prefix="baybowl"):
    return f"{prefix}_{words_of(name).lower()}"


def aligned(offset, align):
    return -(-offset // align) * align


def structs_of(source, others=()):
    """The structs of a file, each laid out as C lays it out. Those of other files may stand in them."""
    known = {name: (size, size) for name, (size, _) in SIZES.items()} | {it.name: (it.size, it.align) for it in others}
    found = []
    for name, body in re.findall(r"#\[repr\(C\)\]\npub struct (\w+) \{(.*?)\n\}", source, re.S):
        fields, offset, most = [], 0, 1
        for field, kind, count in re.findall(r"\n    pub (\w+): \[?(\w+)(?:; (\d+)\])?,", body):
            size, align = known[kind]
            offset, size = aligned(offset, align), size * int(count or 1)
            fields.append(Field(field, size, align, offset))
            offset, most = offset + size, max(most, align)
        found.append(Struct(name, tuple(fields), aligned(offset, most), most))
        known[name] = (found[-1].size, most)
    return found


def all_structs(root):
    return [it for file in STRUCT_FILES for it in structs_of(source_of(root, "capffi", file))]


def returned_structs(root):
    return structs_of(source_of(root, "capffi", RETURNED), all_structs(root))


def variants_of(source, name):
    body = re.search(rf"pub enum {name} \{{(.*?)\n\}}", source, re.S)[1]
    return re.findall(r"^    (\w+)(?:\(.*\))?,$", body, re.M)


def numbers_of(root):
    """Each number of the source, by the name that the header has for it."""
    crates = root / "crates"
    read = lambda path: (crates / path).read_text(encoding="utf-8")
    found = {}
    for path in ("capffi/src/trouble.rt", "capffi/src/lib.rt", "capffi/src/block.rt"):
        found |= {f"BAYBOWL_{name}": int(value) for name, value in re.findall(r"^pub const (\w+): u32 = (\d+);", read(path), re.M)}
    locks = read("capffi/src/locks.rt")
    for kind, prefix, source in (
        ("Access", "", read("capffi/src/asking.rt")),
        ("Part", "PART_", locks),
        ("TableState", "STATE_", locks),
        ("Head", "HEAD_", locks),
    ):
        arms = re.findall(rf"^ +(\d+) => Some\({kind}::(\w+)", source, re.M)
        found |= {f"BAYBOWL_{prefix}{words_of(name)}": int(number) for number, name in arms}
    bits = re.findall(r"self\.ask\(\w+, (\d+), Access::(\w+)", read("capffi/src/by_mask.rt"))
    found |= {f"BAYBOWL_MAY_{words_of(name)}": int(bit) for bit, name in bits}
    found |= {f"BAYBOWL_CAP_{name}": int(bit) for name, bit in re.findall(r"const (\w+) = (\d+);", read("capbits/src/bits.rt"))}
    for prefix, name, path in (("RULE_", "Rule", "capgrant/src/rule.rt"), ("FAULT_", "SpecFaultKind", "capspec/src/fault.rt")):
        variants = [it for it in variants_of(read(path), name) if it != "NoMemory"]
        found |= {f"BAYBOWL_{prefix}{words_of(it)}": place for place, it in enumerate(variants, 1)}
    return found


def declared(lib):
    """The exports of lib.rt, as C declares them."""
    found = {}
    for name, given, answer in re.findall(r'pub extern "C" fn (\w+)\((.*?)\) -> (\w+)', lib, re.S):
        params = []
        for param, kind in re.findall(r"(\w+): (&mut \[\w+\]|&\[\w+\]|&mut \w+|&\w+|\w+)", given):
            if kind == "Global":
                continue
            base = re.search(r"\w+(?=\]?$)", kind)[0]
            c_name = SIZES[base][1] if base in SIZES else f"struct {c_struct(base)}"
            pointer = "" if not kind.startswith("&") else " *" if kind.startswith("&mut") else " const *"
            params.append(f"{c_name}{pointer} {param}")
            if "[" in kind:
                params.append(f"size_t {param}_len")
        c_answer = SIZES[answer][1] if answer in SIZES else f"struct {c_struct(answer, 'capffi')}"
        found[name] = f"{c_answer} {name}({', '.join(params) or 'void'});"
    return found


def layout(name, struct):
    """The assertions that a struct of C has the layout of one of the sources."""
    yield f'static_assert(sizeof({name}) == {struct.size}, "size of {name}");'
    for field in struct.fields:
        place = f"{name}.{field.name}"
        yield f'static_assert(offsetof({name}, {field.name}) == {field.offset}, "place of {place}");'
        yield f'static_assert(sizeof((({name} *)0)->{field.name}) == {field.size}, "size of {place}");'


def assertions(root):
    """A C file that compiles where the header says what the source does, as C and as C++."""
    crate = root / "crates" / "capffi" / "src"
    lines = ["#include <assert.h>", "#include <stddef.h>", '#include "baybowl.h"', ""]
    for struct in all_structs(root):
        lines += layout(f"struct {c_struct(struct.name)}", struct)
    for name, number in numbers_of(root).items():
        lines.append(f'static_assert({name} == {number}, "{name}");')
    lines += ["", "#ifndef __cplusplus", '#include "exports.h"']
    for struct in returned_structs(root):
        lines += layout(f"struct {c_struct(struct.name, 'capffi')}", struct)
    lines += declared((crate / "lib.rt").read_text(encoding="utf-8")).values()
    return "\n".join([*lines, "#endif", ""])


def differences(root):
    """What no compiler sees: names on one side alone, and words."""
    header = without_comments(root / "c" / "include" / "baybowl.h")
    named = set(re.findall(r"\b(BAYBOWL_\w+) = \d+", header)) | set(re.findall(r"#define (BAYBOWL_\w+)", header))
    known = set(numbers_of(root)) | OF_THE_SHIM | OF_THE_HEADER
    found = [f"{name}: on one side alone" for name in sorted(named ^ known)]
    exported = without_comments(root / "c" / "src" / "exports.h")
    fields = {c_struct(it.name): [field.name for field in it.fields] for it in all_structs(root)}
    fields |= {c_struct(it.name, "capffi"): [field.name for field in it.fields] for it in returned_structs(root)}
    told = {
        name: re.findall(r"(\w+)(?:\[\d+\])?;", body)
        for name, body in re.findall(r"^struct (\w+) \{(.*?)^\};", header + exported, re.S | re.M)
    }
    found += [f"struct {name}: fields differ" for name in sorted(fields.keys() | told.keys()) if fields.get(name) != told.get(name)]
    exports = set(re.findall(r"\b(capffi_\w+)\(", exported))
    found += [f"{name}: on one side alone" for name in sorted(exports ^ set(declared(source_of(root, "capffi", "lib"))))]
    return found


def without_comments(path):
    return re.sub(r"/\*.*?\*/", "", path.read_text(encoding="utf-8"), flags=re.S)


def calls(root):
    """The names of the calls that the header declares."""
    header = without_comments(root / "c" / "include" / "baybowl.h")
    return sorted(set(re.findall(r"^(?:inline |BAYBOWL_INLINE )?\w[\w ]*[ *]((?:baybowl|capffi)_\w+)\(", header, re.M)))


def source_of(root, crate, name):
    return (root / "crates" / crate / "src" / f"{name}.rt").read_text(encoding="utf-8")


def rule_words(root):
    return re.findall(r'Rule::\w+ => "([\w-]+)"', source_of(root, "capgrant", "rule"))


def fault_words(root):
    """The kinds of a fault, each of which prints as its name."""
    return [it for it in variants_of(source_of(root, "capspec", "fault"), "SpecFaultKind") if it != "NoMemory"]
