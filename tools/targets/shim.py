"""Writes the C functions of a header of include/ over the inner functions of a proved crate's module: shim.py CRATE OUT.c"""
import re
import sys

from exported import PLACE, ROOT, Unknown, functions_of

HEAD = """/* Made by tools/targets/shim.py from crates/{crate}: the header's functions over the proved module's. */
#include "{header}"

/* A slice's pointer is never null in the proved module: a null one, whose length is 0, is moved as the x86-64 functions move it. */
static inline const void *lent(const void *pointer)
{
    return pointer ? pointer : (const void *)4096;
}
"""


def header_of(crate):
    """capi_itron's functions are those of mastclover_itron.h; a crate without such a header has its own in mastclover.h."""
    own = f"mastclover{crate.removeprefix('capi')}.h"
    return own if (ROOT / "include" / own).exists() else "mastclover.h"


def c_name(struct):
    """Answer is mast_answer in the header."""
    return "mast_" + re.sub(r"(?<!^)([A-Z])", r"_\1", struct).lower()


def c_number(kind):
    return {"u8": "uint8_t", "u16": "uint16_t", "u32": "uint32_t", "u64": "uint64_t", "i32": "int32_t", "usize": "size_t"}[kind]


def layout(function):
    """The header's struct has the proved one's layout, or the shim does not compile."""
    name = c_name(function.answer)
    tests = [f"sizeof({name}) == {function.size}"]
    for field, kind, at in function.fields:
        tests.append(f"offsetof({name}, {field}) == {at} && _Generic((({name} *)0)->{field}, {c_number(kind)}: 1, default: 0)")
    return "".join(f'_Static_assert({test}, "{name} has the layout of {function.answer}");\n' for test in tests)


def shim(function):
    given = c_name(function.answer) if function.answer else c_number(function.kind) if function.kind else "void"
    inner, outer, passed = [], [], []
    if function.answer:
        inner.append(f"{given} *")
        passed.append("&answer")
    for each in function.parameters:
        if each.slice:
            kind = c_number(each.slice[2])
            outer += [f"{'' if each.slice[1] else 'const '}{kind} *{each.name}", f"size_t {each.name}_length"]
            inner += ["const void *", "uint64_t"]
            passed += [f"lent({each.name})", f"{each.name}_length"]
        elif each.kind == PLACE:
            inner.append("uint32_t *")
            outer.append(f"uint32_t *{each.name}")
            passed.append(each.name)
        else:
            inner.append("uint64_t" if each.kind == "usize" else c_number(each.kind))
            outer.append(f"{c_number(each.kind)} {each.name}")
            passed.append(each.name)
    raw = function.raw_name()
    text = f"\n{'void' if function.answer else given} {raw}({', '.join(inner) or 'void'});\n\n"
    text += f"{given} {function.name}({', '.join(outer) or 'void'})\n{{\n"
    call = f"{raw}({', '.join(passed)});\n"
    if function.answer:
        text += f"    {given} answer;\n    {call}    return answer;\n"
    else:
        text += f"    {'return ' if function.number else ''}{call}"
    return text + "}\n"


def main():
    crate, path = sys.argv[1:]
    try:
        found = functions_of(crate)
    except Unknown as unknown:
        sys.exit(f"shim.py: {unknown}")
    structs = {each.answer: layout(each) for each in found if each.answer}
    with open(path, "w") as out:
        out.write(HEAD.replace("{crate}", crate).replace("{header}", header_of(crate)) + "".join(structs.values()) + "".join(map(shim, found)))


if __name__ == "__main__":
    main()
