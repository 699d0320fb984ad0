"""The functions of a static library for C, in a module that is compiled as a program.

What is lowered is a program (lowered.py), so the library's crate becomes one, with a `main` that calls each function that the library
exports. In its module these have Rattle's own way of being called: what the allocator is given takes no room, a slice is a pointer and a
length, and a result of several words comes through a pointer that is the first parameter. So `main` is dropped, and each gets a function
beside it that C can call. Whatever is not understood here is a fault.
"""
import collections
import os
import re

EXPORT = re.compile(r'#\[unsafe\(no_mangle\)\](?:\s*#\[[^\]]*\])*\s*pub extern "C" fn (\w+)\s*\((.*?)\)\s*(?:->\s*(\w+))?\s*(?=\n)', re.S)
# A kind of parameter: what `main` passes, and what it is in the module. Handles are passed in turn.
PASSED = {"Global": ("rt.alloc()", []), "u64": ("number", ["i64"]), "u32": ("0", ["i32"]), "usize": ("0", ["i64"]), "&mut Handle": (None, ["ptr"]),
          "&[u8]": ("&bytes[..]", ["ptr", "i64"]), "&mut [u8]": ("&mut buffer[..]", ["ptr", "i64"]), "&mut u64": ("&mut count", ["ptr"])}
# A kind of result: what it is in the module, None where it comes through a pointer, and what it is to C.
RESULTS = {"": ("void", "void"), "u32": ("i32", "i32"), "u64": ("i64", "i64"), "Reply": (None, "{ i64, i64 }")}
MAIN = """
fn main(rt: HostRuntime) -> std::process::ExitCode {{
    let mut first = handle::Handle {{ at: std::ptr::null_mut(), alloc: rt.alloc() }};
    let mut second = handle::Handle {{ at: std::ptr::null_mut(), alloc: rt.alloc() }};
    let bytes: [u8; 4] = [0; 4];
    let mut buffer: [u8; 4] = [0; 4];
    let mut count: u64 = 0;
    let number: u64 = 0;
{calls}    std::process::ExitCode::SUCCESS
}}
"""
ATTRIBUTES = "#900"

# An exported function: where it stands in the crate, its parameters' kinds, and its result's.
Export = collections.namedtuple("Export", "path parameters result")


class Unknown(Exception):
    """An export that is not understood."""


def exports(source):
    """The functions that the crate with this src folder exports."""
    found = []
    for folder, _, files in sorted(os.walk(source)):
        for file in sorted(it for it in files if it.endswith(".rt")):
            path = os.path.join(folder, file)
            module = os.path.relpath(path, source)[:-len(".rt")].split("/")
            module = module[:-1] if module[-1] in ("lib", "mod") else module
            with open(path, encoding="utf-8") as given:
                text = given.read()
            here = list(EXPORT.finditer(text))
            if len(here) != text.count("#[unsafe(no_mangle)]"):
                raise Unknown(f"{path} has an export of another form")
            for it in here:
                kinds = [part.split(":", 1)[1].strip() for part in " ".join(it[2].split()).split(",") if part.strip()]
                if not set(kinds) <= set(PASSED) or (it[3] or "") not in RESULTS:
                    raise Unknown(f"{path}: {it[1]} has a parameter or a result of another kind")
                found.append(Export("::".join([*module, it[1]]), kinds, it[3] or ""))
    return found


def program(head, found):
    """The source of a program with the modules of lib.rt, whose text is given, that calls each export."""
    calls = ""
    for it in found:
        handles = iter(("&mut first", "&mut second"))
        calls += f"    let _ = {it.path}({', '.join(PASSED[kind][0] or next(handles) for kind in it.parameters)});\n"
    return head + MAIN.format(calls=calls)


def _callable(text, crate, it):
    """The function that C calls for this export of the module."""
    types = [word for kind in it.parameters for word in PASSED[kind][1]]
    inner, outer = RESULTS[it.result]
    symbol = f'@"{crate}::{it.path}"'
    defined = re.search(rf"^define internal (?:noundef )?(\S+) {re.escape(symbol)}\((.*?)\) ", text, re.M)
    due = ([] if inner else ["ptr"]) + types
    if not defined or defined[1] != (inner or "void") or [word.split()[0] for word in defined[2].split(",") if word.strip()] != due:
        raise Unknown(f"the module has no {symbol} of {' '.join(due)}")
    names = [f"{kind} %a{at}" for at, kind in enumerate(types)]
    if inner == "void":
        body = [f"call void {symbol}({', '.join(names)})", "ret void"]
    elif inner:
        body = [f"%result = call {inner} {symbol}({', '.join(names)})", f"ret {inner} %result"]
    else:
        body = ["%place = alloca [2 x i64], align 8", f"call void {symbol}({', '.join(['ptr %place', *names])})",
                f"%reply = load {outer}, ptr %place, align 8", f"ret {outer} %reply"]
    return f"define {outer} @{it.path.split('::')[-1]}({', '.join(names)}) {ATTRIBUTES} {{\n" + "".join(f"  {line}\n" for line in body) + "}\n"


def callable_from_c(text, crate, found):
    """The module's text without `main`, and with a function for C for each export."""
    without, dropped = re.subn(r"^define i32 @main\(\).*?^}\n", "", text, flags=re.S | re.M)
    if dropped != 1:
        raise Unknown("the module has no main")
    ours = "".join(_callable(without, crate, it) + "\n" for it in found)
    return f'{without}\n{ours}attributes {ATTRIBUTES} = {{ nounwind "probe-stack"="inline-asm" "stack-probe-size"="3072" }}\n'
