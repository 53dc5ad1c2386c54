"""What bindings/calls writes of bindings/handles.txt: the calls of handles for Rust, C, C++ and Python."""
import re

TABLE = "bindings/handles.txt"
KINDS = ("set", "map", "solver", "solutions")
NUMBERS = {"i64": "int64_t", "u64": "uint64_t"}

# Of a parameter: what it is in C, in Rust over bounds `B` and pairs `R`, how Rust takes it before the call, what Python gives. KIND is that of the
# handle, and OF(name) in C the name of a type of bounds.
LIST = "is_list(%s, n)?; let %s = unsafe { list(%s, n) };"
PARAMETERS = {
    "member": ("IVL_NUMBER v", "v: B", "let v = member(v)?;", ["NUMBER"]),
    "number": ("IVL_NUMBER v", "v: B", "", ["NUMBER"]),
    "run": ("IVL_NUMBER lower, IVL_NUMBER upper", "lower: B, upper: B", "let run = run(lower, upper)?;", ["NUMBER", "NUMBER"]),
    "window": ("IVL_NUMBER lower, IVL_NUMBER upper", "lower: B, upper: B", "let window = window(lower, upper);", ["NUMBER", "NUMBER"]),
    "count": ("uint64_t count", "count: u64", "let count = above_0(count)?;", ["ctypes.c_uint64"]),
    "index": ("uint64_t index", "index: u64", "", ["ctypes.c_uint64"]),
    "value": ("uint64_t value", "value: u64", "", ["ctypes.c_uint64"]),
    "other": ("const OF(KIND) *other", "other: *const HANDLE", "let other = unsafe { reads(other) }?;", ["POINTER"]),
    "pairs": ("const OF(pair) *pairs, size_t n", "pairs: *const R, n: usize", "is_list(pairs, n)?; let pairs = inside(unsafe { list(pairs, n) })?;", ["POINTER", "COUNT"]),
    "room": ("OF(pair) *out, size_t room", "out: *mut R, room: usize", "is_list(out, room)?; let out = unsafe { buffer(out, room) };", ["POINTER", "COUNT"]),
    "x": ("int64_t x", "x: i64", "", ["ctypes.c_int64"]),
    "y": ("int64_t y", "y: i64", "", ["ctypes.c_int64"]),
    "total": ("int64_t total", "total: i64", "", ["ctypes.c_int64"]),
    "by": ("int64_t by", "by: i64", "", ["ctypes.c_int64"]),
    "copies": ("size_t copies", "copies: usize", "", ["COUNT"]),
    "variables": ("const int64_t *variables, size_t n", "variables: *const i64, n: usize", LIST % (3 * ("variables",)), ["POINTER", "COUNT"]),
    "tasks": ("const ivl_task *tasks, size_t n", "tasks: *const Task, n: usize", LIST % (3 * ("tasks",)), ["POINTER", "COUNT"]),
    "limits": ("const ivl_limits *limits", "limits: *const SearchLimits", "let limits = unsafe { limits_at(limits) };", ["POINTER"]),
    "numbers": ("IVL_NUMBER *numbers, size_t room", "numbers: *mut B, room: usize", "is_list(numbers, room)?; let numbers = unsafe { buffer(numbers, room) };", ["POINTER", "COUNT"]),
    "flag": ("bool stops", "stops: bool", "", ["ctypes.c_bool"]),
}
# of an answer: where it is written in C, in Rust, and how Rust tells it
ANSWERS = {
    "yes": ("", "", "yes(%s)"),
    "done": ("", "", "done(%s)"),
    "code": ("", "", "(%s).map(|()| 0)"),
    "told": ("", "", "%s"),
    "list": ("", "", "Ok(tell(%s, out))"),
    "number": ("IVL_NUMBER *found", "found: *mut B", "unsafe { found_at(found, %s) }"),
    "value": ("uint64_t *found", "found: *mut u64", "unsafe { found_at(found, %s) }"),
    "run": ("OF(pair) *found", "found: *mut R", "unsafe { found_at(found, (%s).map(R::of_run)) }"),
    "entry": ("OF(entry) *found", "found: *mut Entry<B>", "unsafe { found_at(found, (%s).map(Entry::of)) }"),
    "size": ("uint64_t *size", "size: *mut u64", "unsafe { size_at(size, %s) }"),
    "counted": ("uint64_t *count", "count: *mut u64", "unsafe { counted_at(count, %s) }"),
}
for made in KINDS:
    failing = "%s" if made.startswith("sol") else "(%s).map_err(out_of_memory)"
    place = "made: *mut *mut %s<B>" % made.capitalize()
    ANSWERS["made " + made] = "OF(%s) **made" % made, place, "unsafe { made_at(made, || %s) }" % failing


class Call:
    """A line of the table, and what the header says of it."""

    def __init__(self, line, said):
        found = re.fullmatch(r"(%s) (\w+)\(([\w, ]+)\) -> ([\w ]+) = (.+)" % "|".join(KINDS), line)
        if not found:
            raise SystemExit(f"{TABLE}: no call: {line}")
        self.kind, self.name, words, self.answer, self.does = found.groups()
        self.takes, *self.parameters = words.split(", ")
        self.said = said

    def words(self, handle, place):
        """The words of the parameters, of one language."""
        words = [handle.get(self.takes, ""), *(PARAMETERS[one][place] for one in self.parameters), ANSWERS[self.answer][place]]
        rust = f"{self.kind.capitalize()}<B>"
        return ", ".join(word.replace("KIND", self.kind).replace("HANDLE", rust) for word in words if word)

    def in_c(self):
        words = self.words({"reads": "const OF(KIND) *KIND", "edits": "OF(KIND) *KIND"}, 0)
        words = re.sub(r"OF\((\w+)\)", r"IVL_OF(\1)", words)
        return f"IVL_NODISCARD int64_t IVL_OF({self.kind}_{self.name})({words});\n"

    def in_rust(self):
        words = self.words({"reads": "it: *const HANDLE", "edits": "it: *mut HANDLE"}, 1)
        taken = [] if self.takes == "none" else [f"let it = unsafe {{ {self.takes}(it) }}?;"]
        if self.takes == "edits" and "other" in self.parameters:
            # the same handle twice: what it has is copied, so that Rust is not given it twice
            taken = ["let copied = unsafe { copied_if_same(it, other) }?;", *taken]
        taken += [PARAMETERS[one][2] for one in self.parameters if PARAMETERS[one][2]]
        # before anything is changed
        place = ANSWERS[self.answer][1].split(":")[0]
        taken += [f"is_place({place})?;"] if place else []
        if len(taken) > 1 and "copied" in taken[0]:
            taken = [line.replace("{ reads(other) }?", "{ other_than(&copied, other) }?") for line in taken]
        body = "".join(f"        {line}\n" for line in taken)
        return exported(f"{self.kind}_{self.name}", words, " -> i64", f"    guarded(|| {{\n{body}        {ANSWERS[self.answer][2] % self.does}\n    }})\n")

    def in_python(self):
        words = [] if self.takes == "none" else ["POINTER"]
        for one in self.parameters:
            words += PARAMETERS[one][3]
        words += ["POINTER"] if ANSWERS[self.answer][0] else []
        return f'    "{self.kind}_{self.name}": ([{", ".join(words)}], ctypes.c_int64),\n'


def exported(name, words, answer, body):
    """A function that the library exports for a type of bounds."""
    return (f"#[unsafe(export_name = concat!(\"ivl_{name}_\", $bounds))]\n"
            f"unsafe extern \"C\" fn {name}({words}){answer} {{\n{body}}}\n")


def calls(text):
    made, said = [], ""
    for line in text.splitlines():
        if line.startswith("| "):
            said += line[2:] + "\n"
        elif line and not line.startswith("#"):
            made.append(Call(line, said))
            said = ""
    return made


def header_of_type(all_calls, template, head):
    """The part of the header that is read for each type of bounds."""
    for kind in KINDS:
        text = ""
        for call in all_calls:
            if call.kind == kind:
                lines = call.said.rstrip().splitlines()
                text += "\n/* " + "\n   ".join(lines) + " */\n" if lines else ""
                text += call.in_c()
        template = template.replace(f"@{kind}\n", text)
    return f"/* {head} */\n" + template


def by_cargo(all_calls, head):
    frees = [exported(f"{kind}_free", f"it: *mut {kind.capitalize()}<B>", "", "    unsafe { free(it) }\n") for kind in KINDS]
    text = "\n".join(frees + [call.in_rust() for call in all_calls])
    text = "".join(f"        {line}\n" if line else "\n" for line in text.splitlines())
    return (f"// {head}\n//! The calls of handles: each tests what it is given, and makes the call of the proved set, map or search.\n"
            "use super::handles::*;\nuse super::solver::{Solutions, Solver, Task, best};\nuse super::{buffer, list};\n"
            "use intervallum::proved::Global;\nuse intervallum::proved::ivl_buffers::pair::{PairI64, PairU64};\n"
            "use intervallum::proved::ivl_buffers::writing::tell;\nuse intervallum::proved::prelude::*;\n\n"
            "/// The calls of one type of bounds, whose names end with it.\nmacro_rules! calls {\n"
            "    ($module:ident, $bound:ty, $pair:ty, $bounds:literal) => {\n    mod $module {\n        use super::*;\n\n"
            "        type B = $bound;\n        type R = $pair;\n\n" + text + "    }\n    };\n}\n\n"
            "calls!(of_i64, i64, PairI64, \"i64\");\ncalls!(of_u64, u64, PairU64, \"u64\");\n")


def in_cpp(all_calls, head):
    """The calls of one type of bounds, by whether it is signed."""
    types = [f"    using {name} = ivl_{name}_##type; \\\n" for name in ("pair", "entry", *KINDS)]
    frees = [f"    static constexpr auto {kind}_free = ivl_{kind}_free_##type; \\\n" for kind in KINDS]
    named = [f"    static constexpr auto {call.kind}_{call.name} = ivl_{call.kind}_{call.name}_##type; \\\n" for call in all_calls]
    return (f"// {head}\n// The calls of intervallum_handles.h by the type of bounds, for intervallum_handles.hpp.\n"
            "#ifndef INTERVALLUM_HANDLE_CALLS_HPP\n#define INTERVALLUM_HANDLE_CALLS_HPP\n\n#include \"intervallum_handles.h\"\n\n#include <cstdint>\n\n"
            "namespace ivl::detail {\n\ntemplate <bool is_signed> struct handle_calls;\n\n"
            "#define IVL_HANDLE_CALLS(is_signed, type, of_number) \\\n    template <> struct handle_calls<is_signed> { \\\n    using number = of_number; \\\n"
            + "".join(types + frees + named) + "    }\n"
            "IVL_HANDLE_CALLS(true, i64, std::int64_t);\nIVL_HANDLE_CALLS(false, u64, std::uint64_t);\n#undef IVL_HANDLE_CALLS\n\n"
            "} // namespace ivl::detail\n\n#endif\n")


def in_python(all_calls):
    frees = "".join(f'    "{kind}_free": ([POINTER], None),\n' for kind in KINDS)
    return "HANDLE_SHAPES: dict[str, tuple[list[Any], Any]] = {\n" + frees + "".join(call.in_python() for call in all_calls) + "}\n"
