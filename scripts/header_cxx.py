"""Generates `bindings/c/pergidau.hpp` from the exports and `pergidau.hpp.in`, for `header.py`."""
import textwrap

from exports import TOP, snake

TEMPLATE = TOP / "bindings/c/pergidau.hpp.in"
PLAIN = {"usize": "std::size_t", "i64": "std::int64_t", "u64": "std::uint64_t",
         "u32": "std::uint32_t", "u8": "std::uint8_t", "f64": "double"}


def type_in_cxx(name):
    return PLAIN.get(name) or snake(name)


def parameter(name, kind, inside):
    """Returns a parameter in C++, and the arguments that it gives to the function in C."""
    spelled = type_in_cxx(inside)
    views = {"read": {"u8": "input"}.get(inside, f"view<const {spelled}>"),
             "write": {"u8": "output"}.get(inside, f"view<{spelled}>")}
    if kind in views:
        return f"{views[kind]} {name}", [f"{name}.data()", f"{name}.size()"]
    if kind == "pass":
        return f"{spelled} {name}", [name]
    return f"{'const ' * (kind == 'in')}{spelled} &{name}", [f"&{name}"]


def summary(words):
    """Returns a comment with the first sentence of a documentation."""
    text = " ".join(words).partition(". ")[0].rstrip(".").replace("`", "").replace("exported_", "")
    lines = textwrap.wrap(text + ".", 94)
    if len(lines) == 1:
        return f"/* {lines[0]} */\n"
    return "/*\n" + "".join(f" * {it}\n" for it in lines) + " */\n"


def call(before, name, passed):
    """Returns a statement with the call of a function in C."""
    line = f"    {before} pergidau_{name}({', '.join(passed)});\n"
    if len(line) <= 100:
        return line
    arguments = textwrap.wrap(", ".join(passed), 90)
    return f"    {before} pergidau_{name}(\n        " + "\n        ".join(arguments) + ");\n"


def wrapper(export, kind_of):
    """Returns the function in C++ for an export."""
    taken, passed, written = [], [], None
    for name, form in export.parts:
        kind, inside = kind_of(form)
        if name == "out":
            written = type_in_cxx(inside)
            passed.append("&out.value")
        else:
            spelled, arguments = parameter(name, kind, inside)
            taken.append(spelled)
            passed += arguments
    returned = f"inline result<{written}>" if written else "[[nodiscard]] inline pergidau_code"
    head = f"{returned} {export.name}({', '.join(taken)}) noexcept"
    if len(head) > 100:
        head = head.replace("(", "(\n    ", 1).replace(", ", ",\n    ")
    body = call("out.code =" if written else "return", export.name, passed)
    if written:
        body = f"    result<{written}> out{{}};\n{body}    return out;\n"
    return f"{summary(export.words)}{head}\n{{\n{body}}}\n"


def messages(names):
    """Returns the functions that give the messages, and those that identify the library."""
    for name, enum in (("message", "code"), *((f"{it}_message", it) for it in names)):
        passed = enum.split("_")[-1]
        yield (f"inline std::string_view {name}(pergidau_{enum} {passed}) noexcept\n"
               f"{{\n    return pergidau_{name}({passed});\n}}\n")
    for returned, name in (("std::string_view", "version"), ("int", "abi_version")):
        yield f"inline {returned} {name}() noexcept\n{{\n    return pergidau_{name}();\n}}\n"
    yield "inline bool is_proved() noexcept\n{\n    return pergidau_is_proved() == 1;\n}\n"


def header_cxx(written, kind_of, names, exports):
    """Returns the header. `names` are those of the enums of errors."""
    functions = [*messages(names), *(wrapper(it, kind_of) for it in exports)]
    text = TEMPLATE.read_text(encoding="utf-8")
    return text.replace("@WRITTEN@", written).replace("@FUNCTIONS@", "\n".join(functions))
