"""The functions that an edit changes: their names, each with its module. The prover knows the rest of their paths."""
import re
from pathlib import Path

FUNCTION = re.compile(r"( *)(?:pub(?:\([^)]*\))? )?(?:(?:const|unsafe|final) )*fn (\w+)")
# A block of methods of a type's own.
METHODS = re.compile(r"impl(?:<.*?>)? (\w+)(?:<.*>)? \{$")
CONSTANT = re.compile(r" *(?:pub(?:\([^)]*\))? )?(?:const|static) (\w+)")
# A constant that more functions name is tried on the whole crate.
MAX_USES = 12


def type_at(lines, number):
    """The name of the type whose own method has this line, and two colons; empty: none has."""
    block = next((line for line in reversed(lines[:number]) if line and line[0] not in " /#"), "")
    found = METHODS.match(block)
    return f"{found[1]}::" if found else ""


def function_at(lines, number):
    """The name of the function that has this line, with that of its type; None: none has."""
    for at in range(number, -1, -1):
        found = FUNCTION.match(lines[at])
        if found:
            is_other = f"{found[1]}}}" in lines[at + 1 : number]
            return None if is_other else (type_at(lines, at) if found[1] else "") + found[2]
    return None


def constant_at(lines, number):
    """The name of the constant that has this line; None: none has."""
    for at in range(number, -1, -1):
        found = CONSTANT.match(lines[at])
        if found or lines[at].endswith(";") and at < number:
            return found and found[1]
    return None


def module_of(file):
    """The path of a file's module; empty for the root."""
    parts = Path(file).with_suffix("").parts[1:]
    return "::".join(parts[:-1] if parts[-1] in ("lib", "main", "mod") else parts)


def uses_of(name, folder):
    """The functions of a crate that name a constant."""
    found = set()
    for path in sorted((folder / "src").rglob("*.rt")):
        lines = path.read_text(encoding="utf-8").splitlines()
        for number, line in enumerate(lines):
            if re.search(rf"\b{name}\b", line.partition("//")[0]) and (function := function_at(lines, number)):
                found.add((module_of(path.relative_to(folder)), function))
    return found


def functions_of(texts, folder):
    """The functions that new texts of a crate's files change, each with its module; none where they change another item."""
    found = set()
    for file, text in texts.items():
        lines, new = (folder / file).read_text(encoding="utf-8").splitlines(), text.splitlines()
        if not file.startswith("src/") or len(lines) != len(new):
            return set()
        for number in (it for it, line in enumerate(lines) if line != new[it]):
            function, constant = function_at(lines, number), constant_at(lines, number)
            if not function and not constant:
                return set()
            found |= {(module_of(file), function)} if function else uses_of(constant, folder)
    return found if len(found) <= MAX_USES else set()
