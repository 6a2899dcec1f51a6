"""Takes the bodies out of the functions of a crate's copy that are not asked for, so that nothing has to be proved of them.

A proof of a function needs the contracts of the functions that it calls, and not their bodies. So each of these gets a body that does nothing, and in
place of its proof a hole, which a check with --allow-holes takes for granted. What is asked for is proved, or is not, as before, in less time."""
import glob
import os
import re

CLAUSE = re.compile(r" *(requires|ensures|ghost|decreases)\b")
FUNCTION = re.compile(r"( *)(pub(\([a-z]+\))? )?fn (\w+)")


def type_of(header):
    """The type of an inherent impl, or nothing where it is one of a trait."""
    if not header.startswith("impl") or " for " in header:
        return None
    rest, depth = header.removeprefix("impl"), 0
    for at, letter in enumerate(rest):
        depth += letter == "<"
        depth -= letter == ">" and rest[at - 1] != "-"
        if depth == 0 and not letter.isspace():
            rest = rest[at + 1 :] if letter == ">" else rest[at:]
            break
    found = re.match(r"\s*(\w+)", rest)
    return found[1] if found else None


def body_of(lines, at, indent):
    """Where the body of the function at this line opens and closes, or nothing where it has none or an empty one."""
    for opens in range(at, len(lines)):
        line = lines[opens]
        if line == indent + "{" or line.endswith("{") and not CLAUSE.match(line):
            break
        if not CLAUSE.match(line) and line.endswith(("{}", ";", "}")):
            return None
    closes = next((it for it in range(opens + 1, len(lines)) if lines[it] == indent + "}"), None)
    return closes and (opens, closes)


def homes_of(modules):
    """The module in which each type is declared, of those whose names are declared once: its methods go by that, wherever they stand."""
    found = {}
    for module, lines in modules:
        for line in lines:
            declared = re.match(r"(pub(\([a-z]+\))? )?(struct|enum) (\w+)", line)
            if declared:
                found.setdefault(declared[4], []).append(module)
    return {kind: at[0] for kind, at in found.items() if len(at) == 1}


def functions_of(module, lines, homes):
    """The functions of a file that stand free or in an inherent impl, each with where its body opens and closes."""
    kind = None
    for at, line in enumerate(lines):
        if re.match(r"(impl|trait)\b", line):
            end = next(it for it in range(at, len(lines)) if lines[it].rstrip().endswith(("{", "{}")))
            kind = type_of(" ".join(lines[at : end + 1]).split("{")[0])
        elif line == "}":
            kind = None
        found = FUNCTION.match(line)
        if found and (kind if found[1] else True) and len(found[1]) in (0, 4):
            body = body_of(lines, at, found[1])
            if body:
                path = [*homes.get(kind, module), kind] if found[1] else module
                yield "::".join([*path, found[4]]), body


def hollow(room, crate, asked):
    """Does so in this copy of a crate, for all but the functions that are asked for."""
    texts, modules, places = {}, {}, {}
    for folder, _, names in os.walk(f"{room}/src"):
        for name in names:
            path = f"{folder}/{name}"
            modules[path] = [it for it in os.path.relpath(path, f"{room}/src").removesuffix(".rt").split("/") if it not in ("lib", "main")]
            with open(path, encoding="utf-8") as it:
                texts[path] = it.read().split("\n")
    homes = homes_of((modules[path], lines) for path, lines in texts.items())
    for path, lines in texts.items():
        for function, body in functions_of(modules[path], lines, homes):
            places.setdefault(function, []).append((path, *body))
    # (of two with one name it is not clear whose proof is whose)
    taken = [(*found[0], function) for function, found in places.items() if function not in asked and len(found) == 1]
    # From below, so that those above stay where they are.
    for path, opens, closes, function in sorted(taken, reverse=True):
        indent = re.match(" *", texts[path][closes])[0]
        texts[path][opens + 1 : closes] = [f"{indent}    loop {{}}"]
        leave_open(f"{room}/proofs/{function.replace('::', '/')}", crate, function)
    for path, lines in texts.items():
        with open(path, "w", encoding="utf-8") as it:
            it.write("\n".join(lines))


def leave_open(place, crate, function):
    """Puts a hole in place of a function's proof."""
    for file in glob.glob(f"{place}/*.antt"):
        if os.path.basename(file) in ("Answers.antt", "Invariants.antt", "Proof.antt"):
            os.remove(file)
    os.makedirs(place, exist_ok=True)
    path, name = function.replace("::", "."), function.split("::")[-1]
    with open(f"{place}/Proof.antt", "w", encoding="utf-8") as it:
        it.write(f"use Rattle.{crate}.proofs.{path}.Statement.{{statement}}\n\n")
        it.write(f"pub {name}_spec : {{M : Type 1}} → statement M\n{name}_spec = ?\n")
