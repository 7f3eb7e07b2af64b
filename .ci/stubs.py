"""Stubs for functions of a crate in Rattle: a stub loops for ever, and the proof of its contract is a hole.

A function that calls stubs is proved over their contracts, as ever. The prover has no body and no proof of a stub to
check, which is most of the work where a function calls many others.
"""
import re
import shutil
from pathlib import Path

# The head of a function that can be a stub: with at most one impl around it, and called by a path.
HEAD = re.compile(r"^( {4})?(?:pub(?:\([^)]*\))? )?fn (\w+)")
# A trait, if there is one, and a type with its arguments, after the parameters of an impl.
OWNER = re.compile(r"^ (?:(\w+)(?:<.*?>)? for )?(\w+)(?:<(.*)>)?(?: where .*)?$")
TYPE = re.compile(r"^(?:pub(?:\([^)]*\))? )?(?:struct|enum) (\w+)", re.M)
PROOF = """use Rattle.{library}.Statement as stated

pub {name}_spec : {{M : Type 1}} → stated.statement M
{name}_spec = ?
"""


def parameters_of(head):
    """Returns the parameters of an impl, and what follows them in its head."""
    if not head.startswith("<"):
        return "", head
    depth = 0
    for at, letter in enumerate(head):
        depth += (letter == "<") - (letter == ">" and head[at - 1] != "-")
        if depth == 0:
            return head[1:at], head[at + 1 :]
    return "", ""


def owner_of(lines, at):
    """Returns the trait, or None, and the type of the impl whose head begins at a line, as the prover names the type:
    with its arguments, if not all of them are parameters of the impl. Returns None if it has no such name."""
    head = lines[at]
    while not head.endswith("{") and at + 1 < len(lines):
        at += 1
        head += " " + lines[at].strip()
    parameters, rest = parameters_of(head.removesuffix("{").rstrip().removeprefix("impl"))
    found = OWNER.match(rest)
    if not found:
        return None
    trait, name, words = found.groups()
    arguments = [it for it in (words or "").split(", ") if it and not it.startswith("'")]
    if set(arguments) - set(re.findall(r"(?:^|, )(\w+)", parameters)):
        name = "+".join([name, *arguments])
    return trait, name


def body_of(lines, at, indent):
    """Returns the lines of the braces of the body of the function whose head begins at a line, if it has a body there,
    as rt fmt lays it out."""
    for begin in range(at, len(lines)):
        line = lines[begin]
        if line == indent + "{" or line.endswith(" {") and (begin == at or line.startswith(indent + ")")):
            break
        if line.endswith((";", "}")) and (begin == at or re.match(indent + r"\S", line)):
            return None
    else:
        return None
    end = next((it for it in range(begin, len(lines)) if lines[it] == indent + "}"), None)
    return end and (begin, end)


def module_of(path, source):
    """Returns the module of a file below a folder of sources, in parts."""
    module = path.relative_to(source).with_suffix("").parts
    return () if module in (("lib",), ("main",)) else module


def find_homes(source):
    """Returns the module of each type of the sources. The prover names a type's own functions by it, wherever their
    impl stands, if all arguments of the type are parameters of the impl."""
    homes = {}
    for path in sorted(source.rglob("*.rt")):
        for name in TYPE.findall(path.read_text(encoding="utf-8")):
            homes.setdefault(name, []).append(module_of(path, source))
    return {name: modules[0] for name, modules in homes.items() if len(modules) == 1}


def stub_file(path, module, homes, is_kept):
    """Stubs the functions of a file, which is a module's. Returns the path of each, in parts."""
    lines, after, owner, stubs = path.read_text(encoding="utf-8").split("\n"), [], "", []
    at = 0
    while at < len(lines):
        line = lines[at]
        if re.match(r"impl\b", line):
            trait, name = owner_of(lines, at) or ("", None)
            owner = None if trait else name
        elif re.match(r"\S", line) and line != "{":
            owner = ""
        head = HEAD.match(line)
        body = head and bool(head[1]) == bool(owner) and body_of(lines, at, head[1] or "")
        place = homes.get(owner, module)
        function = head and [*place, *([owner] if owner else []), head[2]]
        if body and not is_kept(function) and "#[cycle" not in lines[at - 1]:
            stubs.append(function)
            after += [*lines[at : body[0] + 1], f"{head[1] or ''}    loop {{}}"]
            at = body[1]
        else:
            after.append(line)
            at += 1
    path.write_text("\n".join(after), encoding="utf-8")
    return stubs


def stub(room, crate, kept):
    """Stubs the functions of a copy of a crate, but for those at whose ends the kept paths are."""
    ends = [it.split("::") for it in kept]
    stubs = []
    source = room / "src"
    homes = find_homes(source)
    for path in sorted(source.rglob("*.rt")):
        stubs += stub_file(
            path, module_of(path, source), homes, lambda function: any(function[-len(it) :] == it for it in ends)
        )
    for function in stubs:
        folder = room / "proofs" / Path(*function)
        shutil.rmtree(folder, ignore_errors=True)
        # The proofs of the function's closures.
        shutil.rmtree(folder.parent / "fn" / folder.name, ignore_errors=True)
        folder.mkdir(parents=True)
        library = ".".join((crate, "proofs", *function))
        (folder / "Proof.antt").write_text(PROOF.format(library=library, name=function[-1]), encoding="utf-8")
    return stubs
