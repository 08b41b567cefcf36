"""What the documents are compared with: the public contracts of the code, and the definitions of specs/."""

import glob
import os
import re


def read(path):
    with open(path, encoding="utf-8") as file:
        return file.read()


def flat(text):
    """The text on one line, without comments and with single spaces."""
    lines = [line for line in text.splitlines() if not line.strip().startswith("//")]
    return re.sub(r"\s+", " ", " ".join(lines)).strip()


class Contract:
    """The head and the clauses of a public function, with the type or trait that it belongs to."""

    def __init__(self, path, owner, name, lines):
        self.path = path
        self.owner = owner
        self.name = name
        self.lines = lines
        self.text = re.sub(r" ?(\{\}?|;)$", "", flat("\n".join(lines)))

    def clauses(self):
        return set(re.findall(r"\b(?:requires|ensures) (\w+) \{", self.text))


def contract_lines(lines):
    """The function that begins at the first line, up to its body, or to the end of its declaration."""
    indent = re.match(" *", lines[0]).group()
    taken = []
    for line in lines:
        own = re.match(" *", line).group() == indent
        if own and line.strip() in ("{", "{}"):
            break
        taken.append(line)
        if own and re.search(r"\{\}?$", line):
            break
        if line.endswith(";") and "".join(taken).count("{") == "".join(taken).count("}"):
            break
    return taken


def exported(crate):
    """The names that a library passes on; None for a program, whose modules see each other's."""
    root = "crates/%s/src/lib.rt" % crate
    if not os.path.exists(root):
        return None
    return set(re.findall(r"\w+", " ".join(re.findall(r"^pub use (.*?);", read(root), re.DOTALL | re.MULTILINE))))


def code_of(path):
    """The lines of a source file up to its tests."""
    return re.split(r"#\[cfg\(test\)\]\s*mod tests \{", read(path))[0].splitlines()


def sources():
    return sorted(glob.glob("crates/*/src/**/*.rt", recursive=True))


def contracts_in(path):
    """The public contracts of one source file."""
    names = exported(path.split("/")[1])
    lines = code_of(path)
    header = []
    for at, line in enumerate(lines):
        if re.match(r"(pub )?(impl|trait)\b", line):
            header = re.findall(r"\w+", re.sub(r"<[^<>]*>", "", line))
        if line == "}":
            header = []
        head = re.match(r" *(pub )?(?:const )?fn (\w+)", line)
        if not head or not (head[1] or "for" in header or "trait" in header):
            continue
        owner = header[-1] if header else ""
        if names is None or (owner or head[2]) in names:
            yield Contract(path, owner, head[2], contract_lines(lines[at:]))


def contracts():
    return [contract for path in sources() for contract in contracts_in(path)]


def ghosts_in(path):
    """What a file says for proofs of its public types: what they are in contracts, and what their traits want."""
    names = exported(path.split("/")[1])
    text = "\n".join(code_of(path))
    for header, body in re.findall(r"^((?:pub )?(?:impl|trait)\b.*?)\{$(.*?)^\}", text, re.DOTALL | re.MULTILINE):
        owner = re.findall(r"\w+", re.sub(r"<[^<>]*>", "", header))[-1]
        if names is None or owner in names:
            for name, ghost in re.findall(r"ghost (\w+)(?: =|:) (\{.*?\});", body, re.DOTALL):
                if name not in ("view", "invariant"):
                    yield ghost


def imports(text):
    """For each imported name the crate, the file of specs/ and the name there."""
    found = {}
    for crate, module, names in re.findall(r"\buse Rattle\.(\w+)\.specs\.([\w.]+)\.\{(.*?)\}", text, re.DOTALL):
        path = "crates/%s/specs/%s.antt" % (crate, module.replace(".", "/"))
        for name in names.split(","):
            words = name.split()
            if words and os.path.exists(path):
                found[words[-1]] = (path, words[0])
    return found


def public_names():
    """The definitions that public clauses name, each as its file and its name."""
    used = set()
    for path in sources():
        known = imports(read(path))
        clauses = [contract.text for contract in contracts_in(path)] + list(ghosts_in(path))
        used |= {known[word] for word in re.findall(r"\w+", " ".join(clauses)) if word in known}
    return used


def definitions(path):
    """Each name that a file of specs/ defines, a constructor too, with the text that defines it."""
    text = re.sub(r"--.*", "", read(path))
    found = {}
    for piece in re.split(r"(?m)^(?= *(?:abbrev |unfoldable )?pub )", text)[1:]:
        for name in re.findall(r"pub (?:data |record )?(\w+)|^ +(\w+) :", piece, re.MULTILINE):
            found[name[0] or name[1]] = piece
    # A record is made of what its fields are.
    for piece, name in re.findall(r"(?m)^(pub record (\w+).*\n(?:  .*\n?)*)", text):
        found[name] = piece
    return found


def needed_names():
    """The definitions that public clauses name, and those that these are made of."""
    todo = list(public_names())
    needed = set()
    while todo:
        path, name = todo.pop()
        if (path, name) in needed:
            continue
        needed.add((path, name))
        known = imports(read(path))
        here = definitions(path)
        for word in re.findall(r"\w+", here.get(name, "")):
            if word in known:
                todo.append(known[word])
            elif word in here:
                todo.append((path, word))
    return needed
