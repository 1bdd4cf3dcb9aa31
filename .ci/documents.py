#!/usr/bin/env python3
"""What the documents say of the repository, held against it. Run by .ci/run behind the gate.

    documents.py            every check; the exit status is 1 where one fails
    documents.py believed   prints the table of what a reader must believe, as docs/PROVED.md has it

The checks:
- believed: from the contracts of public calls, the ghost members of public traits and the models of types, every definition
  that they cite is followed, through all crates. The files of specs/ that are reached are exactly those that the table
  in docs/PROVED.md lists.
- paths: each path that a document names exists; a file without its crate's name exists in a crate that the line or its
  heading names.
- crates: the table of crates in docs/ARCHITECTURE.md says what crates.txt says.
- names: each name of code that the documents of contracts cite stands in some crate.
- widths: no line of a clause passes 110 columns.
"""
import collections
import glob
import os
import re
import sys

TOP = os.path.dirname(os.path.dirname(os.path.abspath(__file__)))
TABLE = "docs/PROVED.md"
WIDTH = 110
WORD = re.compile(r"[^\W\d][\w'-]*|◌?[^\s\w(){}\[\],;.:\"'`]+◌?")
USE = re.compile(r"use Rattle\.(ann_\w+)\.(specs|proofs)\.([\w.]+?)(?:\.\{([^}]*)\}| as (\w+)|;|\s*$)", re.M)
CLAUSE = re.compile(r"^\s*(requires|ensures)\b")
HEAD = re.compile(r"((?:(?:abbrev|unfoldable|pub|record|data) )*)([^\s({:]+)")


def read(path):
    with open(path, encoding="utf-8") as file:
        return file.read()


def product_crates():
    return [os.path.basename(p) for p in sorted(glob.glob("crates/*")) if os.path.isdir(p + "/src") and not p.endswith("_tests")]


def imports(text):
    """The names that a file brings in from the crates: name -> (crate, folder, file, its name there)."""
    found = {}
    for crate, folder, module, names, alias in USE.findall(text):
        if names:
            for part in names.split(","):
                words = part.split()
                if not words:
                    continue
                found[words[-1]] = (crate, folder, module, words[0])
        elif alias:
            found[alias] = (crate, folder, module, None)
    return found


def definitions(text):
    """The definitions of a file of specs/ or proofs/: name -> its whole text. What stands in a `module .. where` has that
    line in its text too, a constructor leads to its `data`, and a name that is given on to where it comes from."""
    parts, name, modules, is_data = collections.defaultdict(str), None, [], False
    for line in text.split("\n"):
        if not line.strip() or line.lstrip().startswith("--"):
            continue
        # The body of a module lies two blanks further in than its line.
        level = (len(line) - len(line.lstrip())) // 2
        del modules[level:]
        line = line.removeprefix("  " * len(modules))
        if line.startswith("module "):
            modules.append(line + "\n")
        if line.startswith("pub use "):
            for again in re.findall(r"[^\s{},]+", line.partition("{")[2]):
                parts[again] += line + "\n"
            name = None
        elif line.startswith(("module ", "use ", "infix")):
            name = None
        elif not line[0].isspace():
            start = HEAD.match(line)
            if start:
                name, is_data = start.group(2), "data " in start.group(1)
                parts[name] += "".join(modules) if name not in parts else ""
        if name:
            parts[name] += line + "\n"
            constructor = re.match(r"\s+(\S+) :", line)
            if constructor and is_data:
                parts[constructor.group(1)] += name + "\n"
    return parts


class Files:
    """Files of definitions, read once."""

    def __init__(self):
        self.known = {}

    def of(self, crate, folder, module):
        path = f"crates/{crate}/{folder}/{module.replace('.', '/')}.antt"
        if path not in self.known:
            text = read(path) if os.path.exists(path) else ""
            self.known[path] = (definitions(text), imports(text))
        return path, *self.known[path]


def balanced(lines, start):
    """The text from a line on up to where its braces close."""
    depth, out = 0, []
    for line in lines[start:]:
        out.append(line)
        depth += line.count("{") - line.count("}")
        if depth <= 0 and "{" in "".join(out):
            break
    return "\n".join(out)


def public_names(crate):
    """What the root of a crate gives away."""
    root = [p for p in (f"crates/{crate}/src/lib.rt", f"crates/{crate}/src/main.rt") if os.path.exists(p)]
    names = set()
    for path in root:
        text = read(path)
        for group in re.findall(r"pub use [\w:]+::\{([^}]*)\}", text):
            names |= {word.split(" as ")[0].strip() for word in group.split(",")}
        names |= set(re.findall(r"pub use (?:\w+::)*(\w+);", text))
        names |= set(re.findall(r"^pub (?:fn|struct|enum|trait|type) (\w+)", text, re.M))
    return names


def contracts(crate):
    """The ghost texts by which callers see a crate: (text, the file's imports)."""
    public = public_names(crate)
    for path in sorted(glob.glob(f"crates/{crate}/src/**/*.rt", recursive=True)):
        text = read(path)
        lines, brought = text.split("\n"), imports(text)
        owner, is_public, in_function, depth, owner_depth = None, False, False, 0, None
        kind = None
        for number, line in enumerate(lines):
            head = re.match(r"\s*(pub(?:\(\w+\))? )?(impl|trait)\b(.*)", line)
            if head and not line.strip().startswith("//"):
                rest = re.sub(r"<(?:[^<>]|<[^<>]*>)*>", "", head.group(3))
                if head.group(2) == "trait":
                    owner, kind = re.match(r"\s*(\w+)", rest).group(1), "trait"
                else:
                    over = re.search(r"\bfor\s+&?(?:mut )?(\w+)", rest)
                    owner = over.group(1) if over else re.match(r"\s*(\w+)", rest).group(1)
                    kind = "model" if re.match(r"\s*Model\b", rest) else ("impl of a trait" if over else "impl")
                owner_depth = depth
            function = re.match(r"\s*(pub(?:\(\w+\))? )?(?:final )?(?:const )?(?:unsafe )?fn (\w+)", line)
            if function:
                in_function = True
                seen = function.group(1) == "pub "
                if kind is None:
                    is_public = seen and function.group(2) in public
                elif kind == "impl":
                    is_public = seen and owner in public
                else:
                    is_public = owner in public and kind != "model"
            if CLAUSE.match(line) and in_function and is_public:
                yield balanced(lines, number), brought
            if re.match(r"\s*ghost (?!use)", line) and (kind == "model" or (kind is not None and owner in public)):
                yield balanced(lines, number), brought
            depth += line.count("{") - line.count("}")
            if kind is not None and depth <= owner_depth and "}" in line:
                owner, kind, owner_depth, in_function = None, None, None, False


def reached():
    """The files of definitions that the public contracts reach, and the names on the way that no file defines."""
    files, seen, waiting = Files(), set(), []

    def follow(text, brought, own=None):
        words = set(WORD.findall(text))
        for word in words:
            if word in brought:
                waiting.append(brought[word])
            elif own and word in own[1]:
                waiting.append((*own[0], word))
        for alias, member in re.findall(r"\b(\w+)\.(\w+)", text):
            if alias in brought and brought[alias][3] is None:
                waiting.append((*brought[alias][:3], member))

    for crate in product_crates():
        for text, brought in contracts(crate):
            follow(text, brought)
    found, lost = set(), set()
    while waiting:
        place = waiting.pop()
        if place in seen or place[3] is None or ".declared." in f".{place[2]}." or place[2].startswith("contracts"):
            continue
        seen.add(place)
        crate, folder, module, name = place
        path, defined, brought = files.of(crate, folder, module)
        found.add(path)
        if name in defined:
            follow(defined[name], brought, ((crate, folder, module), defined))
        else:
            lost.add(f"{path} doesn't define {name}, which a contract cites from there")
    return found, lost


def believed_rows():
    rows = collections.defaultdict(list)
    for path in reached()[0]:
        _, crate, folder, *rest = path.split("/")
        name = "/".join(rest).removesuffix(".antt")
        rows[crate].append(name if folder == "specs" else f"proofs/{name}")
    return {crate: sorted(names) for crate, names in rows.items()}


def listed_rows():
    rows = {}
    for line in read(TABLE).split("\n"):
        cells = re.match(r"\|\s*`(ann_\w+)`\s*\|\s*((?:`[\w/]+`(?:, )?)+)\s*\|\s*$", line)
        if cells:
            rows[cells.group(1)] = sorted(re.findall(r"`([\w/]+)`", cells.group(2)))
    return rows


def check_believed():
    yield from sorted(reached()[1])
    believed, listed = believed_rows(), listed_rows()
    for crate in sorted(set(believed) | set(listed)):
        for name in sorted(set(believed.get(crate, [])) - set(listed.get(crate, []))):
            yield f"{TABLE} doesn't list {crate}: {name}, which a public contract reaches"
        for name in sorted(set(listed.get(crate, [])) - set(believed.get(crate, []))):
            yield f"{TABLE} lists {crate}: {name}, which no public contract reaches"


def documents():
    return ["README.md", *sorted(glob.glob("docs/*.md")), *sorted(glob.glob("bench/**/*.md", recursive=True))]


def check_paths():
    for document in documents():
        text, heading = read(document), ""
        here = os.path.dirname(document)
        for path in re.findall(r"\]\(([^)#:]+)(?:#[^)]*)?\)", text):
            if not os.path.exists(os.path.normpath(os.path.join(here, path))):
                yield f"{document} links to {path}, which doesn't exist"
        for path in re.findall(r"`((?:(?:crates|docs|bench|examples|\.ci)/|ann_\w+/)[\w./-]*\w)`", text):
            if not os.path.exists(path) and not os.path.exists(f"crates/{path}"):
                yield f"{document} names {path}, which doesn't exist"
        for line in text.split("\n"):
            heading = line if line.startswith("#") else heading
            crates = re.findall(r"\bann_[a-z_]+", heading + line)
            for path in re.findall(r"`(?!ann_|crates/)([\w/]+\.(?:rt|antt))`", line):
                if crates and not any(glob.glob(f"crates/{crate}/**/{path}", recursive=True) for crate in crates):
                    yield f"{document} names {path}, which none of {', '.join(crates)} has"


def check_crates():
    """The table of crates in ARCHITECTURE.md is crates.txt."""
    table = dict(re.findall(r"^\| `(ann_\w+)` \| [^|]+ \| ([^|]*) \|$", read("docs/ARCHITECTURE.md"), re.M))
    for crate, below in re.findall(r"^(ann_\w+)[^:\n]*:(.*)$", read("crates.txt"), re.M):
        if re.findall(r"\w+", table.pop(crate, "none")) != below.split():
            yield f"docs/ARCHITECTURE.md has {crate} on other crates than crates.txt"
    for crate in table:
        yield f"docs/ARCHITECTURE.md lists {crate}, which crates.txt hasn't"


def check_names():
    """Of names that are plainly ones of code, with a capital inside or an underscore."""
    known = set()
    for path in glob.glob("crates/**/*.rt", recursive=True) + glob.glob("crates/**/*.antt", recursive=True):
        known |= set(re.findall(r"\w+", read(path)))
    for document in ("docs/PROVED.md", "docs/DECISIONS.md", "docs/DEFINITIONS.md", "docs/FORMATS.md"):
        for span in re.findall(r"`([^`\n]+)`", read(document)):
            for name in re.findall(r"\b[A-Za-z]\w+", "" if "/" in span or "*" in span else span):
                if ("_" in name or re.search("[a-z][A-Z]", name)) and name not in known and not name.startswith("ann_"):
                    yield f"{document} names {name}, which no crate has"


def check_widths():
    for path in sorted(glob.glob("crates/*/src/**/*.rt", recursive=True)):
        inside = False
        for number, line in enumerate(read(path).split("\n"), 1):
            clause = bool(CLAUSE.match(line))
            if clause:
                inside = line.count("{") > line.count("}")
            if (clause or inside) and len(line) > WIDTH:
                yield f"{path}:{number} is a clause of {len(line)} columns"
            if inside and not clause and line.count("}") > line.count("{"):
                inside = False


def main():
    os.chdir(TOP)
    if sys.argv[1:] == ["believed"]:
        for crate, names in sorted(believed_rows().items()):
            print(f"| `{crate}` | {', '.join(f'`{name}`' for name in names)} |")
        return 0
    faults = [fault for check in (check_believed, check_paths, check_crates, check_names, check_widths) for fault in check()]
    for fault in faults:
        print(f"documents: {fault}")
    if not faults:
        print("documents: all hold")
    return 1 if faults else 0


if __name__ == "__main__":
    sys.exit(main())
