#!/usr/bin/env python3
"""What a reader must believe: the definitions on which the contract of `top`, the program's one public call, rests.

    tools/trust.py            prints them, lowest crate first, each with the sentence that heads its file
    tools/trust.py --write    puts that list into docs/TRUST.md
    tools/trust.py --check    is done with status 1 where docs/TRUST.md has another list, or a file lies in the wrong folder

A file of definitions is reached where the contract of `top` names one of its words, or a file that is reached imports it.
The file specs/Numbers.antt of a crate, which its law `numbers` proves of the constants, counts as reached. What isn't
reached serves contracts inside the program alone, and lies in the folder specs/parts/ of its crate."""

import os
import re
import sys

ROOT = os.path.dirname(os.path.dirname(os.path.abspath(__file__)))
TOP = "crates/fdpic_cmd/src/entry.rt"
PAGE = "docs/TRUST.md"
BEGIN, END = "<!-- made by tools/trust.py --write -->\n", "<!-- end -->\n"
# Definitions that what is to be built next (library calls) will reach, and those of writers and laws: they lie with the others.
AHEAD = {
    f"crates/{it}.antt"
    for it in (
        "rofixup/specs/Fixups", "plt_code/specs/Table", "elf_write/specs/WritableRel", "elf_write/specs/Writes",
        "write_laws/specs/ReadBack", "write_laws/specs/ObjectReadBack", "a32_text/specs/Printed", "a32_text/specs/Shown",
        "a32_asm/specs/Assembles", "a32_asm/specs/AssembledIsWritable", "a32_asm/specs/Shown",
        "load_removal/specs/Going", "load_removal/specs/TakenOut", "library_model/specs/Holding", "library_model/specs/Opens",
        "library_model/specs/Searches", "library_model/specs/Closes",
    )
}
IMPORT = re.compile(r"\buse Rattle\.(\w+)\.specs\.([\w.]+?)(?:\.\{([^}]*)\})?(?: as \w+)?;?\s*$", re.M)


def text_of(path):
    with open(os.path.join(ROOT, path), encoding="utf-8") as file:
        return file.read()


def crates():
    """The crates of the repository, each after those that it stands on."""
    below = {}
    for line in text_of("crates.txt").splitlines():
        if line and not line.startswith("#"):
            name, deps = line.split(":")
            below[name.split()[0]] = deps.split()
    done = []
    while len(done) < len(below):
        done += [it for it in below if it not in done and all(dep in done or dep not in below for dep in below[it])]
    return done


def imports(text, known):
    """The files of definitions that a text imports, each with the words that it takes."""
    for crate, module, words in IMPORT.findall(text):
        parts = module.split(".")
        if crate not in known or parts[0] in ("declared", "contracts"):
            continue
        for count in range(len(parts), 0, -1):
            path = f"crates/{crate}/specs/{'/'.join(parts[:count])}.antt"
            if os.path.isfile(os.path.join(ROOT, path)):
                yield path, [it.strip().split(" as ")[-1] for it in words.split(",") if it.strip()]
                break


def reached(known):
    """The files that the contract of `top` reaches, and those that pin the constants of such files."""
    text = text_of(TOP)
    contract = text[text.index("pub fn top<") :]
    contract = contract[: contract.index("\n{")]
    named = lambda words: not words or any(re.search(rf"(?<![\w.]){re.escape(it)}(?!\w)", contract) for it in words)
    todo = [path for path, words in imports(text, known) if named(words)]
    pinned = [f"crates/{crate}/specs/Numbers.antt" for crate in known]
    todo += [path for path in pinned if os.path.isfile(os.path.join(ROOT, path))]
    found = set()
    while todo:
        path = todo.pop()
        if path not in found:
            found.add(path)
            todo += [it for it, _ in imports(text_of(path), known)]
    return found


def files(crate):
    """The files of definitions of a crate, but those that only list others."""
    top = os.path.join(ROOT, "crates", crate, "specs")
    found = [os.path.relpath(os.path.join(at, name), ROOT) for at, _, names in os.walk(top) for name in names]
    return sorted(it for it in found if it.endswith(".antt") and os.path.basename(it) not in ("Lib.antt", "parts.antt"))


def sentence(path):
    """The comment that heads a file."""
    lines = []
    for line in text_of(path).splitlines():
        if not line.startswith("--"):
            break
        lines.append(line[2:].strip())
    return " ".join(lines)


def listing(known, found):
    lines = []
    for crate in known:
        own = [it for it in files(crate) if it in found]
        if own:
            lines += ["", f"### {crate}", ""]
            lines += [f"- `{os.path.basename(it)[:-5]}`: {sentence(it)}" for it in own]
    count = sum(len(text_of(it).splitlines()) for it in found)
    others = [it for crate in known for it in files(crate) if it not in found and it not in AHEAD]
    rest = sum(len(text_of(it).splitlines()) for it in others)
    head = f"{len(found)} files of {count} lines; {len(others)} others, of {rest} lines, serve contracts inside the program alone, "
    head += f"and {len(AHEAD)} wait for what is to be built."
    return "\n".join([head, *lines]) + "\n"


def misplaced(known, found):
    """The files that lie in specs/parts/ and are reached, or are not reached and lie elsewhere."""
    for crate in known:
        for path in files(crate):
            if (path in found or path in AHEAD) == ("/parts/" in path):
                yield path


def main(words):
    known = crates()
    found = reached(known)
    made = listing(known, found)
    if words == ["--write"]:
        page = text_of(PAGE)
        with open(os.path.join(ROOT, PAGE), "w", encoding="utf-8") as file:
            file.write(page[: page.index(BEGIN)] + BEGIN + made + page[page.index(END) :])
    elif words == ["--check"]:
        wrong = list(misplaced(known, found))
        for path in wrong:
            print(f"{path}: {'is reached, and belongs into specs/' if path in found else 'is not reached, and belongs into specs/parts/'}")
        page = text_of(PAGE)
        if page[page.index(BEGIN) + len(BEGIN) : page.index(END)] != made:
            print(f"{PAGE}: run tools/trust.py --write")
            return 1
        return 1 if wrong else 0
    else:
        print(made, end="")
    return 0


if __name__ == "__main__":
    sys.exit(main(sys.argv[1:]))
