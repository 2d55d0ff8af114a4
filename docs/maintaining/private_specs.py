#!/usr/bin/env python3
"""Compares specs/private/ with what private code alone cites.

    private_specs.py TREE

A definition is public if a clause of a `pub fn`, of the model of a public type or of a trait cites it, or another crate does, or a public
definition does. A file none of whose definitions is public is for private code alone, and stands in specs/private/. Each file that stands
elsewhere is printed. Exit status: 0 if there is none, else 1.
"""
from __future__ import annotations
import re
import sys
from pathlib import Path

TOKEN = re.compile(r"[A-Za-z_][A-Za-z0-9_'-]*")
DECL = re.compile(r"^(?:abbrev |unfoldable |opaque )*(?:pub )?(?:abbrev |unfoldable )?(?:data |record )?([A-Za-z_][\w'-]*) (?:\(|:|\{)", re.M)
NESTED = re.compile(r"^  (?:(?:abbrev |unfoldable )pub|pub (?:data|record)) ([A-Za-z_][\w'-]*) (?:\(|:|\{)", re.M)


def declared_in(text: str) -> set[str]:
    """The names of the definitions of a file, those of a `module _` block too."""
    return set(DECL.findall(text)) | set(NESTED.findall(text))


def public_text(text: str, types: set[str]) -> str:
    """The parts of a source file that a user reads: signatures and clauses of pub items, models of these public types, traits."""
    out, keep, in_trait = [], False, False
    for line in text.split("\n"):
        # each method of a public trait is public, to the end of the trait
        if re.match(r"\s*pub trait", line):
            in_trait = True
        elif line == "}":
            in_trait = False
        if re.match(r"\s*ghost use|\s*use |\s*//", line):
            continue
        model = re.match(r"\s*impl(?:<.*>)? Model for (\w+)", line)
        if model and model.group(1) not in types:
            keep = False
        elif re.match(r"\s*(pub |impl Model|impl<.*> Model|pub trait|impl .* for )", line) and not re.match(r"\s*pub\((crate|super)\)", line):
            keep = True
        elif re.match(r"\s*(pub\((crate|super)\) )?(const )?fn ", line) and not re.match(r"\s*pub ", line) and not in_trait:
            keep = False
        if keep:
            out.append(line)
    return "\n".join(out)


def imported(text: str, crate: str) -> dict[str, str]:
    """The definitions of a crate that a file imports, as `module.name`, by the words that stand for them there."""
    names = {}
    for m in re.finditer(rf"Rattle\.{crate}\.specs\.([\w.]+)\.\{{([^}}]*)\}}", text):
        for part in m.group(2).split(","):
            name, _, alias = part.strip().partition(" as ")
            names[alias or name] = f"{m.group(1)}.{name}"
    return names


def meant(text: str, crate: str, module: str, own: set[str], words: set[str]) -> set[str]:
    """What words of a file stand for: definitions that it imports, or its own."""
    names = imported(text, crate)
    return {names.get(word, f"{module}.{word}") for word in words if word in names or word in own}


def main() -> None:
    top = Path(sys.argv[1])
    wrong: list[str] = []
    for crate in sorted(p for p in (top / "crates").iterdir() if (p / "specs").is_dir()):
        specs = crate / "specs"
        files = sorted(f for f in specs.rglob("*.antt") if f.name != "Lib.antt")
        if not files or crate.name.endswith(("tests", "bench")):
            continue
        declared: dict[Path, set[str]] = {}
        bodies: dict[str, set[str]] = {}
        for f in files:
            text, module = f.read_text(), ".".join(f.relative_to(specs).with_suffix("").parts)
            own = declared_in(text)
            declared[f] = {f"{module}.{name}" for name in own}
            for block in re.split(r"\n\n+", text):
                words = meant(text, crate.name, module, own, set(TOKEN.findall(block)))
                for name in declared_in(block):
                    bodies.setdefault(f"{module}.{name}", set()).update(words)
        sources = [src.read_text() for src in (crate / "src").rglob("*.rt")]
        types = set(re.findall(r"^\s*pub (?:struct|enum) (\w+)", "\n".join(sources), re.M))
        public: set[str] = set()
        for text in sources:
            public |= meant(text, crate.name, "", set(), set(TOKEN.findall(public_text(text, types))))
        for other in (top / "crates").iterdir():
            for part in ("src", "specs"):
                if other != crate and (other / part).is_dir():
                    for f in (other / part).rglob("*.*t"):
                        if f.suffix in (".rt", ".antt"):
                            public |= set(imported(f.read_text(), crate.name).values())
        todo = list(public)
        while todo:
            for name in bodies.get(todo.pop(), set()) - public:
                public.add(name)
                todo.append(name)
        for f in files:
            if not declared[f]:
                continue
            apart, cited = f.parent.name == "private", declared[f] & public
            if apart and cited:
                names = ", ".join(sorted(name.rpartition(".")[2] for name in cited))
                wrong.append(f"{f.relative_to(top / 'crates')}: public code cites {names}")
            if not apart and not cited:
                wrong.append(f"{f.relative_to(top / 'crates')}: only private code cites it")
    print("\n".join(wrong) or "all stand where they belong")
    sys.exit(1 if wrong else 0)


if __name__ == "__main__":
    main()
