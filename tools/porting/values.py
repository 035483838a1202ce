#!/usr/bin/env python3
"""Turns clauses that hand a word the lent slices themselves to clauses that hand it their values.

usage: tools/porting/values.py CRATE..      at the top of the repository, once for each crate

A `&` and a `&mut` are of two types today, so no one word takes either: `before heads tails ..` and `after heads tails ..`
become the word for the records, of `heads.old` or `heads.now` and of `heads.new`. The words and what stands for them are
in WORDS, by the module that a file brings them in from.
"""
import pathlib
import re
import sys

# module: word -> (module and word that stands for it, the value of a &mut)
WORDS = {
    "Rattle.deque_rules.specs.Lending": {
        "links_before": ("Rattle.deque_rules.specs.Links", "links", "old"),
        "links_after": ("Rattle.deque_rules.specs.Links", "links", "new"),
    },
    "Rattle.deque_rules.specs.Deque": {
        "before": ("Rattle.deque_rules.specs.Deque", "state", "old"),
        "after": ("Rattle.deque_rules.specs.Deque", "state", "new"),
    },
    "Rattle.wheel_rules.specs.Lent": {
        "nodes_before": ("Rattle.wheel_rules.specs.Lent", "nodes", "old"),
        "nodes_after": ("Rattle.wheel_rules.specs.Lent", "nodes", "new"),
        "before": ("Rattle.wheel_rules.specs.Lent", "lent", "old"),
        "after": ("Rattle.wheel_rules.specs.Lent", "lent", "new"),
    },
    "Rattle.face_rules.specs.Face": {
        "before": ("Rattle.face_rules.specs.Face", "records_of", "old"),
        "after": ("Rattle.face_rules.specs.Face", "records_of", "new"),
    },
    "Rattle.face_rules.specs.nodes.Lending": {
        "columns_before": ("Rattle.face_rules.specs.nodes.Columns", "columns", "old"),
        "columns_after": ("Rattle.face_rules.specs.nodes.Columns", "columns", "new"),
    },
    "Rattle.story.specs.Held": {
        "before": ("Rattle.face_rules.specs.Face", "records_of", "old"),
        "after": ("Rattle.face_rules.specs.Face", "records_of", "new"),
    },
}
USE = re.compile(r"^ghost use ([\w.]+)\.\{([^}]*)\};\n", re.M)
PARAM = re.compile(r"(\w+)\s*:\s*(&(?:'\w+ )?(?:mut )?)?")


def turned_clause(text, kinds, words):
    """The words' arguments, which follow them, get their values."""
    def of(match):
        name, value = words[match[1]]
        args = match[2]
        def arg(m):
            kind = kinds.get(m[0])
            if kind == "&":
                return m[0] + ".now"
            return m[0] + "." + value if kind == "&mut" else m[0]
        return name + re.sub(r"(?<![\w.])[a-z_]\w*(?![\w.])", arg, args)
    word = "|".join(map(re.escape, sorted(words, key=len, reverse=True)))
    return re.sub(r"(?<![\w.])(" + word + r")((?:\s+[a-z_][\w.]*)+)", of, text)


def main(crates):
    for crate in crates:
        for path in sorted(pathlib.Path("crates", crate, "src").rglob("*.rt")):
            text = path.read_text(encoding="utf-8")
            words, drop, wanted = {}, set(), []
            for m in USE.finditer(text):
                names = [n.strip() for n in m[2].split(",")]
                for n in names:
                    if n in WORDS.get(m[1], {}):
                        module, word, value = WORDS[m[1]][n]
                        words[n] = (word, value)
                        drop.add((m[1], n))
                        wanted.append((module, word))
            if not words:
                continue
            had = {(m[1], n.strip()) for m in USE.finditer(text) for n in m[2].split(",")}
            def use(m):
                names = [n.strip() for n in m[2].split(",")]
                names = [n for n in names if (m[1], n) not in drop]
                for module, word in list(wanted):
                    if module == m[1]:
                        if word not in names:
                            names.append(word)
                        wanted[:] = [w for w in wanted if w != (module, word)]
                return f"ghost use {m[1]}.{{{', '.join(names)}}};\n" if names else ""
            text = USE.sub(use, text)
            extra = "".join(f"ghost use {module}.{{{word}}};\n" for module, word in sorted(set(wanted) - had))
            first = USE.search(text)
            at = first.start() if first else text.index("\nuse ") + 1
            text = text[:at] + extra + text[at:]
            # function by function
            parts = re.split(r"(?m)^(?=(?:pub )?(?:const )?(?:extern \"C\" )?fn |    (?:pub )?fn )", text)
            out = []
            for part in parts:
                m = re.match(r"\s*(?:pub )?(?:const )?(?:extern \"C\" )?fn \w+", part)
                if m:
                    depth, i = 0, part.index("(", m.end() - 1) if "(" in part[m.end() - 1:] else -1
                    j = i
                    while True:
                        depth += part[j] == "("
                        depth -= part[j] == ")"
                        j += 1
                        if depth == 0:
                            break
                    kinds = {}
                    for p in re.finditer(r"(\w+)\s*:\s*(&mut\b|&)?", part[i:j]):
                        if p[2]:
                            kinds[p[1]] = p[2]
                    body = part.find("\n{\n", j)
                    body = len(part) if body < 0 else body
                    part = part[:j] + turned_clause(part[j:body], kinds, words) + part[body:]
                out.append(part)
            text = "".join(out)
            for w in words:
                for m in re.finditer(r"(?<![\w.])" + w + r"(?![\w.])", "\n".join(l for l in text.splitlines() if "//" not in l)):
                    print("left:", path, w)
                    break
            path.write_text(text, encoding="utf-8")


main(sys.argv[1:])
