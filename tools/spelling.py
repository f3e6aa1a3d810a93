#!/usr/bin/env python3
"""Brings the repository's own names in specifications, proofs and clauses to one spelling: words in snake case, with plain underscores.

usage: python3 tools/spelling.py [ROOT]     (ROOT: the repository's top; by default the current folder)

A name turns if a file of specs/, or a file right in proofs/, declares it (a definition, a lemma, a constructor, a field) or if a file binds it with capitals inside. Capitals inside a name that begins small, and dashes,
become underscores: `edgeOf` is `edge_of`, `kept-exactly` is `kept_exactly`. A name that begins with a capital (a type, a fact) stays, and so does a name that a file
imports from the language's library. Where two names would fall together in some file, the one that was a lemma's gets `_lem`. Functions, types and constants of src/,
exported names, strings, inputs and outputs stay: of a .rt file only clauses, `ghost use` lines and the code spans of comments are read. In papers only code spans turn.
It prints which names got `_lem`, and each clause where a turned name would meet a parameter of its function.
"""
import collections
import glob
import os
import re
import sys

WORD = re.compile(r'[^\s(){}.;,@"«»\[\]`]+')
DECLARED = re.compile(r"^( *)((?:abbrev |unfoldable |pub |data |record |mutual )*)([^\s:(){}.,;]+)((?: \{[^}]*\}| ?\([^)]*\))*) :(?= |$)", re.M)
USE = re.compile(r"^(use [^\s;{]+?)(\.\{[^}]*\})?((?: as \S+)?)$", re.M)
GHOST_USE = re.compile(r"(ghost use [^\s;{]+?)(\.\{[^}]*\})?((?: as \S+)?;)")
CLAUSE = re.compile(r"\b(?:requires|ensures|ghost)\b\*?\s*(?:\w+\s*:?\s*)?\{")
LIBRARY = re.compile(r"(?!Rattle\.)|Rattle\.(?:core|std|std_alloc|std_collections|std_heap|std_io|io|libc|os|check)\b")
MADE = {"c", "w", "l", "g", "goal", "tie"}  # what stands behind these heads is made from the code


def in_snake_case(name):
    def apart(m):
        last = m.end() < len(name) and name[m.end()].islower() and len(m[0]) > 1
        return "_" + (m[0][:-1] + "_" + m[0][-1] if last else m[0]).lower()

    return re.sub(r"(?<=[a-z0-9])[A-Z]+", apart, name).replace("-", "_")


def is_camel(name):
    return bool(re.search(r"[a-z0-9][A-Z]", name))


def bare(text):
    return re.sub(r"--.*", "", text)


def words_of(text):
    """The words of an antt file that can name something: of an import only what stands in braces or behind `as`."""
    return set(WORD.findall(USE.sub(lambda m: (m[2] or "") + " " + m[3], bare(text))))


def table_of(texts, aliases):
    declared, plain = collections.defaultdict(set), set()
    library = set()
    for path, text in texts.items():
        if "/specs/" in path or re.search(r"/proofs/[^/]+\.antt$", path):
            for m in DECLARED.finditer(bare(text)):
                declared[m[3]].add(path)
                if re.search("abbrev|unfoldable|data|record", m[2]):
                    plain.add(m[3])
        for m in USE.finditer(text):
            if LIBRARY.match(m[1][len("use ") :]) and m[2]:
                library |= {it.split(" as ")[0].strip() for it in m[2][2:-1].split(",")}
    table = {}
    for name in declared:
        if re.match(r"[a-z_]", name) and name not in library and in_snake_case(name) != name:
            table[name] = in_snake_case(name)
    words = {path: words_of(text) for path, text in texts.items()}
    # what a file binds or takes under a name of its own
    for name in {it for there in words.values() for it in there} | aliases:
        if re.match(r"[a-z_]", name) and is_camel(name) and name not in library:
            table.setdefault(name, in_snake_case(name))
    lemmas = {}
    while True:
        met = collections.defaultdict(set)
        for path, there in words.items():
            new = collections.defaultdict(set)
            for it in there:
                new[table.get(it, it)].add(it)
            for name, olds in new.items():
                if len(olds) > 1:
                    met[name] |= olds
        more = {
            it: name + "_lem"
            for name, olds in met.items()
            for it in olds
            if it in declared and not is_camel(it) and it not in plain and not table.get(it, it).endswith("_lem")
        }
        if not more:
            return table, lemmas, {n: o for n, o in met.items()}
        table.update(more)
        lemmas.update(more)


class Turner:
    def __init__(self, table):
        self.table = table

    def code(self, text):
        """antt's text: each word, but for what is made from the code behind c., goal. and the like."""

        def one(m):
            before = text[: m.start()]
            if before.endswith("."):
                head = re.search(r"(?:^|[^\w.'-])([\w'-]+)\.$", before[-60:])
                if head and head[1] in MADE:
                    return m[0]
            return self.table.get(m[0], m[0])

        return WORD.sub(one, text)

    def comment(self, text):
        text = re.sub(r"`[^`\n]*`", lambda m: WORD.sub(lambda w: self.table.get(w[0], w[0]), m[0]), text)
        return WORD.sub(lambda w: self.table.get(w[0], w[0]) if is_camel(w[0]) else w[0], text)

    def antt(self, text):
        out = []
        for line in text.split("\n"):
            use = USE.match(line)
            if use:
                out.append(use[1] + self.items(use[2]) + self.code(use[3]))
                continue
            at = re.search(r"(?:(?<=\s)|^)--", line)
            at = at.start() if at else len(line)
            out.append(self.code(line[:at]) + self.comment(line[at:]))
        return "\n".join(out)

    def items(self, braces):
        """The names of an import: `a as b` that now reads `b as b` is `b`."""
        if not braces:
            return ""
        its = []
        for it in braces[2:-1].split(","):
            parts = [self.table.get(p, p) for p in it.strip().split(" as ")]
            its.append(parts[0] if len(parts) == 1 or parts[0] == parts[1] else " as ".join(parts))
        return ".{" + ", ".join(its) + "}"

    def rt(self, text, path, said):
        out, at = [], 0
        head = ""
        for m in re.finditer(r"//[^\n]*|\bghost use [^;]*;|" + CLAUSE.pattern, text):
            if m.start() < at:
                continue
            plain = text[at : m.start()]
            out.append(plain)
            head += plain
            end = m.end()
            if m[0].startswith("//"):
                new = re.sub(r"`[^`\n]*`", lambda s: WORD.sub(lambda w: self.table.get(w[0], w[0]) if is_camel(w[0]) or "-" in w[0] else w[0], s[0]), m[0])
            elif m[0].startswith("ghost use"):
                new = GHOST_USE.sub(lambda u: u[1] + self.items(u[2]) + self.code(u[3]), m[0])
            else:
                depth = 1
                while depth:
                    depth += {"{": 1, "}": -1}.get(text[end], 0)
                    end += 1
                clause = text[m.end() : end]
                fn = [it for it in re.finditer(r"\bfn (\w+)[^(]*\(([^)]*)\)", head)]
                names = set(re.findall(r"(\w+)\s*:", fn[-1][2])) if fn else set()
                for w in WORD.findall(clause):
                    if w in self.table and self.table[w] in names:
                        said.append(f"{path}: {w} becomes {self.table[w]}, a parameter of {fn[-1][1]}")
                new = m[0] + self.code(clause)
            out.append(new)
            at = end
        out.append(text[at:])
        return "".join(out)

    def paper(self, text):
        return re.sub(r"(?<!`)`[^`\n]+`(?!`)", lambda s: WORD.sub(lambda w: self.table.get(w[0], w[0]) if is_camel(w[0]) or "-" in w[0] else w[0], s[0]), text)


def main():
    root = sys.argv[1] if len(sys.argv) > 1 else "."
    paths = [p for p in sorted(glob.glob(root + "/crates/**/*.antt", recursive=True)) if "/out/" not in p]
    texts = {p: open(p, encoding="utf-8").read() for p in paths}
    sources = {p: open(p, encoding="utf-8").read() for p in sorted(glob.glob(root + "/crates/*/src/**/*.rt", recursive=True))}
    aliases = {a for t in sources.values() for u in re.findall(r"ghost use [^;]*;", t) for a in re.findall(r" as ([\w'-]+)", u)}
    table, lemmas, met = table_of(texts, aliases)
    turner, said = Turner(table), []
    new = {p: turner.antt(t) for p, t in texts.items()}
    for p, text in sources.items():
        texts[p] = text
        new[p] = turner.rt(text, os.path.relpath(p, root), said)
    for p in [root + "/README.md", *sorted(glob.glob(root + "/docs/*.md")), *sorted(glob.glob(root + "/*/README.md"))]:
        texts[p] = open(p, encoding="utf-8").read()
        new[p] = turner.paper(texts[p])
    for p in new:
        if new[p] != texts[p]:
            with open(p, "w", encoding="utf-8") as f:
                f.write(new[p])
    for old, name in sorted(lemmas.items()):
        print(f"lemma: {old} is {name}")
    for line in said:
        print("look: " + line)
    for name, olds in sorted(met.items()):
        print(f"look: {', '.join(sorted(olds))} fall together as {name}")
    print(f"{len(table)} names; {sum(new[p] != texts[p] for p in new)} files")


main()
