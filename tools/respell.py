#!/usr/bin/env python3
"""Brings the repository's own definitions and lemmas to snake case, after port.py: once, at the top of the checkout.

What is declared in crates/*/specs and in the lemma files crates/*/proofs/*.antt is renamed wherever it is used: in those files, in proofs,
in clauses, in must-fail edits, and where a page names it between backticks. Functions of src/ and names that Rattle makes keep theirs.
"""
import collections
import os
import re
import sys

# A name is what stands between spaces, brackets and the marks that join names into paths.
TOKEN = re.compile(r"[^\s(){}\[\],;.:\"`⌜⌝◌«»]+")
MARKS = r"((?:pattern |unfoldable |abbrev |axiom |pub )*)"
# Names that go by their words: a lemma about what the library now calls `get_or`, and parameters of definitions.
BY_WORDS = {"getD-mem": "get_or_mem", "endsRoom": "ends_room", "hopsRoom": "hops_room", "routesRoom": "routes_room"}
# A name of the library that a line of a proof begins with, as if it were declared there.
LIBRARYS = {"mul-le-mul_right"}
# Words of the library that a dash joins to a name, as in `count_up-append`.
WORDS = {"append", "length", "take", "drop", "map", "nil", "cons", "set"}


def read(path):
    with open(path, encoding="utf-8") as f:
        return f.read()


def antt_files():
    for folder, dirs, files in os.walk("crates"):
        dirs[:] = sorted(d for d in dirs if d != "out")
        for name in sorted(files):
            if name.endswith(".antt"):
                yield os.path.join(folder, name)


def is_lemma_file(path):
    parts = path.split("/")
    return parts[2] == "specs" or (parts[2] == "proofs" and len(parts) == 4)


def declared():
    """Every name that is declared, with the files that declare it."""
    found = collections.defaultdict(set)
    for path in antt_files():
        if not is_lemma_file(path):
            continue
        for line in read(path).splitlines():
            text = line.strip()
            if text.startswith(("--", "use ", "let ", "in ", "λ", "(", "∙", "=", "|", "→")):
                continue
            m = re.match(MARKS + r"(?:(record|data|ruleset) )?((?:[^\s(){}\[\],;.:\"]+ )*?[^\s(){}\[\],;.:\"]+)(?: \{[^:}]*\})? ?(?::| [({]| =)", text)
            if not m or re.match(r"(module|infix|syntax|pub mod|mod|unfolding|where|open)\b", m.group(3)):
                continue
            if " : " not in text and not text.endswith(" :") and not m.group(2):
                continue
            names = m.group(3).split(" ") if not m.group(2) else [m.group(3).split(" ")[0]]
            head = text[: text.index(" :")] if " :" in text else text
            if "=" in head or "λ" in head:
                continue
            for name in names:
                if not name.startswith("◌"):
                    found[name].add(path)
    return found


def snake(word):
    word = re.sub(r"(?<=[a-z0-9])(?=[A-Z])", "_", word)
    return word.lower() if re.search(r"[A-Za-z]", word) else word


def respelled(name, functions):
    """The name in snake case: a dash stays where it joins two names of functions."""
    parts = name.split("-")
    out = snake(parts[0])
    for k in range(1, len(parts)):
        left, right = "-".join(parts[:k]), "-".join(parts[k:])
        joins = left in functions and (right in WORDS or right in functions)
        out += ("-" if joins else "_") + snake(parts[k])
    return out


def is_type(name):
    return name[:1].isupper() and "-" not in name


def renaming():
    names = declared()
    camel = {n for n in names if n[:1].islower() and re.search(r"[a-z0-9][A-Z]", n) and "-" not in n}
    table = {}
    for n in sorted(names):
        if is_type(n) or n in LIBRARYS:
            continue
        new = respelled(n, camel)
        if new != n:
            table[n] = new
    table.update(BY_WORDS)
    # A lemma that would have its function's name, or the name of another, ends in `_lem`.
    for n in camel & set(table):
        if table[n] in names:
            table[table[n]] = table[n] + "_lem"
    taken = collections.Counter(set(names) - set(table))
    for n in sorted(table, key=lambda n: ("-" in n, n)):
        while taken[table[n]]:
            table[n] += "_lem"
        taken[table[n]] += 1
    return table, names


def fields(names):
    """Names that are fields of records: those declared within one."""
    out = set()
    for path in antt_files():
        if not is_lemma_file(path):
            continue
        inside = False
        for line in read(path).splitlines():
            if re.match(r"\s*(?:pub )?record ", line):
                inside = True
                depth = len(line) - len(line.lstrip())
                continue
            if inside and line.strip() and len(line) - len(line.lstrip()) <= depth:
                inside = False
            if inside:
                m = re.match(r"\s*(?:pub )?([^\s(){}\[\],;.:\"]+(?: [^\s(){}\[\],;.:\"]+)*) :", line)
                if m and not line.strip().startswith("--"):
                    out.update(m.group(1).split(" "))
    return out


def turn(text, table):
    return TOKEN.sub(lambda m: table.get(m.group(0), m.group(0)), text)


def turn_antt(text, table):
    """Names in the code of an antt file; in its comments those in camel case alone, since words may be joined by a dash there."""
    out = []
    for line in text.split("\n"):
        at = line.find("-- ")
        if at >= 0 and not line[:at].strip():
            out.append(line[:at] + turn_comment(line[at:], table))
        else:
            out.append(turn(line, table))
    return "\n".join(out)


def turn_comment(text, table):
    return TOKEN.sub(lambda m: table[m.group(0)] if m.group(0) in table and re.search(r"[a-z][A-Z]", m.group(0)) else m.group(0), text)


def turn_proof(text, table, field_names):
    """A proof by hand: what it imports from specs or lemma files, and fields of records; its own names stay."""
    imported = set()
    for m in re.finditer(r"^use Rattle\.\w+\.(?:specs|proofs)\.[\w.]+\.\{([^}]*)\}", text, re.M):
        imported.update(re.split(r"[,\s]+", m.group(1)))
    aliases = set(re.findall(r"^use Rattle\.\w+\.(?:specs|proofs)\.[\w.]+ as (\w+)", text, re.M)) - {"tie"}
    own = set(re.findall(r"^(?:pub |abbrev |unfoldable )*([^\s(){}\[\],;.:\"]+)(?: [^:=\n]*)? :", text, re.M)) | set(re.findall(r"tie\.[A-Za-z]+-([^\s(){}\[\],;.:\"]+)", text))
    usable = {n: table[n] for n in imported if n in table and n not in own}
    inside = {n: table[n] for n in field_names if n in table and n not in own}

    def one(m):
        word, before = m.group(0), text[: m.start()]
        if word in usable:
            return usable[word]
        dotted = before.endswith(".") and not before.endswith(" .")
        if dotted:
            head = re.search(r"([\w']+)\.$", before)
            if head and head.group(1) in aliases and word in table:
                return table[word]
        after = text[m.end() : m.end() + 3]
        if word in inside and (dotted or after.startswith(" = ") or after.startswith(" =\n")):
            return inside[word]
        return word

    return TOKEN.sub(one, text)


def turn_rt(text, table):
    """Names in `ghost use` lines and in clauses, which may go over several lines."""
    out, depth, open_line = [], 0, False
    for line in text.split("\n"):
        stripped = line.strip()
        starts = re.match(r"(ghost use|ghost |requires|ensures|also_|\.ensures)", stripped)
        if starts or open_line:
            out.append(turn(line, table))
            depth = depth + line.count("{") - line.count("}") if open_line else line.count("{") - line.count("}")
            open_line = depth > 0
        elif stripped.startswith("//"):
            out.append(turn_comment(line, table))
        else:
            out.append(line)
    return "\n".join(out)


def turn_page(text, table):
    return re.sub(r"`[^`\n]+`", lambda m: turn(m.group(0), table), text)


def turn_edit(text, table):
    out = []
    antt = False
    for line in text.split("\n"):
        if line.startswith("file:"):
            antt = line.strip().endswith(".antt")
            out.append(line)
        elif line.startswith(("old:", "new:")) and (antt or re.search(r"[≡λ]|ensures|requires|ghost", line)):
            key, rest = line.split(":", 1)
            out.append(key + ":" + turn(rest, table))
        else:
            out.append(turn_comment(line, table) if line.startswith("#") else line)
    return "\n".join(out)


def plain(path, text):
    """Fields of records and cases of the worked calls keep the plain name: no function of that name is in their way."""
    if path.startswith("crates/worked/"):
        text = re.sub(r"\b(first_fit|check_starts)_lem\b", r"\1", text)
    text = re.sub(r"(?<=\.)(end_within|ends_after|rows_read|some_link)_lem\b", r"\1", text)
    text = re.sub(r"(?m)^( +)(end_within|ends_after|rows_read|some_link)_lem =(?= |$)", r"\1\2 =", text)
    return re.sub(r"(?m)^( +pub )(end_within|ends_after|rows_read|some_link)_lem :", r"\1\2 :", text)


def main():
    table, names = renaming()
    field_names = fields(names)
    if "--list" in sys.argv:
        for n in sorted(table):
            print(n, table[n])
        return
    jobs = []
    for path in antt_files():
        if is_lemma_file(path):
            jobs.append((path, lambda t: turn_antt(t, table)))
        else:
            jobs.append((path, lambda t: turn_proof(t, table, field_names)))
    for folder, dirs, files in os.walk("crates"):
        dirs[:] = sorted(d for d in dirs if d != "out")
        for name in sorted(files):
            if name.endswith(".rt"):
                jobs.append((os.path.join(folder, name), lambda t: turn_rt(t, table)))
            if name.endswith(".edit"):
                jobs.append((os.path.join(folder, name), lambda t: turn_edit(t, table)))
    pages = ["README.md"] + [os.path.join(f, n) for f, _, ns in os.walk("docs") for n in ns if n.endswith(".md")]
    jobs += [(p, lambda t: turn_page(t, table)) for p in pages if p != "docs/PORT.md"]
    changed = 0
    for path, job in jobs:
        old = read(path)
        new = job(old)
        if new != old:
            changed += 1
            with open(path, "w", encoding="utf-8") as f:
                f.write(new)
    for path, _ in jobs:
        old = read(path)
        new = plain(path, old)
        if new != old:
            with open(path, "w", encoding="utf-8") as f:
                f.write(new)
    print(f"respell: {len(table)} names, {changed} files")


if __name__ == "__main__":
    main()
