#!/usr/bin/env python3
"""Says which files of definitions must be believed, and which are inner.

The start is what a reader goes by: the definitions that the contracts of the public functions cite, and those in the statements of the
theorems that docs/PROMISES.md names. From there every definition leads on to the ones in its type and its body. A file of which no
definition is reached is inner: loop invariants and other forms that only proofs and private functions speak of. It belongs into
crates/NAME/specs/inner/. The tables of worked examples are listed by themselves.

    believed.py               the files, with their lines and pages
    believed.py --parted      a line for each place where the two are not parted; exits with 1 if there is one
    believed.py --table       the files that must be believed, as rows for docs/ARCHITECTURE.md
    believed.py --unreached   what a file that must be believed holds besides
"""

import pathlib
import re
import sys

ROOT = pathlib.Path(__file__).resolve().parents[2]
PAGE = 50
TABLES = {("worked", "Requests"), ("worked", "Calls"), ("worked", "Table"), ("worked", "Worked"), ("report", "ReportExample")}

USE = re.compile(r"^(?:ghost )?use (Rattle\.\S+?)(?:\.\{([^}]*)\}| as (\S+?));?$")
LABEL = re.compile(r"^( *)(ensures|requires) \w+ \{")
START = re.compile(r"^(?:unfoldable |abbrev )?(pub )?(record |data )?([^\s:(){}]+)(?= |$)")
TOKEN = re.compile(r"[^\s(){}\[\],;]+")


def module_of(path):
    """The crate and the module of an imported path, or None where it is neither a file of specs nor one of laws."""
    parts = path.split(".")
    if len(parts) < 4 or parts[3] == "declared":
        return None
    if parts[2] == "specs" or (parts[2] == "proofs" and is_laws(parts[-1])):
        return parts[1], ".".join(parts[3:])
    return None


def joined(lines):
    """The lines, with an import that goes over several of them on one."""
    begun = ""
    for line in lines:
        if begun or re.match(r"(ghost )?use .*\{[^}]*$", line):
            begun += line.strip() if begun else line
            if "}" not in line:
                continue
            line, begun = begun, ""
        yield line


class Text:
    """What a file imports: names to definitions, other names to modules, and the modules themselves."""

    def __init__(self):
        self.names = {}
        self.aliases = {}
        self.modules = set()

    def use(self, line):
        found = USE.match(line)
        module = module_of(found.group(1)) if found else None
        if module is None:
            return
        self.modules.add(module)
        if found.group(3):
            self.aliases[found.group(3)] = module
            return
        for item in found.group(2).split(","):
            words = item.split()
            if words:
                self.names[words[-1]] = (module, words[0])


def without_comment(line):
    return re.sub(r"(^|\s)--( .*)?$", "", line)


class Spec(Text):
    """A file of specs: its definitions with their text. What a module is given stands in front of each definition inside it."""

    def __init__(self, path, crate, module):
        super().__init__()
        self.key = (crate, module)
        self.lines = path.read_text().splitlines()
        self.definitions = {}
        self.constructors = {}
        self.read()

    def read(self):
        modules = []  # the indentation and the text of each module that is open
        current = header = None
        for line in joined(map(without_comment, self.lines)):
            text = line.strip()
            if not text:
                continue
            indent = len(line) - len(line.lstrip())
            if header is not None:
                header += " " + text
                if text.endswith("where"):
                    modules.append((header_indent, header))
                    header = None
                continue
            if indent == 0 and text.startswith("use "):
                self.use(text)
                continue
            while modules and indent <= modules[-1][0]:
                modules.pop()
            base = modules[-1][0] + 2 if modules else 0
            if indent == base and text.startswith("module "):
                header, header_indent, current = text, indent, None
                if text.endswith("where"):
                    modules.append((header_indent, header))
                    header = None
                continue
            found = START.match(text) if indent == base else None
            name = found.group(3) if found else None
            opens = found and (found.group(2) or text[found.end() :].startswith(" :"))
            if opens and name not in ("unfolding",):
                current = name
                self.definitions[name] = " ".join(given for _, given in modules)
                self.kind = found.group(2)
            elif current and self.kind == "data " and indent == base + 2 and " : " in text:
                self.constructors[text.split()[0]] = current
            if current:
                self.definitions[current] += "\n" + text

    def statement(self, name):
        """The type of a theorem, without its clauses."""
        kept = []
        for line in self.definitions.get(name, "").split("\n"):
            if kept and (line.startswith(name + " ") or line.startswith("unfolding ")) and not line.startswith(name + " :"):
                break
            kept.append(line)
        return "\n".join(kept)


def cited(text, file, specs):
    """The definitions that a text of a file cites. A dot behind a name is a field's, or the end of what a λ binds; behind a module's it is
    the name's own."""
    for token in TOKEN.findall(text):
        if token.startswith("."):
            continue
        name, *rest = token.split(".")
        module = None
        if name in getattr(file, "definitions", {}) or name in getattr(file, "constructors", {}):
            module = file.key
        elif name in file.names:
            module, name = file.names[name]
        elif rest and name in file.aliases:
            module, name = file.aliases[name], rest[0]
        spec = specs.get(module)
        if spec:
            name = spec.constructors.get(name, name)
            if name in spec.definitions:
                yield module, name


def all_specs():
    specs = {}
    for path in sorted([*ROOT.glob("crates/*/specs/**/*.antt"), *ROOT.glob("crates/*/proofs/*Laws.antt")]):
        relative = path.relative_to(ROOT / "crates").with_suffix("").parts
        module = ".".join(relative[2:])
        if module in ("Lib", "inner"):
            continue
        specs[relative[0], module] = Spec(path, relative[0], module)
    return specs


def is_laws(module):
    return module.endswith("Laws")


def is_inner(module):
    return module.startswith("inner.")


def public_contracts():
    """Each public function's contract: its crate, its name, its text, and the file that it stands in."""
    for path in sorted(ROOT.glob("crates/*/src/**/*.rt")):
        crate = path.relative_to(ROOT / "crates").parts[0]
        file, contract, name = Text(), None, ""
        for line in joined(path.read_text().splitlines()):
            if contract is None:
                file.use(line)
                found = re.search(r'(?:^|[ \]])pub (?:[a-z]+ |"C" )*fn (\w+)', line)
                if found:
                    contract, name = [], found.group(1)
            elif line.endswith("{") and not re.match(r" *(ensures|requires|ghost) ", line):
                yield crate, name, " ".join(contract), file
                contract = None
            elif contract or re.match(r" *(ensures|requires) ", line):
                contract.append(LABEL.sub(r"\1\2 {", line))


def named_theorems():
    """The theorems and definitions that docs/PROMISES.md names, and the theorem of each row, as crate, module, name."""
    table = (ROOT / "docs/PROMISES.md").read_text()
    for path, name in re.findall(r"`crates/(\w+/(?:specs/[\w/]+|proofs/\w+Laws))\.antt` `([^` ]+)`", table):
        crate, _, module = path.split("/", 2)
        yield crate, module.replace("/", "."), name
    for crate, theorem in re.findall(r"^\| `(\w+)::[^|]*\|[^|]*\|[^|]*\| `(same_[^`]+)` \|", table, re.M):
        yield crate, None, theorem


def starts(specs):
    for _, _, text, file in public_contracts():
        yield from cited(text, file, specs)
    for crate, module, name in named_theorems():
        for (owner, stands), spec in specs.items():
            if owner != crate or (module is not None and stands != module) or name not in spec.definitions:
                continue
            if module is None and not is_laws(stands):
                continue
            yield from cited(spec.statement(name), spec, specs)
            if not is_laws(stands):
                yield (crate, stands), name


def closure(specs):
    reached, left = set(), list(starts(specs))
    while left:
        module, name = left.pop()
        if (module, name) in reached:
            continue
        reached.add((module, name))
        spec = specs[module]
        text = spec.statement(name) if is_laws(module[1]) else spec.definitions[name]
        left.extend(cited(text, spec, specs))
    return reached


def show(title, files, specs):
    lines = sum(len(specs[key].lines) for key in files)
    print(f"{title}: {len(files)} files, {lines} lines, {-(-lines // PAGE)} pages of {PAGE} lines")
    for crate in sorted({crate for crate, _ in files}):
        named = [(module, len(specs[crate, module].lines)) for owner, module in sorted(files) if owner == crate]
        print(f"  {crate}: " + ", ".join(f"{module} {count}" for module, count in named) + f" ({sum(c for _, c in named)})")


def faults(specs, reached, files):
    """Where the two kinds are not parted: what must be believed leans on an inner file, or an inner file stands among the others."""
    inner = {key for key in files if is_inner(key[1])}
    for (crate, module), spec in sorted(specs.items()):
        if is_laws(module) or (crate, module) in inner:
            continue
        for used in sorted(spec.modules & inner):
            yield f"crates/{crate}/specs/{module}.antt must be believed and imports the inner {used[0]}/{used[1]}"
    for crate, name, text, file in public_contracts():
        for module, definition in cited(text, file, specs):
            if module in inner:
                yield f"the public {crate}::{name} cites {definition} of the inner {module[0]}/{module[1]}"
    for module, name in sorted(reached):
        if module in inner:
            yield f"{name} of the inner {module[0]}/{module[1]} must be believed: a promise leads to it"
    for crate, module in sorted(set(files) - {module for module, _ in reached} - inner):
        yield f"crates/{crate}/specs/{module}.antt holds nothing that must be believed and stands outside inner/"


def main():
    specs = all_specs()
    reached = closure(specs)
    with_reached = {module for module, _ in reached}
    files = [key for key in specs if not is_laws(key[1]) and key not in TABLES]
    believed = [key for key in files if key in with_reached and not is_inner(key[1])]
    asked = sys.argv[1] if len(sys.argv) > 1 else ""
    if asked == "--parted":
        found = list(faults(specs, reached, files))
        for line in found:
            print(line)
        return 1 if found else 0
    if asked == "--table":
        for crate in sorted({crate for crate, _ in believed}):
            named = [module for owner, module in sorted(believed) if owner == crate]
            lines = sum(len(specs[crate, module].lines) for module in named)
            print(f"| `{crate}` | {', '.join(named)} | {lines} |")
        return 0
    if asked == "--unreached":
        for crate, module in sorted(believed):
            names = [n for n in specs[crate, module].definitions if ((crate, module), n) not in reached]
            if names:
                print(f"{crate}/{module}: {' '.join(names)}")
        return 0
    show("To believe", believed, specs)
    show("Tables", [key for key in specs if key in TABLES], specs)
    show("Inner", [key for key in files if key not in believed], specs)
    return 0


if __name__ == "__main__":
    sys.exit(main())
