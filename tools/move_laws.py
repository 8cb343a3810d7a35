#!/usr/bin/env python3
"""Moves the laws of the crates that have wrong definitions to try from specs/ to proofs/: once, after respell.py.

A wrong definition is refused where a law about it fails. Beside the definition, in specs/, the prover takes such a failure for a text
that it cannot read; in proofs/ it says that the law is false.
"""
import os
import re
import subprocess

CRATES = ["theory", "board", "columns", "host", "placing", "planfile", "request", "worked"]


def read(path):
    with open(path, encoding="utf-8") as f:
        return f.read()


def write(path, text):
    os.makedirs(os.path.dirname(path), exist_ok=True)
    with open(path, "w", encoding="utf-8") as f:
        f.write(text)


def main():
    moved = []
    for crate in CRATES:
        top = f"crates/{crate}"
        lib = read(f"{top}/specs/Lib.antt").splitlines()
        laws = [m.group(1) for m in (re.match(r"pub mod (\w+Laws)$", l) for l in lib) if m]
        if not laws:
            continue
        os.makedirs(f"{top}/proofs", exist_ok=True)
        for law in laws:
            subprocess.run(["git", "mv", f"{top}/specs/{law}.antt", f"{top}/proofs/{law}.antt"], check=True)
            moved.append((crate, law))
        write(f"{top}/specs/Lib.antt", "\n".join(l for l in lib if l[8:] not in laws) + "\n")
        node = f"{top}/proofs/Lib.antt"
        begin = read(node) if os.path.exists(node) else "-- The laws of the definitions.\n"
        write(node, begin.rstrip("\n") + "\n" + "".join(f"pub mod {law}\n" for law in laws))
    pattern = re.compile(r"Rattle\.(" + "|".join(CRATES) + r")\.specs\.(\w+Laws)\b")
    known = set(moved)

    def turn(m):
        return f"Rattle.{m.group(1)}.proofs.{m.group(2)}" if (m.group(1), m.group(2)) in known else m.group(0)

    for folder, dirs, files in os.walk("crates"):
        dirs[:] = sorted(d for d in dirs if d != "out")
        for name in sorted(files):
            if name.endswith((".antt", ".rt")):
                path = os.path.join(folder, name)
                old = read(path)
                new = pattern.sub(turn, old)
                if new != old:
                    write(path, new)
    print(f"move_laws: {len(moved)} files of laws")


if __name__ == "__main__":
    main()
