#!/usr/bin/env python3
"""Derives Clone and Copy for the small plain types of src/ that the port left with Drop alone: those with no array among their fields,
and Standing, whose five words of marks are copied with it. Types that hold columns or tables keep Drop, and are moved.

usage: python3 tools/copy_types.py      at the top of the repository, once, after port.py
"""
import os
import re

COPIED = {"Standing"}


def main():
    for folder, dirs, files in os.walk("crates"):
        dirs[:] = [d for d in dirs if d != "out"]
        for name in files:
            if not name.endswith(".rt"):
                continue
            path = os.path.join(folder, name)
            with open(path, encoding="utf-8") as f:
                text = f.read()

            def derive(m):
                body = m.group(3)
                small = "[" not in body and "Columns" not in body and "Table" not in body
                return ("#[derive(Clone, Copy)]" if small or m.group(2) in COPIED else "#[derive(Drop)]") + m.group(1)

            new = re.sub(r"#\[derive\(Drop\)\](\n(?:pub )?(?:struct|enum) (\w+) \{([^}]*)\})", derive, text)
            if new != text:
                with open(path, "w", encoding="utf-8") as f:
                    f.write(new)


if __name__ == "__main__":
    main()
