#!/usr/bin/env python3
"""names.py LINES.rt OUT.c FILE..: writes the names that are built in (crates/builtin_names/src/lines.rt) as C data, and the SHA-256 of them and of the
files that the library is built from, by which it knows the tables that it has cached itself."""
import hashlib
import sys


def main():
    with open(sys.argv[1], encoding="utf-8") as file:
        text = file.read()
    lines = text[text.index('"#define') + 1 : text.rindex('"')].replace('\\"', '"').replace("\\\\", "\\").encode()
    build = hashlib.sha256(lines)
    for path in sys.argv[3:]:
        with open(path, "rb") as file:
            build.update(hashlib.sha256(file.read()).digest())
    rows = [", ".join(map(str, lines[at : at + 32])) for at in range(0, len(lines), 32)]
    with open(sys.argv[2], "w", encoding="ascii") as file:
        file.write('#include "cache.h"\n\n')
        file.write(f'const char composecheck_build[] = "{build.hexdigest()}";\n\n')
        file.write('static const uint8_t names[] = {\n    ')
        file.write(",\n    ".join(rows))
        file.write("\n};\n\nconst uint8_t *composecheck_builtin_names(size_t *length)\n{\n    *length = sizeof names;\n    return names;\n}\n")


main()
