#!/usr/bin/env python3
"""Builds the C libraries and lays them, their headers and their pkg-config files below a folder, for a prefix that programs see.

  install_library.py FOLDER PREFIX            libcomposecheck and libcomposecheck-client
  install_library.py --client FOLDER PREFIX   libcomposecheck-client alone
"""
import os
import shutil
import sys
import tempfile

import build_library

# The version of each library, by the name of its pkg-config file.
VERSIONS = {"composecheck": "1.0.0", "composecheck-client": "0.1.0"}
CLIENT = ("libcomposecheck-client.a", "libcomposecheck-client.so.0")
ALL = ("libcomposecheck.a", "libcomposecheck.so.1", "libcomposecheck-xkb.so", *CLIENT)


def settings_of(name, prefix):
    """Returns the text of a pkg-config file."""
    with open(f"{build_library.LIB}/{name}.pc.in", encoding="utf-8") as file:
        return file.read().replace("@PREFIX@", prefix).replace("@VERSION@", VERSIONS[name])


def install(folder, prefix, is_client=False):
    """Installs both libraries, or that of clients alone."""
    for part in ("lib/pkgconfig", "include"):
        os.makedirs(f"{folder}/{part}", exist_ok=True)
    with tempfile.TemporaryDirectory(prefix="composecheck-lib-") as room:
        (build_library.build_client if is_client else build_library.build)(room)
        for name in CLIENT if is_client else ALL:
            shutil.copy(f"{room}/{name}", f"{folder}/lib/{name}")
    for name, linked in (("composecheck-client", "libcomposecheck-client.so.0"), ("composecheck", "libcomposecheck.so.1"))[: 1 if is_client else 2]:
        build_library.link(f"{folder}/lib", linked)
        header = f"{name.replace('-', '_')}.h"
        shutil.copy(f"{build_library.LIB}/{header}", f"{folder}/include/{header}")
        with open(f"{folder}/lib/pkgconfig/{name}.pc", "w", encoding="utf-8") as file:
            file.write(settings_of(name, prefix))


if __name__ == "__main__":
    install(*[it for it in sys.argv[1:] if it != "--client"], is_client="--client" in sys.argv)
