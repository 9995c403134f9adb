#!/usr/bin/env bash
# Runs the kit's port.py over the repository that one stands in, with one change to a copy of it: the search for a name
# through glob imports keeps what it has seen over the whole search, and not only over one path. As it stands that search
# does not end here in any useful time, since each file of the reading layers imports a dozen modules by a glob.
set -euo pipefail

kit=${KIT:-/opt/rattle}
copy=$(mktemp -d)
trap 'rm -rf "$copy"' EXIT
for part in "$kit"/*; do
    [[ $(basename "$part") == port ]] || ln -s "$part" "$copy/$(basename "$part")"
done
cp -r "$kit/port" "$copy/port"
python3 - "$copy/port/notes" <<'CHANGE'
import os
import sys


def change(path, pairs):
    path = os.path.join(sys.argv[1], path)
    with open(path, encoding="utf-8") as file:
        text = file.read()
    for old, new in pairs:
        assert text.count(old) == 1, old
        text = text.replace(old, new)
    with open(path, "w", encoding="utf-8") as file:
        file.write(text.replace("frozenset()", "set()"))


change(
    "2026-11-18-an-impl-may-have-no-name/drop_names.py",
    [
        ("        seen = seen | {(module, name)}\n", "        seen.add((module, name))\n"),
        ("module, path, seen=frozenset()):\n", "module, path, seen=None):\n"),
        (
            '        first, rest = (*path, "self")[0], path[1:]\n',
            '        seen = set() if seen is None else seen\n        first, rest = (*path, "self")[0], path[1:]\n',
        ),
    ],
)
change(
    "2026-11-19-asserts-take-the-runtime/reading.py",
    [
        ("        seen = seen | {key}\n", "        seen.add(key)\n"),
        ("wants_module, seen=frozenset(), uses=()):\n", "wants_module, seen=None, uses=()):\n"),
        (
            "        here, rest = module, list(path)\n",
            "        seen = set() if seen is None else seen\n        here, rest = module, list(path)\n",
        ),
        ("name, uses=(), seen=frozenset()):\n", "name, uses=(), seen=None):\n"),
        (
            "        if id(module) in seen:\n",
            "        seen = set() if seen is None else seen\n        if id(module) in seen:\n",
        ),
        ("seen | {id(module)}", "(seen.add(id(module)), seen)[1]"),
    ],
)
CHANGE
python3 "$copy/port/port.py"
