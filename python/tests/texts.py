"""Texts for tests: what chance does to a file's bytes, and what a hint's own command makes of a file."""
import re
import subprocess


def damaged_by(data, damage):
    """Bytes put in, left out, changed, cut off, or a line again at the end: each as (kind, place, what is put)."""
    for kind, place, put in damage:
        at = place % (len(data) + 1)
        lines = data.splitlines(keepends=True)
        one = lines[place % len(lines)] if lines else b""
        data = [data[:at] + put + data[at:], data[:at] + data[at + 1 :], data[:at] + put + data[at + 1 :], data[:at], data + one][kind]
    return data


def mended(hint, folder):
    """What a hint's own command makes of a file in this folder, in a plain locale and in that of most terminals; it is given from another folder."""
    command = re.search(r": ([^:]*(?::space:[^:]*)*>(?:mended|shorter)\.\w+)", hint)[1]
    made, elsewhere = set(), folder / "elsewhere"
    elsewhere.mkdir(exist_ok=True)
    for locale in ("C", "C.UTF-8"):
        subprocess.run(command, shell=True, cwd=elsewhere, check=True, env={"PATH": "/usr/bin:/bin", "LC_ALL": locale})
        made.add((elsewhere / re.search(r">(\w+\.\w+)$", command)[1]).read_bytes())
    (one,) = made
    return one
