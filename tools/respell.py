#!/usr/bin/env python3
"""Brings the repository's own words of antt to snake case: `meets-rows` becomes `meets_rows`. Run once, at the top, after the kit's port.py.

A word is the repository's own where a signature in specs/ or in a file of lemmas (proofs/*.antt) declares it. Words that a proof of one
function declares for itself (proofs/F/*.antt), words of the library and the names that Rattle makes (`loop-i-preserved`) keep their dashes.
A word that would have the name of a function, or of a parameter or a local of a source file that cites it, ends in `_lem`."""
import os
import re

TOKEN = r"[^\s(){};,.|\"@λ\\«»]+"
SIGNATURE = re.compile(r"^\s*(?:abbrev\s+)?(?:unfoldable\s+)?(?:pub\s+)?((?:" + TOKEN + r"\s+)*" + TOKEN + r")\s+:\s")
WORD = re.compile(TOKEN)


def files(ending):
    for folder, _, names in os.walk("crates"):
        if "/out" not in folder:
            for name in sorted(names):
                if name.endswith(ending):
                    yield os.path.join(folder, name)


def of_one_function(path):
    parts = path.split(os.sep)
    return len(parts) == 5 and parts[2] == "proofs"


def read(path):
    with open(path, encoding="utf-8") as file:
        return file.read()


def declared():
    own, modules, library = {}, set(), set()
    for path in [*files(".antt"), *files(".rt")]:
        for line in read(path).removeprefix("ghost ").replace("\nghost use", "\nuse").split("\n"):
            if line.lstrip().startswith("--"):
                continue
            found = SIGNATURE.match(line)
            if found and path.endswith(".antt") and not of_one_function(path):
                for word in found.group(1).split():
                    if "-" in word:
                        own.setdefault(word, set()).add(path)
            if not of_one_function(path):
                for module, word in re.findall(r"(^\s*(?:pub )?use [^{]*)? as ([^\s,};.]+)", line):
                    if "-" in word:
                        modules.add(word) if module else own.setdefault(word, set()).add(path)
            used = re.match(r"\s*(?:pub\s+)?use\s+([^\s{]+?)\.\{(.*)\}", line)
            if used and (not used.group(1).startswith("Rattle.") or used.group(1).split(".")[1] == "std"):
                library.update(word.strip().split(" as ")[0] for word in used.group(2).split(","))
    return {word: paths for word, paths in own.items() if word not in library | modules}, modules


def beside_rust(own):
    """The words that have a function's name, that a source file cites beside an identifier of the same spelling, or whose spelling is taken."""
    clash, taken = set(), set()
    for path in files(".antt"):
        taken.update(WORD.findall(read(path)))
    for path in files(".rt"):
        text = re.sub(r"//.*", "", read(path))
        crate = os.sep + path.split(os.sep)[1] + os.sep
        functions = set(re.findall(r"\bfn ([a-z0-9_]+)", text))
        clash.update(word for word in own if word.replace("-", "_") in functions and any(crate in at for at in own[word]))
        names = set(re.findall(r"(?<![\w-])[a-z][a-z0-9_]*(?![\w-])", text))
        clash.update(word for word in set(WORD.findall(text)) & set(own) if word.replace("-", "_") in names)
    return clash | {word for word in own if word.replace("-", "_") in taken}, taken


def main():
    own, modules = declared()
    clash, taken = beside_rust(own)
    plain = {word: word.replace("getD", "get_or").replace("-", "_") for word in own}
    names = {word: spelt + ("_lem" if word in clash else "") for word, spelt in plain.items()}
    for word in modules:
        spelt = "".join(part.capitalize() for part in word.split("-"))
        names[word] = word.replace("-", "_") if spelt in taken else spelt
    for word, spelt in sorted(names.items()):
        if spelt in taken:
            print(f"falls together: {word} and {spelt}")
    for ending in (".antt", ".rt", ".edit"):
        for path in files(ending):
            old = read(path)
            # Behind a dot stands a field of a record that Rattle makes of the steps of a function: it has the source's own spelling.
            steps = ending == ".antt" and of_one_function(path)

            def respelt(found):
                word = found.group(0)
                after_dot = found.start() > 0 and old[found.start() - 1] == "."
                return (plain if steps and after_dot else names).get(word, word)

            new = WORD.sub(respelt, old)
            if new != old:
                with open(path, "w", encoding="utf-8") as file:
                    file.write(new)
    for word in sorted(clash):
        print(f"ends in _lem: {names[word]}")
    print(f"respelt: {len(names)} words")


main()
