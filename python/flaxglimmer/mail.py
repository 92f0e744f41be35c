"""What mail and editors do to the lines of a sheet, in words, and the command that undoes it. `path` is the file's, and `into` the file that the
command writes."""
import re
import shlex

from .faults import printable, quoted

# in words, the line without it, and what takes it out of a file
DONE_TO = (
    ("has a byte order mark in front", lambda line: line.removeprefix(b"\xef\xbb\xbf"), r"sed '1s/^\xEF\xBB\xBF//'"),
    ("has > or blanks in front", lambda line: line.lstrip(b"> "), "sed 's/^[> ]*//'"),
    ("ends in a carriage return", lambda line: line.rstrip(b"\r"), r"tr -d '\r'"),
    ("ends in blanks", lambda line: line.rstrip(b" \t"), r"sed 's/[ \t]*$//'"),
    ("has blanks where tabs should be", lambda line: re.sub(rb"[ \t]+", b"\t", line), r"tr -s ' \t' '\t'"),
)
WIDE = (b"\xff\xfe", b"\xfe\xff")  # in front of text of 16 bits a letter


def read_from(path) -> str:
    """That a command reads a file, as a shell takes it."""
    return f"<{shlex.quote(printable(str(path)))}"


def done_to(line: bytes, form: re.Pattern, path, into: str) -> tuple[str, str] | None:
    """What was done to a line that had this form before; None where that is not all that is wrong with it."""
    if line.startswith(WIDE):
        return "the file has 16 bits a letter", f"an editor did this; undone: iconv -f UTF-16 -t UTF-8 {read_from(path)} >{into}"
    undone, done, commands = line, [], []
    for words, undo, command in DONE_TO:
        if undo(undone) != undone:
            undone = undo(undone)
            done.append(words)
            commands.append(command)
    if not done or not form.fullmatch(undone):
        return None
    commands[0] += f" {read_from(path)}"
    return f"the line {' and '.join(done)}: {quoted(line)}", f"mail or an editor did this; undone: {' | '.join(commands)} >{into}"


def is_empty(line: bytes, path, into: str) -> tuple[str, str] | None:
    if line.strip():
        return None
    return "an empty line", f"mail or an editor put it there; without empty lines: sed '/^[[:space:]]*$/d' {read_from(path)} >{into}"


def no_newline(line: bytes, path, into: str) -> tuple[str, str]:
    """A last line that has its form."""
    return f"the last line has no newline: {quoted(line)}", f"it was cut, or mail took the newline off; with one: (cat {read_from(path)}; echo) >{into}"
