"""The page of `srpnet --help`, read: for tools/completion, tools/man and tools/words."""
import re
import subprocess
import sys
from pathlib import Path

TOP = Path(__file__).resolve().parent.parent
COLUMN = 20  # at which what a command does begins
NUMBER = "N"  # stands for a number


def program():
    """The program that the repository's tools run."""
    found = subprocess.run([TOP / "tools" / "program"], stdout=subprocess.PIPE, text=True, check=False)
    if found.returncode != 0:
        sys.exit(f"{Path(sys.argv[0]).name}: the program can't be called")
    return found.stdout.rstrip("\n")


def page_of(path, word):
    """What the program prints of a word that reads no input."""
    return subprocess.run([path, word], stdin=subprocess.DEVNULL, stdout=subprocess.PIPE, text=True, check=True).stdout


def commands_of(page):
    """The commands of the page in its order: the words of each, and what is said of it. One that stands right above another without a
    word of its own has that one's."""
    found = []
    for line in page.splitlines():
        if line.startswith("  srpnet "):
            is_short = line[COLUMN - 1 : COLUMN] in ("", " ")
            words, text = (line[:COLUMN], line[COLUMN:]) if is_short else (line, "")
            found.append((words.split()[1:], text))
        elif found and line.startswith(" " * COLUMN):
            words, text = found[-1]
            found[-1] = words, f"{text} {line.strip()}".strip()
    texts = [text for _, text in found]
    for i in reversed(range(len(texts) - 1)):
        texts[i] = texts[i] or texts[i + 1]
    return [(words, text) for (words, _), text in zip(found, texts)]


def words_of(page):
    """The rows of words that the program knows, with other names of a command, as `-h` beside `--help`."""
    rows = []
    for words, text in commands_of(page):
        rows.append(words)
        also = re.search(r"; so do (\S+) and (\S+)", text)
        rows += [[word] for word in also.groups()] if also else []
    return rows
