"""What tools share that make files of the repository, or parts of pages, of what stands elsewhere."""
import os
import sys

ROOT = os.path.dirname(os.path.dirname(os.path.realpath(__file__)))


def read(path):
    with open(f"{ROOT}/{path}", encoding="utf-8", newline="") as file:
        return file.read()


def crates():
    """Reads crates.txt: by crate, the names that its line has."""
    lines = [line.partition("#")[0].partition(":") for line in read("crates.txt").splitlines()]
    return {front.split()[0]: names.split() for front, _, names in lines if front.strip()}


def below(names, used):
    """Returns the repository's crates on which these stand."""
    found, left = set(), [it for name in names for it in used[name]]
    while left:
        it = left.pop()
        if it in used and it not in found:
            found.add(it)
            left += used[it]
    return found


def size_of(crate, parts):
    """Returns the bytes of these parts of a crate's sources."""
    return sum(os.path.getsize(f"{at}/{it}") for part in parts for at, _, files in os.walk(f"{ROOT}/crates/{crate}/{part}") for it in files)


def part(page, path, name):
    """Returns what stands before a made part, in it, and after it, its markers outside."""
    begin, end = f"<!-- {name}: begin -->", f"<!-- {name}: end -->"
    if page.count(begin) != 1 or page.count(end) != 1 or page.index(begin) > page.index(end):
        sys.exit(f"{path} hasn't the lines {begin} and {end}, once each")
    front, rest = page.split(begin)
    inside, back = rest.split(end)
    return front + begin, inside, end + back


def put(page, path, name, text):
    """Returns the page with this text as that part."""
    front, _, back = part(page, path, name)
    return f"{front}\n\n{text}\n\n{back}"


def is_check(words, doc):
    """Whether a tool is called with `--check`, and not without a word. Another call gets the tool's text."""
    if words not in ([], ["--check"]):
        print(doc)
        sys.exit(0 if words in (["--help"], ["-h"]) else 2)
    return bool(words)


def finish(tool, files, checks, wrong=(), option=""):
    """Writes the files that are others than these texts, by path; where the tool only checks, they are wrong. Prints what is wrong, and returns the status."""
    wrong = list(wrong)
    for path, text in files.items():
        if os.path.exists(f"{ROOT}/{path}") and read(path) == text:
            continue
        if checks:
            wrong.append(f"{path} isn't what the tree gives: run tools/{tool}{option}")
            continue
        with open(f"{ROOT}/{path}", "w", encoding="utf-8", newline="") as file:
            file.write(text)
        print(path)
    for it in wrong:
        print(f"{tool}: {it}")
    return 1 if wrong else 0
