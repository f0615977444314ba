#!/usr/bin/env python3
"""Write the books of books/README.md as files, there and where program `replay` runs, and its arguments and output.

Run it at the top of the repository after a block was added or changed."""
import os
import re

PAGE = "books/README.md"
REPLAY = "crates/replay/"
FOLDERS = ("books/", REPLAY + "data/")


def words(text):
    text = re.sub(r"\[([^]]*)\](\d+)", lambda m: (m[1] + " ") * int(m[2]), text)
    for first, last in re.findall(r"(\d+)(?:\.\.(\d+))?", text):
        yield from range(int(first), int(last or first) + 1)


def books(page):
    for name, block in re.findall(r"^### (\S+)\n.*?^```\n(.*?)^```", page, flags=re.M | re.S):
        fields = dict((l + " ").split(" ", 1) for l in re.sub(r"\n  ", " ", block).strip("\n").split("\n"))
        data = b"".join(w.to_bytes(4, "little") for w in words(fields["book"]))
        if "bytes" in fields:
            data = data[: int(fields["bytes"])]
        yield name, data, [l.strip() for l in fields["prints"].split(" / ")]


def main():
    page = open(PAGE).read()
    found = list(books(page))
    for folder in FOLDERS:
        for old in os.listdir(folder):
            os.remove(folder + old)
        open(folder + "README.md", "w").write(page)
        for name, data, _ in found:
            open(folder + name, "wb").write(data)
    open(REPLAY + "args", "w").write("".join(name + "\n" for name, _, _ in found))
    with open(REPLAY + "stdout", "w") as out:
        for name, _, lines in found:
            out.write("".join(l + "\n" for l in [name] + lines))
    print(f"{len(found)} books")


main()
