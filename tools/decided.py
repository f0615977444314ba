#!/usr/bin/env python3
"""Write crates/model/proofs/Decided.antt from the blocks of docs/DECISIONS.md.

Run it at the top of the repository after a block was added or changed."""
import re

PAGE = "docs/DECISIONS.md"
PROOF = "crates/model/proofs/Decided.antt"
LENT = {"log": 16384, "tables": 16384, "answer": 16384}

HEAD = """-- The books of docs/DECISIONS.md, by computation: what each prints, or the words of its answer.
use Prim.Native.Nat.{ℕ}
use mathlib.Core.Path.{◌≡◌, refl}
use mathlib.Core.List.{List, [], ◌∷◌}
use Rattle.model.specs.Basics.{All}
use Rattle.model.specs.Book.Words.{bytes_of}
use Rattle.model.specs.Outcome.{Lent, accepted, outcome}
use Rattle.model.specs.Printed.{Line, run, row, ins, del, changed, table, counter, refused, printed}
use Rattle.model.specs.Claims.Cases.{dispatch_lends}
use Rattle.model.proofs.Computed.{computed}

data Expected : Type 0 where
  prints : List Line → Expected
  answers : List ℕ → Expected

record Point : Type 0 where
  lent : Lent
  book : List ℕ
  expected : Expected

abbrev Meets : Lent → List ℕ → Expected → Type 0
Meets l book (prints ls) = printed l (bytes_of book) ≡ ls
Meets l book (answers ws) = outcome l (bytes_of book) ≡ accepted ws
"""


def words(text):
    return re.findall(r"\d+", text)


def listed(items):
    return " ∷ ".join(list(items) + ["[]"])


def line(text):
    name, *rest = text.split()
    numbers = [x for x in rest if x.isdigit()]
    if name in ("row", "ins", "del"):
        return f"{name} {numbers[0]} ({listed(numbers[1:])})"
    return " ".join([name] + numbers)


def lent(text):
    sizes = dict(LENT)
    for name, size in re.findall(r"(\w+) (\d+)", text):
        sizes[name] = int(size)
    if sizes == LENT:
        return "dispatch_lends"
    return "record { bindings = 8192; index = 8192; " + "; ".join(f"{k} = {v}" for k, v in sizes.items()) + " }"


def points(page):
    for section in re.split(r"^### ", page, flags=re.M)[1:]:
        number = section.split(".")[0]
        blocks = re.findall(r"^```\n(.*?)^```", section, flags=re.M | re.S)
        for n, block in enumerate(blocks):
            fields = dict(l.split(" ", 1) for l in block.strip().split("\n"))
            if "prints" in fields:
                expected = "prints (" + listed(line(l) for l in fields["prints"].split(" / ")) + ")"
            else:
                expected = "answers (" + listed(words(fields["answer"])) + ")"
            name = f"d{number}" + ("" if len(blocks) == 1 else "abc"[n])
            yield name, lent(fields.get("lent", "")), listed(words(fields["book"])), expected


def main():
    found = list(points(open(PAGE).read()))
    with open(PROOF, "w") as out:
        out.write(HEAD)
        for name, given, book, expected in found:
            out.write(f"\nabbrev {name} : Point\n{name} = record {{ lent = {given}; book = {book}; expected = {expected} }}\n")
        out.write("\nabbrev points : List Point\npoints = " + listed(name for name, *_ in found) + "\n")
        out.write("\npoints_hold : All (λ p. Meets p.lent p.book p.expected) points\nunfolding computed\n")
        out.write("points_hold = " + "(refl, " * len(found) + "tt" + ")" * len(found) + "\n")
    print(f"{len(found)} books")


main()
