#!/usr/bin/env python3
"""Compares the definitions with the published answers, board by board and literal by literal.

    tools/theorems.py FILE [EDIT..]

Reads boards as the oracle's `sample` prints them (its head says the form). Each becomes a theorem: Check's answer, the
number of units, and each unit's listed transforms with their cells and connections. The theorems stand in a throw-away
repository with copies of the crates lists and rules, and are proved there by computing; a wrong one fails the check.

With edits of a definition, each is made in that repository by itself, and a theorem must fail: the boards see it.
"""
import re
import shutil
import subprocess
import sys
import tempfile
from pathlib import Path

ROOT = Path(__file__).resolve().parent.parent
PER_FILE = 10

# The modules whose definitions are computed.
COMPUTED = [("lists", name) for name in ("Lists", "Count")]
COMPUTED += [("rules", name) for name in ("Page", "Rules", "Groups", "Reasons", "Turns", "Shapes", "Check", "Flat")]
COMPUTED += [("rules", "Codes")]

HEAD = """use Rattle.std.specs.Prelude.{{◌≡◌, refl, List, [], ◌∷◌, ℕ, ℤ, pos, negsuc}}
use Rattle.rules.specs.Page.{{Puzzle, Point, Shape, wall_at, open_at}}
use Rattle.rules.specs.Groups.{{unit_count}}
use Rattle.rules.specs.Check.{{pass, conflict}}
{uses}

abbrev puzzle : ℕ → ℕ → List ℕ → List ℤ → Puzzle
puzzle h w cs ks = record {{ page = flat h w; colour = colours_in cs; clue = clues_in ks }}

abbrev at : ℤ → ℤ → Point
at y x = record {{ layer = pos 0; row = y; column = x }}

abbrev shape : List Point → List Point → Shape
shape cells connections = record {{ cells = cells; connections = connections }}
"""


def computed():
    """The names to unfold, by module."""
    names = {}
    for crate, module in COMPUTED:
        text = (ROOT / f"crates/{crate}/specs/{module}.antt").read_text(encoding="utf-8")
        names[crate, module] = re.findall(r"^\s*unfoldable pub (\S+) ", text, re.M)
    every = [name for part in names.values() for name in part]
    twice = {name for name in every if every.count(name) > 1}
    if twice:
        sys.exit(f"two definitions of one name: {sorted(twice)}")
    return names


def boards(lines):
    """The boards as dictionaries: the numbers by word, and the units as lists of (cells, connections)."""
    board, taken = None, []
    for number, line in enumerate(lines, 1):
        word, *rest = line.split()
        values = [int(text) for text in rest]
        if word == "board":
            board = {"size": values, "units": []}
        elif board is None:
            sys.exit(f"line {number}: no board: {line}")
        elif word in ("colours", "clues", "borders", "pass", "conflict"):
            board[word] = values
        elif word == "unit":
            if values[0] != len(board["units"]):
                sys.exit(f"line {number}: units not in order")
            board["units"].append({"count": values[1], "shapes": []})
        elif word == "cells":
            board["units"][-1]["shapes"].append([values])
        elif word == "connections":
            board["units"][-1]["shapes"][-1].append(values)
        elif word == "end":
            check_whole(board, number)
            taken.append(board)
            board = None
        else:
            sys.exit(f"line {number}: what is this: {line}")
    if board is not None:
        sys.exit("the last board does not end")
    return taken


def check_whole(board, number):
    """A board that lacks a part would make a theorem that says less."""
    h, w = board["size"]
    lengths = [("colours", h * w), ("clues", h * w), ("borders", h * (w - 1) + (h - 1) * w)]
    whole = all(len(board.get(word, [])) == length for word, length in lengths)
    whole = whole and ("pass" in board) != ("conflict" in board) and board["units"]
    whole = whole and all(len(unit["shapes"]) == unit["count"] for unit in board["units"])
    whole = whole and all(len(shape) == 2 for unit in board["units"] for shape in unit["shapes"])
    if not whole:
        sys.exit(f"line {number}: a board that is not whole")


def listed(terms):
    return "(" + "".join(f"{term} ∷ " for term in terms) + "[])"


def integer(n):
    return f"(pos {n})" if n >= 0 else f"(negsuc {-n - 1})"


def points(values):
    return listed(f"at {integer(y)} {integer(x)}" for y, x in zip(values[::2], values[1::2]))


def literal(code):
    return f"{'wall_at' if code % 2 else 'open_at'} {code // 2}"


def theorem(i, board, unfolding):
    h, w = board["size"]
    puzzle = f"(puzzle {h} {w} {listed(board['colours'])} {listed(map(integer, board['clues']))})"
    states = f"(states_in {listed(board['borders'])})"
    if "pass" in board:
        answer = f"pass {board['pass'][0]}"
    else:
        answer = f"conflict {listed(map(literal, board['conflict']))}"
    facts = [f"(check {puzzle} {states} ≡ {answer})", f"(unit_count {puzzle} {states} ≡ {len(board['units'])})"]
    for unit, part in enumerate(board["units"] + [{"shapes": []}]):
        shapes = listed(f"shape {points(cells)} {points(links)}" for cells, links in part["shapes"])
        facts.append(f"(transforms_of {puzzle} {states} {unit} ≡ {shapes})")
    proof = ", ".join("refl" for _ in facts)
    return f"\nboard{i} : {' × '.join(facts)}\nunfolding {unfolding}\nboard{i} = ({proof})\n"


def write(folder, taken):
    names = computed()
    uses = "\n".join(f"use Rattle.{c}.specs.{m}.{{{', '.join(part)}}}" for (c, m), part in names.items() if part)
    unfolding = " ".join(name for part in names.values() for name in part)
    for crate in ("lists", "rules"):
        shutil.copytree(ROOT / "crates" / crate, folder / "crates" / crate, ignore=shutil.ignore_patterns("out"))
    (folder / "crates.txt").write_text("lists:\nrules: lists\nsample: rules lists\n", encoding="utf-8")
    specs = folder / "crates/sample/specs"
    specs.mkdir(parents=True)
    (folder / "crates/sample/src").mkdir()
    (folder / "crates/sample/src/lib.rt").write_text("// Boards with published answers.\n", encoding="utf-8")
    modules = []
    for start in range(0, len(taken), PER_FILE):
        modules.append(f"Boards{start}")
        part = [theorem(i, board, unfolding) for i, board in enumerate(taken[start : start + PER_FILE], start)]
        text = HEAD.format(uses=uses) + "".join(part)
        (specs / f"Boards{start}.antt").write_text(text, encoding="utf-8")
    (specs / "Lib.antt").write_text("".join(f"pub mod {name}\n" for name in modules), encoding="utf-8")


def proved(taken, edit=None):
    """Whether the theorems are proved, with the edit made if there is one; and what the check printed."""
    with tempfile.TemporaryDirectory() as name:
        write(Path(name), taken)
        if edit:
            fields = dict(line.split(": ", 1) for line in edit.read_text(encoding="utf-8").splitlines()[1:])
            path, old = Path(name) / fields["file"], fields["old"]
            text = path.read_text(encoding="utf-8")
            if text.count(old) != 1:
                sys.exit(f"{edit}: the old text stands there {text.count(old)} times")
            path.write_text(text.replace(old, fields["new"]), encoding="utf-8")
        crate = Path(name) / "crates/sample"
        run = subprocess.run(["rt", "check"], cwd=crate, capture_output=True, text=True, check=False)
    said = run.stdout + run.stderr
    return run.returncode == 0 and bool(re.search(r"^crate sample: .*\nlogic=proved ", run.stdout, re.M)), said


def seen(taken, edit):
    """Whether a theorem about a board fails with the edit made."""
    good, said = proved(taken, edit)
    if not good and not re.search(r"Boards\d+\.antt:\d+:\d+: error", said):
        sys.exit(f"{edit}: the check failed, and not at a board:\n{said[-2000:]}")
    print(f"{edit.stem}: {'not seen by any board' if good else 'seen'}")
    return not good


def main():
    if len(sys.argv) < 2:
        sys.exit(__doc__)
    taken = boards(Path(sys.argv[1]).read_text(encoding="utf-8").splitlines())
    if not taken:
        sys.exit("no boards")
    if edits := [Path(name) for name in sys.argv[2:]]:
        sys.exit(0 if all([seen(taken, edit) for edit in edits]) else 1)
    good, said = proved(taken)
    if not good:
        print(said)
        sys.exit("the definitions and the published answers differ, or the check did not run")
    units = sum(len(board["units"]) for board in taken)
    print(f"{len(taken)} boards compared: answers literal by literal, and the transforms of {units} units")


if __name__ == "__main__":
    main()
