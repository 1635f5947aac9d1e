#!/usr/bin/env python3
"""Brings the repository's own names in specs/, proofs/ and the clauses of src/ to snake case.

usage: python3 respell.py            at the top of the repository, once, right after port.py
       python3 respell.py --check    the same, and nothing is written
       python3 respell.py --no-fmt   rt fmt is not called

It turns what the repository itself declares: definitions, lemmas, fields, constructors, rule sets. What Rattle makes stays: in a Proof.antt each name that is
declared at a type of `tie.` (and the proof's own name, at `statement`), and there all that stands behind a dot. A name of the library stays in a file that has
it from there. Code spans of README.md and docs/ follow, and so do the must-fail edits.

A lemma that would get the name of a definition gets `_lem` (CONTRACT_STYLE.md, "Names", 3). A definition that says what a function answers has the function's
name ("A function that mirrors a Rust method"), as in the kit's own crates: Rattle takes both in one file.

If two names of one file would meet, or a clause's name would meet a parameter of its function, nothing is written.
"""

import collections
import glob
import os
import re
import subprocess
import sys

sys.dont_write_bytecode = True
KIT = os.path.dirname(subprocess.run(["rt", "doc"], capture_output=True, text=True, check=True).stdout.strip())
sys.path.insert(0, KIT + "/port/notes/2026-11-18-names-are-in-snake-case")
import snake  # noqa: E402

# ---- what is decided by hand

# A name whose new spelling is not its old one in snake case. (Lemmas beside a definition of the same words are found by LEMMAS below.)
OTHERWISE = {}

# Lemmas that would get, or had since port.py, the name of a definition. Each row: the lemma as it is spelled after port.py, and the definition that gets the
# name. A lemma that is spelled like the definition's new name already is turned only while the definition has its old one, so a second run changes nothing.
LEMMAS = """
active-in activeIn
animation-ok animationOk
ask-table askTable
book-short bookShort
cascade-table cascadeTable
close-table closeTable
constant-frame constantFrame
constant-slope constantSlope
content-animation contentAnimation
content-ok contentOk
content-row contentRow
content-tests contentTests
curve-track curveTrack
drag-fits dragFits
drag-ok dragOk
drag-table dragTable
edit-table editTable
faded-at fadedAt
finite-key finiteKey
finite-track finiteTrack
float-at float_at
float-byte floatByte
frame-finite frameFinite
has-key has_key
in_order inOrder
is-nan is_nan
last-target lastTarget
material-finite materialFinite
material-named materialNamed
minus-zero minusZero
moved_on movedOn
not-above notAbove
not-below notBelow
number-at number_at
open-table openTable
pane-finite paneFinite
pane-in paneIn
pane-named paneNamed
pane-parent paneParent
pane-row paneRow
pane-tests paneTests
player-ok playerOk
plus-zero plusZero
pose-table poseTable
put-back put_back
rotated_by rotatedBy
same_at sameAt
same-track sameTrack
save-table saveTable
sheet-rows sheetRows
sheet-short sheetShort
shown-at shownAt
slope-finite slopeFinite
step-slope stepSlope
take-table takeTable
target_at targetAt
target-content targetContent
target-curve targetCurve
target_ok targetOk
target_row targetRow
target-tests targetTests
track-ok trackOk
used-ok usedOk
value-finite valueFinite
"""
LEMMAS = [tuple(row.split()) for row in LEMMAS.split("\n") if row]

# New names that a file may have from two old ones: fields of `Whole`, each named like the field of `Journal` that it is of, as its `track` and `key` were already.
MAY_MEET = {
    ("crates/player/specs/Journal.antt", f"{a}_{b}")
    for a in ("before", "after")
    for b in ("frame", "value", "slope")
}

# New names that two things of the repository share, of which no file has both: the definition of `fn row_in` in resolve, and a rule set of laws.
APART = {"row_in"}

# Must-fail edits that port.py's own changes left without their text, or whose new text needs the word it names brought in. Each: the edit, the old text before
# (as it is written today), and the pair of old and new text now. An import is added at the head of the file's one line of that module.
PRELUDE = "use Rattle.std.specs.Prelude.{"
FIRST = PRELUDE + "ℕ,"
LAST = "last_target s b a c = last_below (target_count s) (λ t. is_at (target_channel s b a t) c)"
EDITS = {
    "curve/must-fail/hermite_start_last.edit": [
        (
            "    cond (le x (getD fs 0 nan)) (getD vs 0 nan)",
            "    cond (le x (get_or fs 0 nan)) (get_or vs 0 nan)",
            "    cond (le x (get_or fs 0 nan)) (get_or vs (before fs x - 1) nan)",
        )
    ],
    "curve/must-fail/span_too_narrow.edit": [
        (
            "afterSpan fs j x = ltb (j + 1) (length fs) && lt (getD fs (j + 1) nan) x",
            "after_span fs j x = ltb (j + 1) (length fs) && lt (get_or fs (j + 1) nan) x",
            "after_span fs j x = ltb (j + 1) (length fs) && lt (get_or fs j nan) x",
        )
    ],
    "curve/must-fail/span_too_wide.edit": [
        (
            "beforeSpan fs i x = not (eqb i 0) && lt x (getD fs (i - 1) nan)",
            "before_span fs i x = not (eqb i 0) && lt x (get_or fs (i - 1) nan)",
            "before_span fs i x = not (eqb i 0) && lt x (get_or fs (i - 2) nan)",
        )
    ],
    "edit/must-fail/equal_for_bits.edit": [
        (
            "use lib.Ieee.{Float, nan, binary32, fits, toBits, ofBits, isNan}",
            "use Rattle.std.specs.Float.Ieee.{fits,",
            "use Rattle.std.specs.Float.Ieee.{eq, fits,",
        ),
        (
            "sameBits (a .frame) (b .frame) && sameBits (a .value) (b .value) && sameBits (a .slope) (b .slope)",
            "same_bits a.frame b.frame && same_bits a.value b.value && same_bits a.slope b.slope",
            "eq a.frame b.frame && eq a.value b.value && eq a.slope b.slope",
        ),
        (
            "unfolding sameKey sameBits isNan toBits ofBits",
            "unfolding same_key same_bits is_nan to_bits of_bits",
            "unfolding same_key eq is_nan to_bits of_bits",
        ),
    ],
    "edit/must-fail/frame_alone.edit": [
        (
            "sameBits (a .frame) (b .frame) && sameBits (a .value) (b .value) && sameBits (a .slope) (b .slope)",
            "same_bits a.frame b.frame && same_bits a.value b.value && same_bits a.slope b.slope",
            "same_bits a.frame b.frame && same_bits a.frame b.frame && same_bits a.frame b.frame",
        )
    ],
    "field/must-fail/bytes_turned.edit": [
        (
            "    set (set (set (set l i (byteOf n 0)) (i + 1) (byteOf n 1)) (i + 2) (byteOf n 2)) (i + 3) (byteOf n 3)",
            "    slice_set (slice_set (slice_set (slice_set l i (byte_of n 0)) (i + 1) (byte_of n 1)) (i + 2) (byte_of n 2)) (i + 3) (byte_of n 3)",
            "    slice_set (slice_set (slice_set (slice_set l i (byte_of n 3)) (i + 1) (byte_of n 2)) (i + 2) (byte_of n 1)) (i + 3) (byte_of n 0)",
        )
    ],
    "laws/must-fail/order_forgotten.edit": [
        (
            "&& inOrder (from (r .number) left) rs",
            "&& in_order (from r.number left) rs",
            "&& in_order left rs",
        )
    ],
    "machine/must-fail/drop_back_counted.edit": [
        ("use mathlib.Core.Bool.{Bool, true, false}", FIRST, PRELUDE + "cond, ℕ,")
    ],
    "machine/must-fail/invented_counts.edit": [
        (
            "accepted = m .accepted + 1;",
            "accepted = m.accepted + 1;",
            "accepted = m.accepted + 2;",
        )
    ],
    "machine/must-fail/name_of_another.edit": [
        (
            "(nextName s (m .view .selection))",
            "(next_name s m.view.selection)",
            "(next_name s (m.view.selection + 1))",
        )
    ],
    "machine/must-fail/save_forgets_edits.edit": [
        (
            "(savedWith s (keysOf s m)) o))",
            "(saved_with s (keys_of s m)) o))",
            "(saved_with s m.loaded) o))",
        )
    ],
    "menu/must-fail/abandon_leaves_key.edit": [
        (
            "(withDrag p noDrag) (putBack s ks (p .drag))",
            "(with_drag p no_drag) (put_back s ks p.drag)",
            "(with_drag p no_drag) ks",
        )
    ],
    "player/must-fail/drop_compares_with_itself.edit": [
        (
            "sameKey now (startOf d)",
            "same_key now (start_of d)",
            "same_key now now",
        )
    ],
    "player/must-fail/put_back_not_asked.edit": [
        (
            "|| keysOkOf s (putBack s ks d)",
            "|| keys_ok_of s (put_back s ks d)",
            "|| keys_ok_of s ks",
        )
    ],
    "reach/must-fail/first_key_alone.edit": [
        ("        row.count,", "row.first, row.count,", "row.first, 1,")
    ],
    "reading/must-fail/corner_moves_another.edit": [
        ("use mathlib.Core.Bool.{not, cond}", FIRST, PRELUDE + "◌||◌, ℕ,"),
        ("use Prim.Native.Nat.{ℕ}", PRELUDE + "◌||◌,", PRELUDE + "◌||◌, ◌+◌,"),
        (
            "lastTarget s b a c = lastBelow (targetCount s) (λ t. isAt (targetChannel s b a t) c)",
            LAST,
            "last_target s b a c = last_below (target_count s) (λ t. is_at (target_channel s b a t) c || is_at (target_channel s b a t) (c + 4))",
        ),
    ],
    "reading/must-fail/first_target.edit": [
        (
            "lastTarget s b a c = lastBelow (targetCount s) (λ t. isAt (targetChannel s b a t) c)",
            LAST,
            LAST.replace("last_below", "Rattle.laws.specs.First.first_below"),
        )
    ],
    "reading/must-fail/other_animation_moves.edit": [
        (
            "use Rattle·sheet.specs.Rows.{targetRow}",
            "use Rattle.sheet.specs.Rows.{target_row}",
            "use Rattle.sheet.specs.Rows.{target_row, content_row}",
        ),
        (
            "lastTarget s b a c = lastBelow (targetCount s) (λ t. isAt (targetChannel s b a t) c)",
            LAST,
            "last_target s b a c = last_below (target_count s) (λ t. is_at (target_channel s b (content_row s (target_row s t).content).animation t) c)",
        ),
    ],
    "refusals/must-fail/name_without_length.edit": [
        (
            "tableOf s (nextNameOut a o) = nextNameOutTable s a o",
            "table_of s (next_name_out a o) = next_name_out_table s a o",
            "table_of s (next_name_out a o) = next_name_table s a",
        )
    ],
    "refusals/must-fail/reach_of_one_set.edit": [
        (
            "tableOf s (reach b ks ls a channels panes) = reachTable s b ks ls a channels panes",
            "table_of s (reach b ks ls a channels panes) = reach_table s b ks ls a channels panes",
            "table_of s (reach b ks ls a channels panes) = reach_table s b ks ks a channels panes",
        )
    ],
    "resolve/must-fail/layer_moves_another.edit": [
        (
            "rotate = materialNumber m (layer * 5 + 2) (materialSrt b m layer .rotate);",
            "rotate = material_number m (layer * 5 + 2) (material_srt b m layer).rotate;",
            "rotate = material_number m (layer * 5 + 7) (material_srt b m layer).rotate;",
        )
    ],
    "resolve/must-fail/sibling_follows.edit": [
        (
            "rowFrom b visible alpha rows p = under (above rows (paneRow b p .parent)) (visible p) (alpha p) (paneRow b p .influences)",
            "row_from b visible alpha rows p = under (above rows (pane_row b p).parent) (visible p) (alpha p) (pane_row b p).influences",
            "row_from b visible alpha rows p = under (above rows (p - 1)) (visible p) (alpha p) (pane_row b p).influences",
        ),
        ("use Prim.Native.Nat.{ℕ}", FIRST, PRELUDE + "◌-◌, ℕ,"),
    ],
    "saved/must-fail/frames_never_written.edit": [
        (
            "take (framesAt s) s ++ (floatBytes fs ++ floatBytes (pointsOf vs ss))",
            "take (frames_at s) s ++ (float_bytes fs ++ float_bytes (points_of vs ss))",
            "take (frames_at s + length fs * 4) s ++ float_bytes (points_of vs ss)",
        )
    ],
}

# ---- reading

WORD = snake.WORD
DECLARED = re.compile(
    r"(?m)^( *)((?:(?:pub|abbrev|unfoldable|mod|record|data|module|opaque|private|instance|let) )*)"
    r'([^\s(){}.;,@"«»]+)((?: (?:\{[^{}\n]*\}|\([^()\n]*\)))*) :(?=\s)'
)
RULESET = re.compile(r"(?m)^ *(?:pub )?ruleset (\S+) =")
MADE = re.compile(r"\s+(?:tie\.|[^\n]*\bstatement\b)")
USE = re.compile(r"\b(ghost\s+)?use\s+([^\s;{]+)\s*(\{[^}]*\})?(?:\s+as\s+([^\s;]+))?")
RUST_NOISE = re.compile(r'//[^\n]*|"(?:\\.|[^"\\])*"')


def blank(text):
    return snake.QUIET.sub(lambda m: re.sub(r"[^\n]", " ", m[0]), text)


def is_odd(w):
    """Whether a name is not in snake case: a dash joins words, or a small first letter and a capital inside."""
    if "′" in w or re.search(r"^[^A-Z\W].*[a-z0-9][A-Z]", w):
        return True
    return "-" in w.strip("-◌") and bool(re.search(r"\w", w))


def in_snake_case(w):
    if not w[0].isupper():
        w = re.sub(r"(?<=[a-z0-9])[A-Z]", lambda m: "_" + m[0].lower(), w)
    return w.replace("-", "_").replace("′", "'")


def read(path):
    with open(path, encoding="utf-8") as f:
        return f.read()


def is_walk(path):
    return os.path.basename(path) == "Proof.antt"


class Repository:
    def __init__(self):
        find = lambda p: sorted(glob.glob(p, recursive=True))
        self.crates = {c.split("/")[1] for c in glob.glob("crates/*/src")}
        self.antt = find("crates/*/specs/**/*.antt") + find("crates/*/proofs/**/*.antt")
        self.rt = find("crates/*/src/**/*.rt")
        self.edits = find("crates/*/must-fail/*.edit")
        self.pages = [p for p in ["README.md", *find("docs/**/*.md")] if os.path.exists(p)]
        self.text = {p: read(p) for p in self.antt + self.rt + self.edits + self.pages}
        self.code = {p: blank(self.text[p]) for p in self.antt}
        # what each file declares of its own, and what Rattle asks for in it
        self.declares, self.made = {}, {}
        for p in self.antt:
            own, made = set(RULESET.findall(self.code[p])), set()
            for m in DECLARED.finditer(self.code[p]):
                walk = is_walk(p) and MADE.match(self.code[p], m.end())
                (made if walk else own).add(m[3])
            self.declares[p], self.made[p] = own, made - own
        self.own = set().union(*self.declares.values())
        self.lemmas = {lemma: definition for lemma, definition in LEMMAS if definition in self.own or definition == "is_nan"}
        self.public = {w for p in self.antt if not is_walk(p) for w in self.declares[p]}

    def new(self, w):
        if w in OTHERWISE:
            return OTHERWISE[w]
        if w in self.lemmas and w in self.own:
            return in_snake_case(w) + "_lem"
        return in_snake_case(w)

    def imports(self, text, ghost):
        """What the text has of this repository and what of elsewhere, and the other names that it gives them."""
        mine, others, aliases = set(), set(), set()
        for g, path, items, alias in USE.findall(text):
            if ghost and not g:
                continue
            steps = path.strip(".").split(".")
            own = steps[0] == "Rattle" and len(steps) > 2 and steps[1] in self.crates and "declared" not in steps
            names = WORD.findall(items) if items else steps[-1:]
            for a, w in zip(["", *names], names):
                if w != "as":
                    (mine if own else others).add(w)
                if own and a == "as":
                    aliases.add(w)
        return mine, others - mine, aliases

    def table(self, path):
        """The words of the file that turn."""
        if path.endswith(".antt"):
            text = self.code[path]
            mine, others, aliases = self.imports(text, False)
            words, declares = set(WORD.findall(text)), self.declares[path]
            stay = others | self.made[path]
        else:
            text = RUST_NOISE.sub(" ", self.text[path])
            mine, others, aliases = self.imports(text, True)
            words, declares, stay = set(WORD.findall(" ".join(clauses(self.text[path])))), set(), others
        turn = {w for w in words & (self.own | aliases) if is_odd(w) and w not in stay}
        turn |= {w for w in self.lemmas if not is_odd(w) and w in declares | mine and w in self.own}
        return {w: self.new(w) for w in turn if self.new(w) != w}


class Reader(snake.Turner):
    """Notes the clauses and the ghost use items of a Rust text."""

    def __init__(self):
        super().__init__({}, "none", set(), [])
        self.seen = []

    def antt(self, text, where, in_code=None):
        self.seen.append(text)
        return text


def clauses(text):
    it = Reader()
    it.rt(text, "")
    return [blank(t) for t in it.seen]


# What a comment says of a function and of its definition, once both have one name.
TWICE = re.compile(r"`(\w+)` (answers|gives) `\1`")


class Turner(snake.Turner):
    """Turns code by the table of its file, and what comments and pages cite by the words of the whole repository."""

    def __init__(self, table, cites, after_dot=()):
        super().__init__(table, "file", set(), [])
        self.cites, self.after_dot = cites, set(after_dot)

    def comment(self, text, in_code, may=lambda w: True):
        own, self.table, kept, self.after_dot = self.table, self.cites, self.after_dot, set()
        # Outside a code span a word with a dash is English.
        out = snake.between(snake.SPAN, text, lambda m: self.turn(m[0]), lambda t: self.turn(t, lambda w: "-" not in w))
        out = TWICE.sub(r"`\1` \2 the definition of that name", out) if out != text else out
        self.table, self.after_dot = own, kept
        return out


def cited(repo, tables):
    """Each older spelling by which a comment or a page may cite a name of the repository."""
    # A name that port.py brought to snake case had dashes or capitals before.
    names = {w for p in repo.antt if not is_walk(p) for w in repo.declares[p]}
    after = {repo.new(w) for w in names}
    cites = {}
    for n in names:
        if is_odd(n) or "_" not in n.strip("_") or "◌" in n or n[0].isupper():
            continue
        head, *rest = n.split("_")
        if n not in repo.lemmas:
            cites[head + "".join(it[:1].upper() + it[1:] for it in rest)] = n
        if n in repo.lemmas or n + "_lem" not in after:
            cites[n.replace("_", "-")] = repo.new(n)
    for table in tables.values():
        cites.update({w: n for w, n in table.items() if is_odd(w)})
    return {w: n for w, n in cites.items() if is_odd(w)}


# ---- what would meet


def parameters(text):
    """Of each function with clauses: its name, its parameters and the words of its clauses."""
    for m in re.finditer(r"\bfn\s+(\w+)", text):
        at, depth = m.end(), 0
        while at < len(text) and text[at] != "(":
            at += 1
        start = at
        while at < len(text):
            depth += (text[at] in "([{") - (text[at] in ")]}")
            at += 1
            if not depth:
                break
        names = set(re.findall(r"(?:^|[(,]|\bmut\s)\s*(?:mut\s+)?(\w+)\s*:(?!:)", text[start:at]))
        words, rest = set(), text[at:]
        while True:
            c = snake.CLAUSE.search(rest)
            body = rest.find("{")
            if not c or body < 0 or c.start() > body:
                break
            end = snake.closing(rest, c.end())
            if not end:
                break
            clause = rest[c.end() : end]
            words |= {w[0] for w in WORD.finditer(clause) if clause[w.start() - 1 : w.start()] != "."}
            rest = rest[end + 1 :]
        yield m[1], names, words


def meetings(repo, tables):
    found = []
    for path, table in tables.items():
        if path.endswith(".antt"):
            texts = [USE.sub(lambda m: (m[3] or m[2].split(".")[-1]) + " " + (m[4] or "") + " ", repo.code[path])]
        else:
            texts = [" ".join(clauses(repo.text[path]))]
            for name, params, words in parameters(RUST_NOISE.sub(" ", repo.text[path])):
                for w in words & set(table):
                    if table[w] in params - {w}:
                        found.append((path, table[w], f"{w} in a clause of {name}, which has a parameter of the new name"))
        groups = collections.defaultdict(set)
        for text in texts:
            for m in WORD.finditer(text):
                if is_walk(path) and text[m.start() - 1 : m.start()] == ".":
                    continue
                groups[table.get(m[0], m[0])].add(m[0])
        for new, olds in groups.items():
            if len(olds) > 1 and (path, new) not in MAY_MEET:
                renamed = re.findall(r"(\S+) as (\S+?)[,};\s]", texts[0])
                found.append((path, new, " and ".join(sorted(olds)) + (", by an 'as'" if any(set(r) == olds for r in renamed) else "")))
    by_new = collections.defaultdict(set)
    for w in repo.public:
        by_new[repo.new(w) if is_odd(w) or w in repo.lemmas else w].add(w)
    for new, olds in by_new.items():
        if len(olds) > 1 and new not in APART:
            found.append(("the repository", new, " and ".join(sorted(olds))))
    return found


# ---- must-fail edits


def tight(text):
    """Projections of an older form: 'r .f' is 'r.f'."""
    name = r"[^\W\d][\w'-]*"
    text = re.sub(rf"\(({name})((?: \.{name})+)\)", lambda m: m[1] + m[2].replace(" ", ""), text)
    text = re.sub(rf"\(({name}(?: {name})+)((?: \.{name})+)\)", lambda m: f"({m[1]})" + m[2].replace(" ", ""), text)
    return re.sub(rf"(?<=[\w)']) (\.{name})", r"\1", text)


def turn_edit(path, text, cites, said):
    """The edit with the names and the forms of today, so that each old text stands once again."""
    key = path.split("crates/", 1)[1]
    by_hand = list(EDITS.get(key, ()))
    it = Turner(cites, cites)
    forms = [lambda t: t, it.turn, lambda t: tight(it.turn(t))]
    lines, file, now = text.split("\n"), None, {}
    for at, line in enumerate(lines):
        kind, _, rest = line.partition(": ")
        if kind == "file":
            file = os.path.join(os.path.dirname(os.path.dirname(path)), rest.strip())
            if file not in now:
                now[file] = read(file) if os.path.exists(file) else ""
        elif kind == "new":
            old = lines[at - 1].partition(": ")[2]
            pair = next((h[1:] for h in by_hand if h[0] == old), None)
            if pair:
                by_hand.remove(next(h for h in by_hand if h[0] == old))
                if now[file].count(pair[0]) != 1:
                    pair = None
            # The first form in which the old text stands once; the new text turns wholly in any case, for what it names changed.
            if not pair:
                form = next((f for f in forms if now[file].count(f(old)) == 1), None)
                pair = (form(old), tight(it.turn(rest)) if file.endswith(".antt") else it.turn(rest)) if form else None
            if not pair:
                said.append(f"edit: {path}:{at}: 'old: {old}' stands {now[file].count(old)} times in {file}, and 'new: {rest}' wants a hand")
                continue
            if pair[0] == pair[1]:
                said.append(f"edit: {path}:{at}: old and new are alike now: {pair[0]}")
                continue
            lines[at - 1], lines[at] = "old: " + pair[0], "new: " + pair[1]
            now[file] = now[file].replace(pair[0], pair[1])
    return "\n".join(lines)


# ---- the run


def main():
    check = "--check" in sys.argv
    if not os.path.isdir("crates"):
        sys.exit("respell: run it at the top of the repository")
    repo = Repository()
    tables = {p: repo.table(p) for p in repo.antt + repo.rt}
    bad = meetings(repo, tables)
    for path, new, what in bad:
        print(f"meets: {path}: {new}: {what}")
    if bad:
        sys.exit(f"respell: {len(bad)} meetings: write another name into OTHERWISE or LEMMAS. Nothing was written")
    cites = cited(repo, tables)
    count, out, turned = collections.Counter(), {}, collections.Counter()
    for path, table in tables.items():
        it = Turner(table, cites, table if is_walk(path) else ())
        old = repo.text[path]
        new = it.rt(old, path) if path.endswith(".rt") else it.antt(old, path)
        if len(new) != len(old):
            new, _ = snake.realigned(old, new)
        count["words"] += it.count["words"]
        turned.update(list(table))
        if new != old:
            out[path] = new
    # (Once no name is left to turn, a page may cite old names for what they were.)
    for path in repo.pages if turned else ():
        it = Turner(cites, cites)
        new = it.md(repo.text[path], path)
        count["cited"] += it.count["words"]
        if new != repo.text[path]:
            out[path] = new
    if not check:
        for path, text in out.items():
            with open(path, "w", encoding="utf-8") as f:
                f.write(text)
        for c in sorted(repo.crates) if "--no-fmt" not in sys.argv else ():
            r = subprocess.run([KIT + "/bin/rt", "fmt"], cwd="crates/" + c, capture_output=True, text=True)
            if r.returncode:
                print(f"fmt: {c}: {(r.stdout + r.stderr).strip()[-300:]}")
    said, edits = [], 0
    for path in repo.edits if not check else ():
        new = turn_edit(path, repo.text[path], cites, said)
        if new != repo.text[path]:
            edits += 1
            with open(path, "w", encoding="utf-8") as f:
                f.write(new)
    print("\n".join(said))
    lemmas = sorted(w for w in repo.lemmas if w in turned)
    print(f"respell: {len(turned)} names at {count['words']} places in {len(out)} files, {count['cited']} places in pages; {len(lemmas)} lemmas got _lem, for the name is a definition's")
    print(f"respell: {edits} of {len(repo.edits)} must-fail edits were turned; {len(said)} are left by hand")


if __name__ == "__main__":
    main()
