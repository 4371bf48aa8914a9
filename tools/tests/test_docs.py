# Whether what the documents name is there: statements declared in their files, fields in their records, edits, crates.
import re
import unittest
from pathlib import Path

TOP = Path(__file__).resolve().parents[2]


def text(*parts):
    return TOP.joinpath(*parts).read_text(encoding="utf-8")


def cells(document):
    """The rows of the document's tables, each as its cells, headings included."""
    return [[cell.strip() for cell in line.strip().strip("|").split("|")] for line in text(document).splitlines() if line.startswith("|")]


def named(cell):
    return re.findall(r"`([^`]+)`", cell)


def declares(body, name):
    """Whether a line of the body declares the name. A comment, a `use` line and a use of the name do not."""
    antt, rattle = r" *(unfoldable |abbrev )?pub ((record|data) )?", r' *(pub )?(extern "C" )?(fn|struct|enum) '
    return re.search(rf"^({antt}|{rattle}){re.escape(name)}(?=[ (])", body, re.MULTILINE) is not None


def record(body, name):
    """The lines of the record of this name: those below its head that stand further in."""
    found = re.search(rf"^( *)pub record {re.escape(name)} .*\n((\1 +.*\n)*)", body, re.MULTILINE)
    return found[2] if found else ""


def owned(cell):
    """Where the cell says `field`, of `Record`: each of the fields with each of the records."""
    said = re.match(r"((?:`[^`]+`(?:, | and )?)+?),? of ((?:`[^`]+`(?: and )?)+)", cell)
    return [(field, owner) for field in named(said[1]) for owner in named(said[2])] if said else []


def lost(body, cell):
    """The names of the cell that the body does not declare, and its fields that are not in their records."""
    parts = [(name, body) for name in named(cell)] + [(field, record(body, owner)) for field, owner in owned(cell)]
    return [name for name, part in parts if not declares(part, name)]


def statements():
    """The rows of docs/PROOFS.md: the cell of names, and the file's path."""
    return [(row[1], row[2]) for row in cells("docs/PROOFS.md") if len(row) == 3 and row[2] != "File" and row[2].strip("-")]


def placed(column):
    """Each name of the cells with its file: the one behind it, or else that of the name before."""
    path = None
    for name, behind in re.findall(r"`([^`]+)`(?:, ([\w/]+\.antt))?", "|".join(column)):
        path = behind or path
        yield name, path


def own_crate(call):
    """The crate of a row's calls: that of `crate::call`, of the exported calls, or of the program."""
    return next(filter(None, re.search(r"`(\w+)::|`(whitebeamish)_|the (\w+) program", call).groups()))


def shut_out(row):
    """Each edit that the row's last cell names in brackets, with its crate: that of "in crates/X:" before it, or else the calls' own."""
    crate = own_crate(row[0])
    for place, group in re.findall(r"in crates/(\w+):|\(([^()]*`[^()]*)\)", row[3]):
        crate = place or crate
        yield from ((crate, edit) for edit in named(group))


def said_below(paragraph):
    """Each edit of a paragraph, with its crate: where that is in brackets it is said before its edits, and else behind them."""
    ahead = re.search(r"\(crates/(\w+)/must-fail\):(.*)", paragraph)
    parts = [ahead.groups()] if ahead else [(crate, part) for part, crate in re.findall(r"(.*?) in crates/(\w+)/must-fail", paragraph)]
    return [(crate, edit) for crate, part in parts for edit in named(part)]


def edits():
    return sorted(TOP.glob("crates/*/must-fail/*.edit"))


class Documents(unittest.TestCase):
    def test_each_statement_is_in_its_file(self):
        self.assertGreater(len(statements()), 60)
        self.assertEqual([(name, path) for cell, path in statements() for name in lost(text("crates", path), cell)], [])

    def test_each_unique_statement_is_in_its_file(self):
        names = list(placed(row[2] for row in cells("docs/STATEMENTS.md")[2:]))
        self.assertGreater(len(names), 20)
        self.assertEqual([(name, path) for name, path in names if not declares(text("crates", path), name)], [])

    def test_each_edit_is_named_with_its_crate_and_each_named_edit_is_there(self):
        there = {(edit.parents[1].name, edit.stem) for edit in edits()}
        rows = [pair for row in cells("docs/STATEMENTS.md")[2:] for pair in shut_out(row)]
        lines = [line for line in text("docs/STATEMENTS.md").splitlines() if not line.startswith("|")]
        below = [pair for line in lines for pair in said_below(line)]
        self.assertEqual(sorted({*rows, *below} - there), [])
        self.assertEqual(sorted(there - {*rows, *below}), [])
        exceptions = {edit for line in lines if line.startswith("- ") for edit in named(line)}
        self.assertEqual(sorted(exceptions - {edit for _, edit in there}), [])

    def test_each_edit_changes_one_place(self):
        for edit in edits():
            lines = edit.read_text(encoding="utf-8").splitlines()
            path = next(line[6:] for line in lines if line.startswith("file: "))
            body = edit.parents[1].joinpath(path).read_text(encoding="utf-8")
            for old, new in zip(lines, lines[1:]):
                if old.startswith("old: "):
                    with self.subTest(edit=str(edit.relative_to(TOP))):
                        self.assertEqual(body.count(old[5:]), 1)
                        body = body.replace(old[5:], new[5:])

    def test_each_crate_has_its_line(self):
        listed = {line.split(":")[0].split()[0] for line in text("crates.txt").splitlines() if line and not line.startswith("#")}
        shown = {row[0] for row in cells("README.md") if len(row) == 2}
        self.assertEqual(listed, {path.name for path in TOP.glob("crates/*")})
        self.assertLessEqual(listed, shown)


class Lookup(unittest.TestCase):
    """That the lookup itself misses a name that is not declared."""

    ANTT = """-- said : a comment, which says pub commented : too
use Other.specs.File.{brought}
pub record First (given : ℕ) : Type 0 where
  -- pub noted : a comment
  pub one : ℕ

pub record Second : Type 0 where
  pub two : used → ℕ
unfoldable pub a-longer-name : ℕ
a-longer-name = used
  where
    local : ℕ
"""
    RATTLE = """// fn said() and pub fn commented()
use other::brought;
pub fn a_longer_name(given: u16) -> u16 {
    used(given)
}
"""

    def test_only_a_declaration_counts(self):
        for body, there in [(self.ANTT, ["First", "Second", "one", "two", "a-longer-name"]), (self.RATTLE, ["a_longer_name"])]:
            parts = {"longer", "name", "longer-name", "a-longer", "longer_name", "a_longer", "Sec"}
            words = {"said", "commented", "noted", "brought", "given", "used", "local"} | parts
            self.assertEqual([name for name in sorted(words.union(there)) if declares(body, name)], sorted(there))

    def test_a_field_is_its_own_record_s(self):
        self.assertTrue(declares(record(self.ANTT, "First"), "one"))
        self.assertFalse(declares(record(self.ANTT, "First"), "two"))
        self.assertFalse(declares(record(self.ANTT, "Third"), "one"))

    def test_each_renamed_field_is_missed(self):
        fields = [(cell, path, field) for cell, path in statements() for field, _ in owned(cell)]
        self.assertGreater(len(fields), 9)
        for cell, path, field in fields:
            with self.subTest(field=field):
                self.assertIn(field, lost(text("crates", path).replace(f"  pub {field} :", f"  pub {field}-so :"), cell))

    def test_a_field_is_told_from_other_names(self):
        self.assertEqual(owned("`a` and `b`, of `R`, which `x` and `y` give"), [("a", "R"), ("b", "R")])
        self.assertEqual(owned("`a` of `R` and `S`"), [("a", "R"), ("a", "S")])
        self.assertEqual(owned("`x`: what is said of `y`"), [])

    def test_an_edit_goes_with_the_crate_said_before_it_or_that_of_the_call(self):
        cell = "so (`a`); not (`b`, `c`), `word`; in crates/x: this (`d`), that (`e`); in crates/y: other (`f`)"
        pairs = {call: list(shut_out([call, "", "", cell])) for call in ("`m::f`, `m::g`", "`whitebeamish_sum`, `product`", "the patch program's `read_all`")}
        for own, found in zip(("m", "whitebeamish", "patch"), pairs.values()):
            self.assertEqual(found, [(own, "a"), (own, "b"), (own, "c"), ("x", "d"), ("x", "e"), ("y", "f")])

    def test_an_edit_below_the_table_goes_with_its_crate(self):
        self.assertEqual(said_below("There are `a`, `b` in crates/x/must-fail; one (`c`) in crates/y/must-fail."), [("x", "a"), ("x", "b"), ("y", "c")])
        self.assertEqual(said_below("More (crates/x/must-fail): this (`a`). That (`b`)."), [("x", "a"), ("x", "b")])
        self.assertEqual(said_below("Nothing of `a`."), [])

    def test_a_name_goes_with_the_file_behind_it_or_before(self):
        self.assertEqual(list(placed(["`a`, x/A.antt: so; `b`", "`c`, y/C.antt"])), [("a", "x/A.antt"), ("b", "x/A.antt"), ("c", "y/C.antt")])


if __name__ == "__main__":
    unittest.main()
