"""What README.md quotes is what stands in the repository."""

import os
import re
import unittest

import refusals
import report
import usage
from tests.repository import TOP

WRITTEN = "./nolbreva write SrcId=2 FrCntTx=5 --payload 00ff | ./nolbreva list"
WRITTEN_LISTING = "pass sheet\n0 accepted B radio 1 tx 5 repaired 0 worst 0 bytes 2\nheard 1 accepted 1 refused 0\n"


def read(*names):
    with open(os.path.join(TOP, *names), encoding="utf-8") as file:
        return file.read()


def quoted(text):
    """A text as a document shows it, set in by four spaces."""
    return "".join(f"    {line}".rstrip() + "\n" for line in text.splitlines())


class Readme(unittest.TestCase):
    def setUp(self):
        self.readme = read("README.md")

    def test_the_example_crate(self):
        self.assertIn(f"\n\n{quoted(read('crates', 'example', 'src', 'main.rt'))}\n", self.readme)
        line = re.search(r"^example:[^#\n]*", read("crates.txt"), re.MULTILINE)[0].rstrip()
        self.assertIn(f"\n\n{quoted(line)}\n", self.readme)

    def test_the_example_listing(self):
        self.assertIn("\n\n    ./nolbreva list examples/pass\n", self.readme)
        self.assertIn(f"\n\n{quoted(read('examples', 'listing'))}\n", self.readme)

    def test_the_example_sheet(self):
        self.assertIn("\n\n    ./nolbreva sheet examples/pass\n", self.readme)
        self.assertIn(f"\n\n{quoted(read('examples', 'sheet'))}\n", self.readme)

    def test_the_example_of_the_corrected_edition(self):
        pass_, listing = (os.path.join("examples", "cases", f"corrected_pass.{end}") for end in ("in", "out"))
        self.assertIn(f"\n\n    ./nolbreva list --edition corrected {pass_}\n", self.readme)
        self.assertIn(f"\n\n{quoted(read(listing))}\n", self.readme)

    def test_the_record_written(self):
        # tests/built_write.py runs it
        self.assertIn(f"\n\n    {WRITTEN}\n\nprints\n\n{quoted(WRITTEN_LISTING)}\n", self.readme)

    def test_the_power_pages(self):
        pass_, listing = (os.path.join("examples", "cases", f"page_pass.{end}") for end in ("in", "out"))
        self.assertIn(f"\n\n    ./nolbreva page {pass_}\n", self.readme)
        self.assertIn(f"\n\n{quoted(read(listing))}\n", self.readme)

    def test_the_report(self):
        # .ci/cases runs it
        files = read("examples", "cases", "report_cut_first.files").split()
        self.assertIn(f"\n\n    ./nolbreva report {' '.join(files)}\n", self.readme)
        self.assertIn(f"\n\n{quoted(read('examples', 'cases', 'report_cut_first.out'))}\n", self.readme)
        # the mean that the text tells of
        mean = report.shown("mean", 57265, 11 * 50)
        self.assertIn("57265 / (11 * 50), is {mean_numerator}/{mean_denominator} and {mean_shown} mA".format(**mean), self.readme)

    def test_the_frames_of_beesat_1(self):
        frames, listing, one = (os.path.join("examples", "cases", f"beesat_{name}") for name in ("frames.in", "frames.out", "one.in"))
        self.assertIn(f"\n\n    ./nolbreva beesat {frames}\n", self.readme)
        self.assertIn(f"\n\n{quoted(read(listing))}\n", self.readme)
        self.assertIn(f"\n\n    ./nolbreva beesat-set 83 2047 {one} | ./nolbreva beesat\n", self.readme)

    def test_the_explanation(self):
        said = refusals.explain(refusals.read(TOP), 3, 4).rstrip()
        self.assertIn("    ./nolbreva explain 3 4\n", self.readme)
        self.assertIn(f"`{said}`", self.readme)
        self.assertIn("refused 3 4", read("examples", "listing"))

    def test_the_names_of_fields(self):
        source = read("crates", "header", "src", "lib.rt")
        structs = dict(re.findall(r"pub struct (\w+) \{\n(.*?)\n\}", source, re.DOTALL))
        fields = re.findall(r"pub (\w+):", structs["Fields"])
        others = re.findall(r"pub (\w+):", structs["Header"])
        told = re.search(r"^- An accepted `header` has (.*?); a refusal", self.readme, re.DOTALL | re.MULTILINE)[1]
        inner = re.search(r"`fields` \((.*?)\)", told, re.DOTALL)[1]
        self.assertEqual(re.findall(r"`(\w+)`", inner), fields)
        self.assertEqual(re.findall(r"`(\w+)`", told.replace(inner, "")), others)

    def test_the_documents_it_names(self):
        for name in re.findall(r"`((?:docs|crates|independent)/[\w./-]+|LICENSE)`", self.readme):
            self.assertTrue(os.path.exists(os.path.join(TOP, name)), name)
        named = set(re.findall(r"`(docs/[\w-]+\.md)`", self.readme))
        self.assertEqual({f"docs/{name}" for name in os.listdir(os.path.join(TOP, "docs"))}, named)


class Database(unittest.TestCase):
    def test_the_columns_of_a_report(self):
        columns = re.search(r'CREATE TABLE report \((.*?)\)"', read("docs", "DATABASE.md"), re.DOTALL)[1]
        self.assertEqual([column.split()[0] for column in columns.split(",")], report.COLUMNS)


class Layers(unittest.TestCase):
    def test_every_command_has_a_row(self):
        rows = re.findall(r"^\| `([\w-]+)` \|", read("docs", "LAYERS.md").partition("\n## Commands\n")[2], re.MULTILINE)
        self.assertEqual(rows, list(usage.COMMANDS))


if __name__ == "__main__":
    unittest.main()
