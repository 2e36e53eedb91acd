"""The commands `write` and `replay --write`, over programs that are scripts."""

import unittest

import writing
from tests.repository import Repository, builds

# Shows its words and its input, and tells what it finds in the file `told`; then it shows nothing.
PROGRAM = """#!/bin/sh
if [ -f told ]; then cat told >&2; exit; fi
echo "${0##*/} $*"
cat
"""
BUILDS = builds("write")
REFUSALS = """| number | when | place | places | says |
|---|---|---|---|---|
| 14 | a field out of range | lowest such field | 0 to 13 | field P is out of range |
"""
INDEPENDENT = """#!/bin/sh
case $1 in
    write-season) cat cases ;;
    writes) cat >/dev/null; cat expected ;;
esac
"""
ZEROS = " ".join(["0"] * 14)


class Write(Repository):
    def setUp(self):
        super().setUp()
        self.write("crates.txt", "base:\nwrite: base io\n")
        self.write("crates/write/src/main.rt", "// a program\n")
        self.write("docs/REFUSALS.md", REFUSALS)
        self.write("program", PROGRAM)
        self.write("build", BUILDS)
        self.write("payload", "P\n")
        self.called("write")

    def called(self, *words, **options):
        return self.run_it(*words, cwd=self.top, **options)

    def test_fields(self):
        self.assertEqual(self.called("write"), (0, f"write flown {ZEROS}\n", ""))
        words = ("srcid=2", "UDFL1=01", "--edition", "corrected", "FrCntTx=4294967295")
        self.assertEqual(self.called("write", *words), (0, "write corrected 2 0 4294967295 0 0 0 0 0 0 0 0 0 0 1\n", ""))
        for many in ("4294967296", "9" * 5000):
            self.assertEqual(self.called("write", f"DstId={many}")[1], "write flown 0 4294967295 0 0 0 0 0 0 0 0 0 0 0 0\n")

    def test_every_field_has_its_place(self):
        for place, name in enumerate(writing.FIELDS):
            self.assertEqual(writing.values_of([f"{name}=5"]), [5 if k == place else 0 for k in range(14)])

    def test_payloads(self):
        opening = f"write flown {ZEROS}\n"
        self.assertEqual(self.called("write", given="not read\n"), (0, opening, ""))
        self.assertEqual(self.called("write", "--payload", "48690A"), (0, f"{opening}Hi\n", ""))
        self.assertEqual(self.called("write", "--payload-file=payload"), (0, f"{opening}P\n", ""))
        self.assertEqual(self.called("write", "--payload-file", "-", given="in\n"), (0, f"{opening}in\n", ""))

    def test_what_is_not_understood(self):
        for words, why in (
            (("SrcId",), "not a field and its value: SrcId; a field is set as in SrcId=2"),
            (("Src=2",), f"no such field: Src; the fields are {', '.join(writing.FIELDS)}"),
            (("PduLength=2",), f"no such field: PduLength; the fields are {', '.join(writing.FIELDS)}"),
            (("SrcId=2", "SRCID=2"), "SrcId is set twice; it takes one value"),
            (("snr=x",), "SNR: not a whole number: x; it takes decimal digits"),
            (("snr=",), "SNR: not a whole number: ; it takes decimal digits"),
            (("snr=-1",), "SNR: not a whole number: -1; it takes decimal digits"),
            (("--payload", "0"), "--payload takes two hexadecimal digits for each byte, not 0"),
            (("--payload", "0g"), "--payload takes two hexadecimal digits for each byte, not 0g"),
            (("--payload", "00 11"), "--payload takes two hexadecimal digits for each byte, not 00 11"),
            (("--payload", ""), "--payload takes a value"),
            (("--payload", "00", "--payload-file", "payload"), "--payload and --payload-file exclude each other"),
            (("--payload-file", "none"), "none: No such file or directory"),
            (("--payload-file", "crates"), "crates: Is a directory"),
            (("--edition", "salsat"), "--edition takes one of flown, corrected, not salsat"),
            (("--strict",), "no such option: --strict"),
        ):
            with self.subTest(words):
                self.assertEqual(self.called("write", *words), (2, "", f"nolbreva: {why}\n"))

    def test_refused(self):
        self.write("told", "refused 14 3\n")
        self.assertEqual(self.called("write", "FrCntRx=16"), (1, "", "nolbreva: refused 14 3: field 3 is out of range\n"))

    def test_failed_reads_and_writes(self):
        self.write("told", "read: Input/output error\n")
        for words, name in ((("--payload-file", "payload"), "payload"), (("--payload-file", "-"), "standard input"), ((), "the payload")):
            self.assertEqual(self.called("write", *words), (1, "", f"nolbreva: {name}: read: Input/output error\n"))
        self.write("told", "write: No space left on device\n")
        self.assertEqual(self.called("write"), (1, "", "nolbreva: write: No space left on device\n"))

    def test_replays(self):
        self.write("independent/program", INDEPENDENT, 0o755)
        self.write("program", "#!/bin/sh\nif [ $2 = 9 ]; then echo refused 14 0 >&2; exit; fi\nprintf 'A'; cat\n")
        self.write("crates/write/src/main.rt", "// changed\n")
        nines = " ".join(["9"] * 14)
        self.write("cases", f"flown {ZEROS} -\nflown {nines} 00\ncorrected {ZEROS} 4243\n")
        self.write("expected", "41\nrefused 14 0\n414243\n")
        status, out, _ = self.called("replay", "--write", "07", "3")
        self.assertEqual((status, out), (0, "3 records written, 1 of them refused, no difference\n"))
        self.write("expected", "41\nrefused 14 1\n414243\n")
        said = f"first difference in record 2: flown {nines} 00\n  nolbreva:    refused 14 0\n  independent: refused 14 1\n"
        self.assertEqual(self.called("replay", "7", "3", "--write"), (1, said, ""))
        self.write("expected", "41\n")
        told = "nolbreva: the independent program answered 1 of 3 cases\n"
        self.assertEqual(self.called("replay", "--write", "7", "3"), (1, "", told))
        for words in (("7",), ("7", "x"), ("7", "3", "--clean"), ("7", "3", "4")):
            self.assertEqual(self.called("replay", "--write", *words)[0], 2)
        self.assert_nothing_left()


if __name__ == "__main__":
    unittest.main()
