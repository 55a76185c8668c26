"""The package with pandas: run by a Python that has it, this one or Debian's (its package python3-pandas).

Skipped where neither has it, unless MZ_REQUIRE_PANDAS=1 says that it must be there.
"""

import os
import subprocess
import sys
import unittest

import mundeziwa

try:
    import pandas
except ImportError:
    pandas = None

DEBIANS = "/usr/bin/python3"


def has_pandas(python):
    """Whether a Python can import pandas."""
    if not os.access(python, os.X_OK):
        return False
    return subprocess.run([python, "-c", "import pandas"], stderr=subprocess.DEVNULL).returncode == 0


@unittest.skipIf(pandas, "this Python has pandas, and runs the tests below itself")
class ByAnotherPython(unittest.TestCase):
    def test_by_debians_python(self):
        if not has_pandas(DEBIANS):
            if os.environ.get("MZ_REQUIRE_PANDAS") == "1":
                self.fail(f"neither {sys.executable} nor {DEBIANS} has pandas: apt-get install python3-pandas")
            self.skipTest(f"neither {sys.executable} nor {DEBIANS} has pandas")
        run = subprocess.run([DEBIANS, "-B", __file__, "WithPandas"], capture_output=True, text=True)
        self.assertEqual(run.returncode, 0, run.stderr)
        self.assertNotIn("skipped", run.stderr)


@unittest.skipUnless(pandas, "this Python has no pandas")
class WithPandas(unittest.TestCase):
    def setUp(self):
        self.train = pandas.DataFrame({"name": ["JOSÉ", "Irene", "Jos\udcc3", "Jose\u0301"]}, index=[7, 7, 9, 11])
        self.held = pandas.DataFrame({"name": ["Otto", "José"]})

    def test_shared(self):
        report = mundeziwa.shared(self.train["name"], self.held["name"])
        self.assertEqual([(group.first, group.second) for group in report], [([0, 3], [1])])
        self.assertEqual((report.first, report.invalid_first), (["JOSÉ", "Irene", "Jos\udcc3", "Jose\u0301"], [2]))

    def test_string_dtype(self):
        report = mundeziwa.shared(self.held["name"].astype("string"), ["josé"])
        self.assertEqual(report.with_partner, 1)

    def test_keys_as_a_column(self):
        self.held["key"] = mundeziwa.keys(self.held["name"])
        self.assertEqual(self.held["key"].tolist(), [b"OTTO", b"JOSE\xcc\x81"])

    def test_missing_values(self):
        for missing, said in ((None, "None"), (float("nan"), "nan"), (pandas.NA, "<NA>"), (pandas.NaT, "NaT")):
            names = pandas.Series(["Otto", "José", missing], dtype=object)
            with self.assertRaises(TypeError) as caught:
                mundeziwa.shared(["Otto"], names)
            sentence = f"name 3 of the second list is missing ({said}): leave missing names out first"
            self.assertEqual(str(caught.exception), sentence)
            self.assertEqual(mundeziwa.shared(["Otto"], names.dropna()).with_partner, 1)

    def test_a_whole_table_is_no_list(self):
        with self.assertRaises(TypeError) as caught:
            mundeziwa.shared(self.train, self.held["name"])
        said = "the first list is a DataFrame of 2 dimensions, and must be one column of it"
        self.assertEqual(str(caught.exception), said)

    def test_to_dataframe(self):
        frame = mundeziwa.shared(self.train["name"], self.held["name"]).to_dataframe()
        self.assertEqual(list(frame.columns), ["group", "list", "index", "name", "key"])
        rows = [(1, 1, 0, "JOSÉ"), (1, 1, 3, "Jose\u0301"), (1, 2, 1, "José")]
        self.assertEqual(list(frame.itertuples(index=False, name=None)), [(*row, "4a4f5345cc81") for row in rows])

    def test_to_dataframe_of_nothing(self):
        frame = mundeziwa.shared([], []).to_dataframe()
        self.assertEqual((len(frame), list(frame.columns)), (0, ["group", "list", "index", "name", "key"]))


class WithoutPandas(unittest.TestCase):
    def test_the_sentence(self):
        script = "import sys; sys.modules['pandas'] = None; import mundeziwa; mundeziwa.shared([], []).to_dataframe()"
        run = subprocess.run([sys.executable, "-B", "-c", script], capture_output=True, text=True)
        said = "ImportError: to_dataframe needs pandas, which is not installed; rows() gives the same without it"
        self.assertEqual(run.stderr.splitlines()[-1], said)


if __name__ == "__main__":
    unittest.main()
