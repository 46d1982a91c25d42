"""The package and its shared object: made for each other, or not imported."""

import ctypes
import platform
import shutil
import subprocess
import sys
import tempfile
import unittest
from dataclasses import fields
from pathlib import Path

import numpy as np

import gauge_line
from gauge_line import Refusal, Settings, fp_environment_ok, raw
from gauge_line.library import State, call, declared

PACKAGE = Path(gauge_line.__file__).parent
TOP = Path(__file__).resolve().parents[2]


class Package(unittest.TestCase):
    def imported(self, change):
        """What importing a copy of the package says, after a change to it."""
        with tempfile.TemporaryDirectory() as folder:
            copied = Path(folder) / "gauge_line"
            shutil.copytree(PACKAGE, copied)
            change(copied)
            program = [sys.executable, "-B", "-c", "import gauge_line"]
            path = {"PYTHONPATH": folder}
            return subprocess.run(program, env=path, stderr=subprocess.PIPE, text=True).stderr

    def test_a_copy_elsewhere_is_imported(self):
        self.assertEqual(self.imported(lambda copied: None), "")

    def test_without_its_shared_object_it_is_not(self):
        said = self.imported(lambda copied: (copied / "libgauge_line.so").unlink())
        self.assertRegex(said, "ImportError: no .*/libgauge_line.so: `make python` leaves ")

    def test_with_another_layouts_shared_object_it_is_not(self):
        def older(copied):
            declarations = (copied / "raw.py").read_text()
            opening = declared("line_open")
            (copied / "raw.py").write_text(declarations.replace(opening, opening + "9"))

        self.assertRegex(self.imported(older), r"ImportError: .* has no gauge_raw_line_open_\d+9: ")

    def test_the_version_is_the_repositorys(self):
        self.assertEqual(gauge_line.__version__, (TOP / "VERSION").read_text().strip())

    def test_everything_public_is_documented(self):
        for name in gauge_line.__all__:
            self.assertTrue(getattr(gauge_line, name).__doc__, name)


class Declarations(unittest.TestCase):
    def test_settings_are_what_an_opening_wants(self):
        _, parameters = raw.FUNCTIONS[declared("line_open")]
        wanted = {name for name, kind in parameters if not hasattr(kind, "contents")}
        settings = {f"wanted_{field.name}" for field in fields(Settings)}
        self.assertEqual(settings | {"wanted_taps_len", "wanted_prototype_len"}, wanted)


    def test_what_is_lent_is_what_is_declared(self):
        state = State(raw.Line)
        rows = {"samples": np.zeros(2, np.int32), "out": np.zeros(2, np.float32)}
        for wrong in [
            rows | {"samples": np.zeros(2, np.int64)},
            rows | {"out": np.zeros(4, np.float32)[::2]},
            {"out": rows["out"]},
        ]:
            with self.assertRaises(TypeError):
                call("line_feed", state, **wrong)
        with self.assertRaisesRegex(Refusal, "refusal 15, State"):
            call("line_feed", state, **rows)
        with self.assertRaises(TypeError):
            call("line_fed", state, **rows)


class Environment(unittest.TestCase):
    def test_it_is_as_the_proofs_take_it(self):
        self.assertTrue(fp_environment_ok())

    @unittest.skipIf(platform.machine() != "x86_64", "the modes below are x86-64's")
    def test_another_rounding_is_noticed(self):
        libm = ctypes.CDLL("libm.so.6")
        before = libm.fegetround()
        for mode in [0x400, 0x800, 0xC00]:
            self.assertEqual(libm.fesetround(mode), 0)
            try:
                self.assertFalse(fp_environment_ok())
            finally:
                libm.fesetround(before)
        self.assertTrue(fp_environment_ok())


if __name__ == "__main__":
    unittest.main()
