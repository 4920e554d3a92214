#!/usr/bin/env python3
"""scripts/build in a small repository, with a kit that only pretends: what it says with and without a terminal, when it builds, several at once."""
import os
import pty
import shutil
import subprocess
import tempfile
import time
import unittest

import report

TOP = os.path.dirname(os.path.dirname(os.path.abspath(__file__)))
RT = """#!/bin/sh
crate=$(basename "$PWD")
echo "$1 $crate" >>../../calls
echo "some text of the prover about $crate"
[ ! -e src/wrong ] || { echo "logic=not-proved"; exit 1; }
sleep 0.1
mkdir -p out
case "$1 $crate" in
"run list") echo program >out/list; chmod +x out/list ;;
"lib engine") echo archive >out/libengine.a ;;
esac
"""
CC = """#!/bin/sh
while [ "$1" != -o ]; do shift; done
cat target/staticlib/libengine.a >"$2"
"""


class Building(unittest.TestCase):
    def setUp(self):
        self.folder = tempfile.mkdtemp()
        self.addCleanup(shutil.rmtree, self.folder)
        self.write("crates.txt", "# a comment\nbase:\nmiddle: base check\nother: base\nlist: middle base\nengine staticlib: middle\n")
        for crate in "base", "middle", "other", "list", "engine":
            self.write(f"crates/{crate}/src/lib.rt", "")
        os.mkdir(os.path.join(self.folder, "scripts"))
        shutil.copy(os.path.join(TOP, "scripts", "build"), os.path.join(self.folder, "scripts", "build"))
        self.write("bin/rt", RT, 0o755)
        self.write("bin/cc", CC, 0o755)
        self.environment = dict(os.environ, PATH=os.path.join(self.folder, "bin") + ":" + os.environ["PATH"], CC="cc")

    def write(self, path, text, mode=0o644):
        path = os.path.join(self.folder, path)
        os.makedirs(os.path.dirname(path), exist_ok=True)
        with open(path, "w", encoding="utf-8") as file:
            file.write(text)
        os.chmod(path, mode)

    def read(self, path):
        with open(os.path.join(self.folder, path), encoding="utf-8") as file:
            return file.read()

    def start(self, product, stderr=subprocess.PIPE):
        command = [os.path.join(self.folder, "scripts", "build"), product]
        return subprocess.Popen(command, env=self.environment, cwd="/", stdin=subprocess.DEVNULL, stdout=subprocess.PIPE, stderr=stderr, text=True)

    def build(self, product):
        """its status and what it said, on standard error alone"""
        process = self.start(product)
        out, said = process.communicate()
        self.assertEqual(out, "")
        return process.returncode, said

    def times_built(self):
        return self.read("calls").split("\n").count("lib engine")

    def test_without_a_terminal(self):
        status, said = self.build("list")
        self.assertEqual(status, 0)
        self.assertRegex(said, r"\Ahuztiral: proving 3 crates to build target/bin/list; the prover's text goes to target/build-list.log\n"
                               r"huztiral: target/bin/list is proved and built \(3 crates, \d+ s\)\n\Z")
        self.assertIn("some text of the prover about middle", self.read("target/build-list.log"))
        self.assertEqual(self.build("list"), (0, ""))
        self.assertEqual(self.read("calls"), "lib base\nlib middle\nrun list\n")

    def test_with_a_terminal(self):
        ours, theirs = pty.openpty()
        time.sleep(1 - time.time() % 1)  # the shell counts seconds by the clock's: both lines that say 0 come within one
        process = self.start("list", theirs)
        os.close(theirs)
        said = b""
        try:
            while block := os.read(ours, 4096):
                said += block
        except OSError:  # the other side is closed
            pass
        os.close(ours)
        process.communicate()
        moves = said.decode().split("\r\033[K")
        for part in "proving 1 of 3: base (0 s)", "proving 2 of 3: middle (0 s)", "proving 3 of 3: list":
            self.assertTrue(any(move.startswith(part) for move in moves), moves)
        self.assertRegex(moves[-1], r"\Ahuztiral: target/bin/list is proved and built \(3 crates, \d+ s\)\r\n\Z")
        self.assertEqual(said.count(b"\n"), 1)

    def test_when_it_builds(self):
        self.assertEqual(self.build("library")[0], 0)
        self.assertEqual(self.read("calls"), "lib base\nlib middle\nlib engine\n")
        self.write("crates/other/src/lib.rt", "no part of the engine")
        self.assertEqual(self.build("library"), (0, ""))
        self.write("crates/middle/src/lib.rt", "a part of it")
        self.assertEqual(self.build("library")[0], 0)
        self.assertEqual(self.times_built(), 2)
        for lost in "shared/libhuztiral.so", "staticlib/libengine.a", "built/library":
            os.remove(os.path.join(self.folder, "target", lost))
            self.assertEqual(self.build("library")[0], 0)
        self.assertEqual(self.times_built(), 5)
        self.assertEqual(self.read("target/shared/libhuztiral.so"), "archive\n")
        self.assertEqual(sorted(os.listdir(os.path.join(self.folder, "target", "shared"))), ["libhuztiral.so"])

    def test_a_failure(self):
        self.write("crates/middle/src/wrong", "")
        for _ in range(2):
            status, said = self.build("library")
            self.assertEqual(status, 1)
            *_, cause, verdict, end = said.split("\n")
            self.assertEqual((cause, end), ("logic=not-proved", ""))
            self.assertEqual(verdict, "huztiral: target/shared/libhuztiral.so is not built; target/build-library.log has all that was said")
        self.assertEqual(self.read("calls"), "lib base\nlib middle\n" * 2)
        os.remove(os.path.join(self.folder, "crates/middle/src/wrong"))
        self.assertEqual(self.build("library")[0], 0)

    def test_several_at_once(self):
        several = [self.start("library") for _ in range(4)]
        said = [process.communicate()[1] for process in several]
        self.assertEqual([process.returncode for process in several], [0] * 4)
        self.assertEqual(sum("is proved and built" in text for text in said), 1)
        self.assertLessEqual({text for text in said if "is proved and built" not in text}, {"", "huztiral: waiting for another build\n"})
        self.assertEqual(self.times_built(), 1)

    def test_no_kit(self):
        os.remove(os.path.join(self.folder, "bin", "rt"))
        tools = [shutil.which(tool) for tool in ("bash", "awk", "sort", "cut", "find", "mkdir", "flock", "dirname", "env")]
        for tool in tools:
            os.symlink(tool, os.path.join(self.folder, "bin", os.path.basename(tool)))
        self.environment["PATH"] = os.path.join(self.folder, "bin")
        status, said = self.build("list")
        self.assertEqual((status, said), (1, "huztiral: target/bin/list is not built: it takes the Rattle kit, and there is no rt on the path\n"))

    def test_usage(self):
        self.assertEqual(self.build("lists"), (2, "usage: scripts/build list|library\n"))


if __name__ == "__main__":
    report.main("building")
