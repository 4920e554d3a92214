#!/usr/bin/env python3
"""What README.md and docs/ORDER.md show is run as it stands, in the folder of the repository, and has to print what they say; the example of the
package too. The code in docs/ORDER.md is that of the engine."""
import os
import re
import subprocess
import unittest

import report
from lent import huztiral

TOP = os.path.dirname(os.path.dirname(os.path.abspath(__file__)))
RUN = {"sh": ["bash", "-euo", "pipefail", "-s"], "python": ["python3", "-"]}
SH, PYTHON = ("sh", "text"), ("python", "text")


def text_of(*path):
    with open(os.path.join(TOP, *path), encoding="utf-8") as file:
        return file.read()


def blocks(*page):
    """the fenced blocks of a page: language and text"""
    return re.findall(r"^```(\w+)\n(.*?)^```$", text_of(*page), re.DOTALL | re.MULTILINE)


class Readme(unittest.TestCase):
    def prints(self, shown):
        """blocks in pairs: what is run, and what it prints"""
        for (language, text), (_, printed) in zip(shown[::2], shown[1::2]):
            said = subprocess.run(RUN[language], cwd=TOP, input=text, stdout=subprocess.PIPE, text=True)
            self.assertEqual((said.returncode, said.stdout), (0, printed), text)

    def test_what_it_shows(self):
        shown = blocks("README.md")
        self.assertEqual([language for language, _ in shown], [*SH, *PYTHON, *SH, *PYTHON, *PYTHON, *SH, *PYTHON, *PYTHON])
        self.prints(shown)

    def test_the_order(self):
        """the two walks of docs/ORDER.md are the engine's but for contracts and the cycle's name, and the example prints what the page says"""
        (language, walks), *shown = blocks("docs", "ORDER.md")
        code = re.sub(r"^(    (requires|ensures) \{|#\[cycle).*\n", "", text_of("crates", "listing", "src", "lib.rt"), flags=re.MULTILINE)
        self.assertEqual((language, walks.count("fn "), [language for language, _ in shown]), ("rust", 2, [*SH]))
        self.assertIn(f"\n{walks}\n", code)
        self.prints(shown)

    def test_the_package(self):
        """the lines of its docstring with a value after # have that value"""
        names, seen = {"edition": huztiral.Edition([2, 2, 2], 3), "puzzle": huztiral.Edition([2, 1], 1)}, 0
        for line, value in re.findall(r"^    (\S*(?:edition|puzzle)\.\S.*?) +# (\d+|\[[\d, \[\]]+\]):", huztiral.__doc__, re.MULTILINE):
            self.assertEqual(repr(eval(line, names)), value)
            seen += 1
        self.assertEqual(seen, 8)


if __name__ == "__main__":
    report.main("readme")
