"""The Python of README.md and bindings/README.md, run as it stands there."""

import os
import re
import unittest

from support import ROOT


def scripts(path):
    """The indented blocks of a page that import the package."""
    found = re.findall(r"(?:^    .*\n|^\n(?=    ))+", (ROOT / path).read_text(), re.M)
    return [re.sub(r"^    ", "", it.strip("\n"), flags=re.M) + "\n" for it in found if "from syntax_edit import" in it]


class Pages(unittest.TestCase):
    def setUp(self):
        # The pages name files from the top.
        self.before = os.getcwd()
        os.chdir(ROOT)

    def tearDown(self):
        os.chdir(self.before)

    def test_scripts(self):
        for path, count in (("README.md", 1), ("bindings/README.md", 3)):
            found = scripts(path)
            self.assertEqual(len(found), count, path)
            for script in found:
                with self.subTest(path=path, script=script):
                    exec(compile(script, path, "exec"), {})


if __name__ == "__main__":
    unittest.main()
