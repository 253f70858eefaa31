"""Follows docs/WALK.md word by word, with the proved program, where it is there."""
import pathlib
import re
import subprocess
import tempfile
import unittest

from common import EXAMPLES, HAS_PROGRAM, PROGRAM, TOOLS, TOP, run

UNPROVED = "swss: this run is unproved, and takes a minute or two to begin; bin/swss prove makes the proved program\n"
TITLE = "A leaf switch, whose service restarts in the third round"
REPORT = TOOLS / "tests" / "leaf-restart.out"


def steps():
    """Returns each command of the walk with what it prints."""
    text = (TOP / "docs/WALK.md").read_text(encoding="utf-8")
    return re.findall(r"```sh\n(.*?)\n```\n(?:\n```\n(.*?)```\n)?", text, re.DOTALL)


class Walk(unittest.TestCase):
    def test_there_are_ten_commands(self):
        self.assertEqual([command.count("\n") for command, _ in steps()], [0] * 10)

    def test_what_needs_no_program(self):
        self.follow(lambda command: command.startswith(("tools/from-rec", "tail")))

    @unittest.skipUnless(HAS_PROGRAM, "there is no proved program of these sources")
    def test_the_walk_word_by_word(self):
        # (the proof itself is the gate's)
        self.follow(lambda command: command != "bin/swss prove")

    def follow(self, is_followed):
        with tempfile.TemporaryDirectory() as it:
            folder = str(pathlib.Path(it).resolve())
            for command, printed in steps():
                if is_followed(command):
                    with self.subTest(command=command):
                        command, printed = (text.replace("/tmp/", f"{folder}/") for text in (command, printed))
                        done = subprocess.run(
                            ["bash", "-c", command], stdin=subprocess.DEVNULL, stdout=subprocess.PIPE, stderr=subprocess.STDOUT, text=True, cwd=TOP, check=False, timeout=120
                        )
                        self.assertEqual((done.returncode, done.stdout), (0, printed.replace(UNPROVED, "")))

    def test_the_picture_is_current(self):
        status, text, told = run("timeline", "--title", TITLE, given=REPORT.read_bytes())
        self.assertEqual((status, told), (0, ""))
        remedy = f"tools/timeline --title '{TITLE}' < tools/tests/leaf-restart.out > docs/leaf-restart.svg"
        self.assertTrue((TOP / "docs/leaf-restart.svg").read_bytes() == text, f"make it anew: {remedy}")

    def test_the_report_is_what_the_walk_shows(self):
        printed = dict(steps())
        part = printed["sed -n '/warm initialized/,/^26/p' /tmp/restart.report"]
        self.assertIn(part, REPORT.read_text(encoding="utf-8"))
        report = (EXAMPLES / "leaf-recording.out").read_text(encoding="utf-8")
        self.assertEqual(printed["bin/swss run < /tmp/leaf.swss"], UNPROVED + report)

    @unittest.skipUnless(HAS_PROGRAM, "there is no proved program of these sources")
    def test_the_report_is_the_programs(self):
        status, script, _ = run("from-rec", "--show", "calls", "--restart", "3", EXAMPLES / "leaf-recording.rec")
        done = subprocess.run([str(PROGRAM), "run"], input=script, capture_output=True, check=False, timeout=60)
        self.assertEqual((status, done.returncode, done.stdout), (0, 0, REPORT.read_bytes()))


if __name__ == "__main__":
    unittest.main()
