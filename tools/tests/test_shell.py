"""Tests of what is written for shells: the gate's script, tools/install, tools/completion, and the man page."""
import os
import pathlib
import shutil
import subprocess
import tempfile
import time
import unittest

from common import TOOLS, TOP

NO_COMMAND = "{} is not there"


def sh(*words, folder=None, **more):
    """Runs a command without an input, and returns its status, its output and its words on standard error."""
    done = subprocess.run([str(it) for it in words], stdin=subprocess.DEVNULL, capture_output=True, text=True, cwd=folder, check=False, timeout=60, **more)
    return done.returncode, done.stdout, done.stderr


def wants(command):
    return unittest.skipUnless(shutil.which(command), NO_COMMAND.format(command))


def write(path, text, is_program=False):
    path.parent.mkdir(parents=True, exist_ok=True)
    path.write_text(text, encoding="utf-8")
    path.chmod(0o755 if is_program else 0o644)


class InFolder(unittest.TestCase):
    """Tests that have a folder of their own."""

    def setUp(self):
        it = tempfile.TemporaryDirectory()
        self.addCleanup(it.cleanup)
        self.folder = pathlib.Path(it.name).resolve()


class Gate(InFolder):
    """.ci/run: a plain `rt ci`, and behind it the tests of the tools."""

    def gate(self, of_gate, of_tools, has_python=True):
        write(self.folder / ".ci/run", (TOP / ".ci/run").read_text(encoding="utf-8"), True)
        write(self.folder / "bin/rt", f'#!/bin/sh\n[ "$*" = ci ] && [ -d .ci ] && echo "3 passed, {int(of_gate != 0)} failed" && exit {of_gate}\n', True)
        write(self.folder / "tools/test", f"#!/bin/sh\necho of the tools\necho told >&2\nexit {of_tools}\n", True)
        for name in ("bash", "sh", "dirname"):
            (self.folder / "bin" / name).unlink(missing_ok=True)
            (self.folder / "bin" / name).symlink_to(shutil.which(name))
        write(self.folder / "bin/python3", f'#!/bin/sh\n[ "$1" != -c ] || exit {int(not has_python)}\nexec "$@"\n', True)
        return sh(self.folder / "bin/bash", self.folder / ".ci/run", env={"PATH": str(self.folder / "bin")})

    def test_the_gates_line_is_the_last(self):
        self.assertEqual(self.gate(0, 0), (0, "3 passed, 0 failed\n", "of the tools\ntold\n"))

    def test_the_status_is_the_gates(self):
        self.assertEqual(self.gate(7, 0), (7, "3 passed, 1 failed\n", "of the tools\ntold\n"))
        self.assertEqual(self.gate(7, 1)[0], 7)

    def test_tools_that_fail_fail_the_gate(self):
        self.assertEqual(self.gate(0, 3), (1, "3 passed, 0 failed\n", "of the tools\ntold\n"))

    def test_without_python_the_tools_are_skipped(self):
        self.assertEqual(self.gate(0, 1, has_python=False), (0, "3 passed, 0 failed\n", "tools/test was skipped: there is no python3 from 3.9 on\n"))


class Install(InFolder):
    """tools/install, in a checkout with a program of a line."""

    def setUp(self):
        super().setUp()
        self.top = self.folder / "a checkout"
        for name in ("tools/install", "tools/completion", "man/swss.1"):
            write(self.top / name, (TOP / name).read_text(encoding="utf-8"), name.startswith("tools"))
        write(self.top / "crates.txt", "# A comment.\nlow:\nhigh: low anyhow\nswss_cli: high low\nother: low\n")
        write(self.top / "crates/low/src/lib.rt", "")
        write(self.top / "crates/high/specs/Lib.antt", "")
        write(self.top / "crates/other/src/lib.rt", "")
        write(self.top / "crates/swss_cli/src/main.rt", "")
        write(self.top / "crates/cases/data/one.swss", "settle\n")
        write(self.top / "crates/cases/data/one.out", "settled 1 waiting 0\n")
        (self.top / "examples").symlink_to("crates/cases/data")
        self.program = self.top / "crates/swss_cli/out/swss_cli"

    def build(self, seconds=10):
        write(self.program, "#!/bin/sh\necho proved\n", True)
        os.utime(self.program, (time.time() + seconds, time.time() + seconds))

    def install(self, *words):
        return sh(self.top / "tools/install", *words, folder=self.folder)

    def test_all_is_put_under_the_prefix(self):
        self.build()
        status, text, told = self.install("a prefix")
        prefix = self.folder / "a prefix"
        names = [
            "bin/swss",
            "share/man/man1/swss.1",
            "share/bash-completion/completions/swss",
            "share/zsh/site-functions/_swss",
            "share/fish/vendor_completions.d/swss.fish",
            "share/swss/examples/one.out",
            "share/swss/examples/one.swss",
        ]
        self.assertEqual((status, told), (0, ""))
        self.assertEqual(text.splitlines(), [*(str(prefix / name) for name in names[:5]), str(prefix / "share/swss/examples")])
        self.assertEqual(sorted(str(it.relative_to(prefix)) for it in prefix.rglob("*") if it.is_file()), sorted(names))
        self.assertEqual(sh(prefix / "bin/swss"), (0, "proved\n", ""))
        self.assertEqual((prefix / "share/man/man1/swss.1").read_bytes(), (TOP / "man/swss.1").read_bytes())
        self.assertNotIn("prove", (prefix / "share/bash-completion/completions/swss").read_text(encoding="utf-8"))
        self.assertEqual(self.install("a prefix")[0], 0)

    def test_without_a_program_nothing_is_installed(self):
        remedy = "bin/swss prove proves and builds it, and so does the gate, .ci/run"
        self.assertEqual(self.install("prefix"), (1, "", f"install: there is no proved program: {remedy}\n"))
        self.build(-1_000)
        self.assertEqual(self.install("prefix")[:2], (1, ""))
        self.assertIn(remedy, self.install("prefix")[2])
        self.assertFalse((self.folder / "prefix").exists())

    def test_a_source_that_is_newer_than_the_program(self):
        self.build()
        later = time.time() + 20
        os.utime(self.top / "crates/other/src/lib.rt", (later, later))
        self.assertEqual(self.install("prefix")[0], 0)
        os.utime(self.top / "crates/high/specs/Lib.antt", (later, later))
        status, text, told = self.install("other")
        self.assertEqual((status, text), (1, ""))
        self.assertIn("install: the proved program is older than its sources, as crates/high/specs/Lib.antt", told)

    def test_a_prefix_that_cannot_be_written(self):
        self.build()
        write(self.folder / "prefix/bin", "a file\n")
        status, _, told = self.install("prefix")
        self.assertEqual(status, 1)
        self.assertIn(f"install: {self.folder}/prefix/bin/swss could not be written\n", told)

    def test_wrong_words(self):
        for words in ([], ["a", "b"], [""], ["--help"]):
            self.assertEqual(self.install(*words), (2, "", "usage: tools/install PREFIX, as tools/install ~/.local\n"))


class Completion(InFolder):
    """tools/completion, and what shells make of it."""

    def script(self, shell, *words):
        status, text, told = sh(TOOLS / "completion", *words, shell)
        self.assertEqual((status, told), (0, ""))
        path = self.folder / shell
        path.write_text(text, encoding="utf-8")
        return path

    @wants("bash")
    def test_bash(self):
        script = self.script("bash")

        def offers(*words):
            # (bash takes the = of a word apart)
            line = [part for word in words for part in word.replace("=", "\n=\n").split("\n")] if "=" in words[-1] else list(words)
            line = [it for it in line[:-1] if it] + line[-1:]
            program = f'source "{script}"; COMP_WORDS=("$@"); COMP_CWORD=$(($# - 1)); _swss; printf "%s\\n" "${{COMPREPLY[@]}}"'
            return sh("bash", "-c", program, "bash", *line)[1].split()

        self.assertEqual(offers("swss", ""), ["run", "view", "load", "prove"])
        self.assertEqual(offers("bin/swss", "r"), ["run"])
        self.assertEqual(offers("swss", "run", ""), ["--workers"])
        self.assertEqual(offers("swss", "run", "--workers", ""), ["1", "2", "3", "4"])
        self.assertEqual(offers("swss", "run", "--workers", "3"), ["3"])
        self.assertEqual(offers("swss", "run", "--workers="), ["1", "2", "3", "4"])
        self.assertEqual(offers("swss", "run", "--workers=2"), ["2"])
        self.assertEqual(offers("swss", "run", "--workers", "3", ""), [])
        self.assertEqual(offers("swss", "prove", ""), [])

    @wants("zsh")
    def test_zsh(self):
        script = self.script("zsh")

        def offers(*words):
            stubs = 'compdef() { }; compadd() { shift; print -l -- "$@" }; compset() { }; _describe() { print -l -- "${commands[@]%%:*}" }'
            program = f'{stubs}; source "{script}"; words=("$@"); CURRENT=$#; PREFIX=$words[CURRENT]; _swss'
            status, text, told = sh("zsh", "-f", "-c", program, "zsh", *words)
            self.assertEqual((status, told), (0, ""))
            return text.split()

        self.assertEqual(offers("swss", ""), ["run", "view", "load", "prove"])
        self.assertEqual(offers("swss", "run", "--"), ["--workers"])
        self.assertEqual(offers("swss", "run", "--workers", ""), ["1", "2", "3", "4"])
        self.assertEqual(offers("swss", "run", "--workers="), ["1", "2", "3", "4"])

    @wants("fish")
    def test_fish(self):
        script = self.script("fish")

        def offers(line):
            status, text, told = sh("fish", "--no-config", "-c", f'source "{script}"; complete -C "{line}"', env={**os.environ, "HOME": str(self.folder)})
            self.assertEqual((status, told), (0, ""))
            return [it.split("\t")[0] for it in text.splitlines()]

        self.assertEqual(sorted(offers("swss ")), ["load", "prove", "run", "view"])
        self.assertEqual(offers("swss run --w"), ["--workers"])
        self.assertEqual(offers("swss run --workers "), ["1", "2", "3", "4"])
        self.assertEqual(offers("swss run --workers="), ["--workers=1", "--workers=2", "--workers=3", "--workers=4"])

    def test_installed(self):
        for shell in ("bash", "zsh", "fish"):
            text = self.script(shell, "--installed").read_text(encoding="utf-8")
            self.assertEqual(("run" in text, "prove" in text), (True, False))

    def test_wrong_words(self):
        for words in ([], ["csh"], ["bash", "zsh"]):
            self.assertEqual(sh(TOOLS / "completion", *words), (2, "", "usage: tools/completion [--installed] bash|zsh|fish\n"))


class Pages(unittest.TestCase):
    """The man page and the shell scripts, by those who look them over."""

    @wants("mandoc")
    def test_the_man_page(self):
        self.assertEqual(sh("mandoc", "-T", "lint", TOP / "man/swss.1"), (0, "", ""))

    @wants("shellcheck")
    def test_the_scripts(self):
        for name in (".ci/run", "tools/completion", "tools/install"):
            self.assertEqual(sh("shellcheck", TOP / name), (0, "", ""), name)

    def test_the_man_page_has_each_status(self):
        page = (TOP / "man/swss.1").read_text(encoding="utf-8")
        formats = (TOP / "docs/FORMATS.md").read_text(encoding="utf-8").split("## Statuses")[1]
        for line in formats.splitlines():
            if line.startswith("| ") and line[2].isdigit():
                self.assertIn(f".It {line[2]}\n", page)


if __name__ == "__main__":
    unittest.main()
