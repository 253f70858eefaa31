"""What the tests of the tools share: to run a tool, to call its functions, and where things stand."""
import importlib.machinery
import importlib.util
import os
import pathlib
import subprocess
import sys
import tempfile

TOP = pathlib.Path(__file__).resolve().parents[2]
TOOLS = TOP / "tools"
EXAMPLES = TOP / "examples"
PROGRAM = TOP / "crates" / "swss_cli" / "out" / "swss_cli"
IS_LONG = False


def has_program():
    """Tells whether there is a proved program of the sources as they are: whether tools/install takes it."""
    with tempfile.TemporaryDirectory() as folder:
        done = subprocess.run([str(TOOLS / "install"), folder], stdin=subprocess.DEVNULL, capture_output=True, check=False, timeout=60)
    return done.returncode == 0


HAS_PROGRAM = has_program()


def run(tool, *words, given=b"", folder=None, **more):
    """Runs a tool, and returns its status, its output and its words on standard error."""
    command = [sys.executable, "-B", str(TOOLS / tool), *map(str, words)]
    done = subprocess.run(command, input=given, capture_output=True, cwd=folder, timeout=120, check=False, **more)
    return done.returncode, done.stdout, done.stderr.decode()


def module_of(tool):
    """Returns a tool of Python as a module."""
    loader = importlib.machinery.SourceFileLoader(tool, str(TOOLS / tool))
    module = importlib.util.module_from_spec(importlib.util.spec_from_loader(tool, loader))
    sys.dont_write_bytecode = True
    loader.exec_module(module)
    return module


def peak_of(command, write):
    """Runs a command whose standard input `write` fills, and returns its status, its peak of memory in KiB, and its words on standard error."""
    with open(os.devnull, "wb") as nothing:
        with subprocess.Popen(command, stdin=subprocess.PIPE, stdout=nothing, stderr=subprocess.PIPE) as child:
            write(child.stdin)
            child.stdin.close()
            told = child.stderr.read().decode()
            _, status, usage = os.wait4(child.pid, 0)
            child.returncode = os.waitstatus_to_exitcode(status)
    return child.returncode, usage.ru_maxrss, told


def port(number, lanes, more=b"", time=b"2026-03-02.08:00:00.000001"):
    """A line of a recording that sets a port."""
    return time + b"|PORT_TABLE:Ethernet%d|SET|lanes:" % number + lanes + more + b"\n"
