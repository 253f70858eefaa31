"""Tests of tools/from-rec: recordings by hand, with the scripts that they come to."""
import os
import subprocess
import sys
import tempfile
import time
import unittest

import common
from common import EXAMPLES, HAS_PROGRAM, PROGRAM, TOOLS, peak_of, port, run

FIRST = b"2026-03-02.08:00:00.000001|"
END = b"settle\nshow waiting\nshow ready\n"
# What a short recording from standard input begins with.
TITLE = "# Made by tools/from-rec from standard input: {}; settled where time stands still for 1 second.\n"


def script_of(recording, *words):
    """Returns the script without its comments, and what was told on standard error."""
    status, script, told = run("from-rec", *words, given=recording)
    assert status == 0, told
    return b"".join(it for it in script.splitlines(keepends=True) if not it.startswith(b"#")), told


class Rows(unittest.TestCase):
    """What becomes of a line."""

    def row(self, line, wanted, told=""):
        script, words = script_of(FIRST + line + b"\n")
        self.assertEqual(script, b"producer recording\n" + wanted + b"\n" + END)
        self.assertEqual(words, told)

    def test_fields_with_colons_and_equal_signs(self):
        self.row(b"NEIGH_TABLE:Ethernet0:fc00::1|SET|neigh:02:00:00:00:00:01|x:a=b", b"set NEIGH_TABLE:Ethernet0:fc00::1 neigh=02:00:00:00:00:01 x=a=b")

    def test_an_empty_value(self):
        self.row(b"A:b|SET|c:|d:e", b"set A:b c= d=e")

    def test_a_set_without_fields(self):
        self.row(b"INTF_TABLE:Ethernet0|SET", b"set INTF_TABLE:Ethernet0")
        self.row(b"INTF_TABLE:Ethernet0|SET|", b"set INTF_TABLE:Ethernet0")
        self.row(b"INTF_TABLE:Ethernet0|SET|NULL:NULL", b"set INTF_TABLE:Ethernet0 NULL=NULL")

    def test_equal_fields_stay_in_their_order(self):
        self.row(b"A:b|SET|c:1|c:2", b"set A:b c=1 c=2")
        self.row(b"A:b|SET|c:1|c:2 3", b'json [{"A:b":{"c":"2 3"},"OP":"SET"}]')

    def test_deletions(self):
        self.row(b"A:b|DEL", b"del A:b")
        self.row(b"A:b|DEL|", b"del A:b")
        self.row(b"A:b|DEL|c:d", b'json [{"A:b":{"c":"d"},"OP":"DEL"}]')

    def test_blanks_go_into_a_batch(self):
        self.row(b"A:b|SET|c:d e", b'json [{"A:b":{"c":"d e"},"OP":"SET"}]')
        self.row(b"A:b c|DEL", b'json [{"A:b c":{},"OP":"DEL"}]')
        self.row(b'A:b|SET|c:\t"\\', b'json [{"A:b":{"c":"\\t\\"\\\\"},"OP":"SET"}]')

    def test_a_name_with_an_equal_sign_goes_into_a_batch(self):
        self.row(b"A:b|SET|c=d:e", b'json [{"A:b":{"c=d":"e"},"OP":"SET"}]')

    def test_an_empty_name_goes_into_a_batch(self):
        self.row(b"A:b|SET|:e", b'json [{"A:b":{"":"e"},"OP":"SET"}]')

    def test_a_carriage_return_in_a_value_goes_into_a_batch(self):
        self.row(b"A:b|SET|c:d\r\r", b'json [{"A:b":{"c":"d\\r"},"OP":"SET"}]')

    def test_other_signs_of_utf8_stay(self):
        self.row("A:b|SET|c:ä\u00a0\u2028z".encode(), "set A:b c=ä\u00a0\u2028z".encode())

    def test_keys_with_bars(self):
        self.row(b"NEIGH|Vlan10|fc00::2|SET|neigh:02:00:00:00:00:01", b"set NEIGH|Vlan10|fc00::2 neigh=02:00:00:00:00:01")

    def test_a_long_row_goes_into_a_batch(self):
        # A line of a script has up to 65,536 bytes, and `set A:b c=` are ten.
        self.row(b"A:b|SET|c:" + b"x" * 65_526, b"set A:b c=" + b"x" * 65_526)
        self.row(b"A:b|SET|c:" + b"x" * 65_527, b'json [{"A:b":{"c":"' + b"x" * 65_527 + b'"},"OP":"SET"}]')

    def test_rows_of_other_tables_are_kept(self):
        self.row(b"PORT_TABLE:PortConfigDone|SET|count:3", b"set PORT_TABLE:PortConfigDone count=3")
        self.row(b"PORT_TABLE:PortInitDone|SET|lanes:0", b"set PORT_TABLE:PortInitDone lanes=0")
        self.row(b"COPP_TABLE:trap.group|SET|queue:1", b"set COPP_TABLE:trap.group queue=1")


class Comments(unittest.TestCase):
    """What has no form in a script stays as a comment."""

    def test_the_whole_script(self):
        recording = b"# A note.\n\n" + FIRST + b"recording started\n" + FIRST + b"CRM|Config|SET|a:b\r\n" + FIRST + b"A:b|HSET|c:d\n" + FIRST + b"A:b|DEL\n# Another.\n"
        status, script, told = run("from-rec", given=recording)
        self.assertEqual(status, 0)
        self.assertEqual(
            script.decode(),
            "# A note.\n"
            + TITLE.format("0 sets, 1 deletion, 3 lines kept as comments")
            + "# line 3: 2026-03-02.08:00:00.000001|recording started\n"
            "# line 4: 2026-03-02.08:00:00.000001|CRM|Config|SET|a:b\n"
            "# line 5: 2026-03-02.08:00:00.000001|A:b|HSET|c:d\n"
            "# Round 1 begins at line 6, 2026-03-02.08:00:00.000001.\n"
            "producer recording\ndel A:b\n# Another.\nsettle\nshow waiting\nshow ready\n",
        )
        self.assertEqual(
            told,
            "from-rec: standard input: line 4: 'CRM|Config' has no colon, so it is no key of a script: the line is kept as a comment\n"
            "from-rec: standard input: line 5: '2026-03-02.08:00:00.000001|A:b|HSET|c:d' is neither SET nor DEL: the line is kept as a comment\n",
        )

    def test_a_comment_that_is_too_long_is_cut_and_told(self):
        status, script, told = run("from-rec", given=b"# " + b"x" * 70_000 + b"\n" + FIRST + b"Ab|SET|" + b"y:" * 40_000 + b"\n")
        self.assertEqual((status, [len(it) <= 65_536 for it in script.splitlines()]), (0, [True] * 7))
        self.assertIn("line 1: the comment has room for 60,000 bytes of 70,002: the rest is left out\n", told)
        self.assertIn("line 2: the comment has room for 60,000 bytes of 80,034: the rest is left out\n", told)

    def test_a_strange_name_of_the_file(self):
        with tempfile.TemporaryDirectory() as folder:
            path = f"{folder}/a\nb\x1b.rec"
            with open(path, "wb") as file:
                file.write(FIRST + b"A:b|DEL\n")
            status, script, told = run("from-rec", path)
        self.assertEqual((status, told), (0, ""))
        self.assertEqual(script.splitlines()[0].decode(), TITLE.replace("standard input", "a\\nb\\x1b.rec").format("0 sets, 1 deletion").rstrip())

    def test_many_notes_are_counted(self):
        _, told = script_of((FIRST + b"A|b|SET|c:d\n") * 25)
        lines = told.splitlines()
        self.assertEqual(len(lines), 11)
        self.assertEqual(lines[10], "from-rec: standard input: 15 more lines of this kind: keys without a colon, kept as comments")

    def test_a_recording_without_a_write(self):
        self.assertEqual(script_of(b"")[0], b"producer recording\n" + END)


class Rounds(unittest.TestCase):
    """Where rounds are settled."""

    @staticmethod
    def at(time, key=b"A:b"):
        return b"2026-03-02." + time + b"|" + key + b"|DEL\n"

    def rounds(self, recording, *words):
        script, told = script_of(recording, *words)
        return [it.count(b"del") + it.count(b"set ") for it in script.split(b"settle\n")[:-1]], told

    def test_a_second_settles_and_less_does_not(self):
        recording = self.at(b"08:00:00.000001") + self.at(b"08:00:01.000001") + self.at(b"08:00:02.000000") + self.at(b"08:00:59.999999")
        self.assertEqual(self.rounds(recording), ([1, 2, 1], ""))

    def test_the_gap_is_an_option(self):
        recording = self.at(b"08:00:00.5") + self.at(b"08:00:00.75") + self.at(b"08:00:03.25")
        self.assertEqual(self.rounds(recording, "--gap", "0.25")[0], [1, 1, 1])
        self.assertEqual(self.rounds(recording, "--gap", "2.5")[0], [2, 1])
        self.assertEqual(self.rounds(recording, "--gap", "2.6")[0], [3])
        self.assertEqual(self.rounds(recording, "--gap", "inf")[0], [3])
        self.assertEqual(self.rounds(self.at(b"08:00:00") * 3, "--gap", "0")[0], [1, 1, 1])

    def test_midnight_and_days(self):
        recording = b"2024-02-28.23:59:59.5|A:b|DEL\n2024-02-29.00:00:00.4|A:b|DEL\n2024-03-01.00:00:00.4|A:b|DEL\n"
        self.assertEqual(self.rounds(recording)[0], [2, 1])

    def test_time_that_runs_back_is_told_and_settles_nothing(self):
        counts, told = self.rounds(self.at(b"08:00:05") + self.at(b"07:00:05") + self.at(b"07:00:06"))
        self.assertEqual(counts, [2, 1])
        self.assertEqual(told, "from-rec: standard input: line 2: time runs back here, which settles no round\n")

    def test_comments_make_no_round(self):
        counts, _ = self.rounds(self.at(b"08:00:00") + self.at(b"08:00:05", b"A|b") + self.at(b"08:00:09", b"A|b"))
        self.assertEqual(counts, [1])

    def test_shows_and_a_restart(self):
        recording = self.at(b"08:00:00") + self.at(b"08:00:05")
        script, _ = script_of(recording, "--show", "calls", "--show", "forward 10.0.0.1", "--show", "ready", "--restart", "2", "--producer", "r-1")
        self.assertEqual(
            script,
            b"producer r-1\ndel A:b\nsettle\nshow calls\nshow forward 10.0.0.1\nshow ready\n"
            b"producer r-1\ndel A:b\nrestart\nsettle\nshow calls\nshow forward 10.0.0.1\nshow waiting\nshow ready\n",
        )

    def test_a_restart_in_no_round_is_refused(self):
        self.assertEqual(run("from-rec", "--restart", "3", given=self.at(b"08:00:00")), (1, b"", "from-rec: standard input: there is no round 3 to restart in: the script has 1 round\n"))


class Plan(unittest.TestCase):
    """The ports of the switch."""

    def plan(self, recording):
        script, told = script_of(recording)
        return [it.decode() for it in script.splitlines() if it.startswith(b"port ")], [it.partition("line ")[2] for it in told.splitlines()]

    def test_rows_with_lanes(self):
        recording = port(4, b"4,5", b"|mtu:9100") + port(0, b"3,2,1,0") + FIRST + b"PORT_TABLE:Ethernet8|SET|mtu:9100\n" + FIRST + b"PORT_TABLE:PortInitDone|SET|lanes:0\n"
        self.assertEqual(self.plan(recording), (["port Ethernet4 4,5", "port Ethernet0 3,2,1,0"], []))

    def test_the_same_lanes_again(self):
        self.assertEqual(self.plan(port(0, b"0,1") + port(0, b"0,1") + port(0, b"1,0")), (["port Ethernet0 0,1"], []))

    def test_lanes_that_stand_twice_in_a_row(self):
        self.assertEqual(self.plan(port(0, b"0,1", b"|lanes:2,3")), (["port Ethernet0 2,3"], []))

    def test_lanes_that_change(self):
        plan, told = self.plan(port(0, b"0,1,2,3") + port(0, b"0,1") + port(2, b"2,3"))
        self.assertEqual(plan, ["port Ethernet0 0,1,2,3"])
        self.assertEqual(
            told,
            [
                "2: PORT_TABLE:Ethernet0: lanes '0,1' are others than '0,1,2,3', which came first and are those of the plan; `show ignored` lists the row",
                "3: PORT_TABLE:Ethernet2: lane 2 is one of Ethernet0, which came first; `show ignored` lists the row",
            ],
        )

    def test_what_is_no_port(self):
        for name, lanes in ((b"Ethernet0", b"512"), (b"Ethernet0", b""), (b"Ethernet0", b"0,0"), (b"Ethernet0", b"0,1,2,3,4,5,6,7,8"), (b"Ethernet00", b"0"), (b"Ethernet1000000", b"0"), (b"Ethernet-Rec0", b"0"), (b"Ethernet0", b"01")):
            with self.subTest(name=name, lanes=lanes):
                plan, told = self.plan(FIRST + b"PORT_TABLE:" + name + b"|SET|lanes:" + lanes + b"\n")
                self.assertEqual((plan, len(told)), ([], 1))

    def test_a_port_too_many(self):
        plan, told = self.plan(b"".join(port(it, b"%d" % it) for it in range(257)))
        self.assertEqual((len(plan), len(told)), (256, 1))


class Refusals(unittest.TestCase):
    """Bad input: its line is told, and nothing is written."""

    def refused(self, recording, reason, *words):
        self.assertEqual(run("from-rec", *words, given=recording), (1, b"", f"from-rec: standard input: {reason}\n"))

    def test_cut_lines(self):
        good = FIRST + b"A:b|DEL\n"
        self.refused(good + b"\n2026-03-02.08:00:00.000001\n" + good, "line 3: there is no | behind the time: the line is cut")
        self.refused(good + b"2026-03-02.08:0|A:b|DEL\n", "line 2: '2026-03-02.08:0' is no time as 2026-03-02.08:00:00.000125, with which a line begins")
        self.refused(good + FIRST + b"A:b\n", "line 2: there is no operation behind 'A:b': the line is cut")
        self.refused(good + FIRST + b"A:b|\n", "line 2: there is no operation behind 'A:b': the line is cut")
        self.refused(good + FIRST + b"A:b|c:d\n", "line 2: there is no operation behind 'A:b': the line is cut")
        self.refused(good + FIRST + b"|SET|c:d\n", "line 2: there is no key behind the time")
        self.refused(good + FIRST + b"A:b|SET|c:d|e\n", "line 2: 'e' is no field:value: the line is cut, or a value has a |")
        self.refused(good + FIRST + b"A:b|SE", "line 2: the last line is cut: it has no end, and neither SET nor DEL")

    def test_a_last_line_without_its_end_is_told(self):
        script, told = script_of(FIRST + b"A:b|SET|c:d")
        self.assertEqual(script, b"producer recording\nset A:b c=d\n" + END)
        self.assertEqual(told, "from-rec: standard input: line 1: the last line has no end: if the recording was cut there, so is its last value\n")

    def test_bytes_that_are_no_utf8(self):
        self.refused(FIRST + b"A:b|DEL\n" + FIRST + b"A:b|SET|c:\xff\n", "line 2: bytes that are no UTF-8, from byte 38 of the line on")
        self.refused(b"\xff\xfe\n", "line 1: bytes that are no UTF-8, from byte 1 of the line on")

    def test_times_that_are_none(self):
        self.refused(b"2026-02-30.08:00:00.000001|A:b|DEL\n", "line 1: there is no day '2026-02-30'")
        self.refused(b"2026-03-02.24:00:00|A:b|DEL\n", "line 1: there is no time '2026-03-02.24:00:00'")

    def test_a_line_that_is_too_long(self):
        self.refused(FIRST + b"A:b|SET|c:" + b"x" * 2_000_000 + b"\n", "line 1: the line has more than 1,048,576 bytes")

    def test_other_files(self):
        self.refused(b"2026-03-02.08:00:00.000001|c|SAI_OBJECT_TYPE_VLAN:oid:0x26|SAI_VLAN_ATTR_VLAN_ID=10\n", "line 1: this is a recording of SAI calls (sairedis.rec) and has no rows: tools/from-rec reads swss.rec")
        self.refused(b"2026-03-02.08:00:00.000001|#|recording on: sairedis.rec\n", "line 1: this is a recording of SAI calls (sairedis.rec) and has no rows: tools/from-rec reads swss.rec", "--lenient")
        status, _, told = run("from-rec", given=b'{"A:b":{}}\n')
        self.assertEqual((status, told.endswith("dumps are read by tools/from-dump\n")), (1, True))

    def test_lenient_keeps_faulty_lines(self):
        status, script, told = run("from-rec", "--lenient", given=FIRST + b"A:b|SET|c\n\xff\n" + b"x" * 2_000_000 + b"\n" + FIRST + b"A:b|DEL\n")
        self.assertEqual(status, 0)
        self.assertEqual([it[:40] for it in script.splitlines()[1:3]], [b"# line 1: 2026-03-02.08:00:00.000001|A:b", b"# line 2: \\xff"])
        self.assertEqual([len(it) < 65_536 for it in script.splitlines()], [True] * 10)
        self.assertEqual([it.split(": ")[2] for it in told.splitlines()], ["line 1", "line 2", "line 3", "line 3"])

    def test_wrong_words(self):
        for words in (["--gap", "-1"], ["--gap", "x"], ["--gap", "nan"], ["--producer", "a b"], ["--show", "all"], ["--restart", "0"], ["a", "b"], ["--wrong"]):
            with self.subTest(words=words):
                status, script, told = run("from-rec", *words)
                self.assertEqual((status, script), (2, b""))
                self.assertIn("usage: tools/from-rec", told)

    def test_a_file_that_is_not_there(self):
        self.assertEqual(run("from-rec", "no-such.rec"), (1, b"", "from-rec: no-such.rec: No such file or directory\n"))

    def test_help(self):
        status, text, told = run("from-rec", "--help")
        self.assertEqual((status, told), (0, ""))
        self.assertIn(b"Status 0: written.", text)


class Large(unittest.TestCase):
    """Long input: constant memory, and what a script may have."""

    def test_memory_stays_where_it_is(self):
        short, long = (self.peak(count)[0] for count in (3_000, 60_000))
        # (the long one has 5 MB, which a tool that keeps its lines holds more than twice)
        self.assertLess(long - short, 4_000)

    def peak(self, count, value=b"nexthop:10.0.0.1,10.0.0.3|ifname:Ethernet0,Ethernet4"):
        """Returns the most memory, in KiB, that a recording of so many lines took, a round for each 1,000, and what was told."""
        self.written = 0

        def write(pipe):
            for block in range(0, count, 1_000):
                second = b"2026-03-%02d.%02d:%02d:%02d." % (1 + block // 1_000 // 86_400, block // 3_600_000 % 24, block // 60_000 % 60, block // 1_000 % 60)
                self.written += pipe.write(b"".join(second + b"%06d|ROUTE_TABLE:10.%d.%d.0/24|SET|" % (it, it // 256, it % 256) + value + b"\n" for it in range(min(1_000, count - block))))

        status, peak, told = peak_of([sys.executable, "-B", str(TOOLS / "from-rec"), "--gap", "0.5"], write)
        self.assertEqual(status, 0, told)
        return peak, told

    def test_a_script_that_is_too_long_is_told(self):
        # With limits of 3,000 lines a recording of 3,000 has some too many, and its front up to the line that is told has not.
        program = f"import sys; sys.path.insert(0, {str(TOOLS)!r}); import script_writer; script_writer.MOST_LINES = 3_000; sys.argv = sys.argv[1:]; exec(compile(open(sys.argv[0]).read(), sys.argv[0], 'exec'))"
        recording = b"".join(port(it % 256, b"%d" % (it % 256)) for it in range(3_000))
        command = [sys.executable, "-B", "-c", program, str(TOOLS / "from-rec")]
        done = subprocess.run(command, input=recording, capture_output=True, check=True, timeout=60)
        told = done.stderr.decode().splitlines()
        # 256 ports, the title, the comment of the round, the producer, the rows, the settle and two shows
        self.assertEqual(
            told,
            [
                "from-rec: standard input: the script has 3,262 lines and 177,512 bytes, and `swss run` takes up to 3,000 and 67,108,864: it is written, and will be refused".replace("177,512", f"{len(done.stdout):,}"),
                "from-rec: standard input: the input up to line 2047 makes a script that is taken: head -n 2047 FILE | tools/from-rec",
            ],
        )
        self.assertEqual(len(done.stdout.splitlines()), 3_262)
        front = b"".join(recording.splitlines(keepends=True)[:2_047])
        done = subprocess.run(command, input=front, capture_output=True, check=True, timeout=60)
        self.assertEqual((done.stderr, len(done.stdout.splitlines()) <= 3_000), (b"", True))

    @unittest.skipUnless(common.IS_LONG, "only with --long")
    def test_ten_million_lines(self):
        began = time.monotonic()
        peak, told = self.peak(10_000_000)
        print(f"10 million lines, {self.written:,} bytes: {peak / 1024:.0f} MiB at most, {time.monotonic() - began:.0f} seconds", file=sys.stderr)
        # Each round of 1,000 rows has a comment, a producer and a settle; there are a title at the head and two shows at the end.
        self.assertIn("the script has 10,030,003 lines", told)
        self.assertGreater(self.written, 1_000_000_000)
        self.assertLess(peak, 100_000)

    def test_a_reader_that_goes_away(self):
        with tempfile.TemporaryFile() as file:
            file.write((FIRST + b"A:b|SET|c:" + b"d" * 200 + b"\n") * 1_000)
            file.seek(0)
            with subprocess.Popen([sys.executable, "-B", str(TOOLS / "from-rec")], stdin=file, stdout=subprocess.PIPE, stderr=subprocess.PIPE) as child:
                child.stdout.readline()
                child.stdout.close()
                self.assertEqual((child.stderr.read(), child.wait(timeout=60)), (b"", 0))

    @unittest.skipUnless(os.path.exists("/dev/full"), "there is no /dev/full")
    def test_an_output_that_is_full(self):
        with open("/dev/full", "wb") as full:
            done = subprocess.run([sys.executable, "-B", str(TOOLS / "from-rec")], input=b"", stdout=full, stderr=subprocess.PIPE, check=False, timeout=60)
        self.assertEqual((done.returncode, done.stderr), (1, b"from-rec: standard output: No space left on device\n"))


class Example(unittest.TestCase):
    """The recording of the examples."""

    def test_its_script_stands_beside_it(self):
        status, script, told = run("from-rec", "examples/leaf-recording.rec", folder=common.TOP)
        self.assertEqual(status, 0)
        self.assertEqual(script, (EXAMPLES / "leaf-recording.swss").read_bytes())
        self.assertEqual(told, "from-rec: examples/leaf-recording.rec: line 24: 'CRM|Config' has no colon, so it is no key of a script: the line is kept as a comment\n")

    @unittest.skipUnless(HAS_PROGRAM, "there is no proved program of these sources")
    def test_its_report_stands_beside_it(self):
        script = (EXAMPLES / "leaf-recording.swss").read_bytes()
        done = subprocess.run([str(PROGRAM), "run"], input=script, capture_output=True, check=False, timeout=60)
        self.assertEqual((done.returncode, done.stdout, done.stderr), (0, (EXAMPLES / "leaf-recording.out").read_bytes(), b""))


if __name__ == "__main__":
    unittest.main()
