"""Tests of tools/from-dump: dumps by hand, with the scripts that they come to."""
import json
import sys
import unittest

from common import TOOLS, peak_of, run

END = "settle\nshow waiting\nshow ready\n"


class Rows(unittest.TestCase):
    """What becomes of a row."""

    def test_the_whole_script(self):
        dump = """{
  "PORT_TABLE:Ethernet0": {
    "expireat": 1700000000.5, "ttl": -0.001, "type": "hash",
    "value": {"lanes": "0,1", "description": "to \\u00e4 b", "admin_status": "up"}
  },
  "PORT_TABLE_KEY_SET": {"type": "set", "value": ["Ethernet0"]},
  "PORT_TABLE:PortInitDone": {"type": "hash", "value": {"lanes": "0"}},
  "INTF_TABLE:Ethernet0": {"value": {"NULL": "NULL"}, "type": "hash"},
  "NEIGH_TABLE:Ethernet0:10.0.0.1": {"type": "hash", "value": {"neigh": "02:00:00:00:00:01", "a": "b=c", "e": ""}},
  "_ROUTE_TABLE:10.1.0.0/16": {"type": "hash", "value": {"f=g": "h"}},
  "Switch": {"type": "hash", "value": {"a": "b"}},
  "X:y": {"type": "hash", "value": {}}
}
"""
        status, script, told = run("from-dump", given=dump.encode())
        self.assertEqual(status, 0)
        self.assertEqual(
            script.decode(),
            "# Made by tools/from-dump from standard input: 6 sets, 2 rows kept as comments.\n"
            "port Ethernet0 0,1\n"
            "producer dump\n"
            'json [{"PORT_TABLE:Ethernet0":{"lanes":"0,1","description":"to ä b","admin_status":"up"},"OP":"SET"}]\n'
            '# line 6: {"PORT_TABLE_KEY_SET":{"type":"set","value":["Ethernet0"]}}\n'
            "set PORT_TABLE:PortInitDone lanes=0\n"
            "set INTF_TABLE:Ethernet0 NULL=NULL\n"
            "set NEIGH_TABLE:Ethernet0:10.0.0.1 neigh=02:00:00:00:00:01 a=b=c e=\n"
            'json [{"_ROUTE_TABLE:10.1.0.0/16":{"f=g":"h"},"OP":"SET"}]\n'
            '# line 11: {"Switch":{"type":"hash","value":{"a":"b"}}}\n'
            "set X:y\n" + END,
        )
        self.assertEqual(
            told,
            "from-dump: standard input: line 6: 'PORT_TABLE_KEY_SET' is no hash but a set: it is kept as a comment\n"
            "from-dump: standard input: line 11: 'Switch' has no colon, so it is no key of a script: it is kept as a comment\n",
        )

    def test_an_empty_dump_and_a_dump_on_one_line(self):
        self.assertTrue(run("from-dump", given=b" {\n} \n")[1].endswith(("\nproducer dump\n" + END).encode()))
        self.assertIn(b"\nset A:b c=d\nset A:e f=g\n", run("from-dump", given=b'{"A:b":{"type":"hash","value":{"c":"d"}},"A:e":{"type":"hash","value":{"f":"g"}}}')[1])

    def test_shows_and_a_restart(self):
        script = run("from-dump", "--show", "chip", "--restart", "1", "--producer", "p", given=b"{}")[1]
        self.assertTrue(script.endswith(b"\nproducer p\nrestart\nsettle\nshow chip\nshow waiting\nshow ready\n"))

    def test_a_row_that_lies_across_what_is_read_at_once(self):
        # (65,536 bytes are read at once; the two bytes of an ä, and each piece of a row, come to stand on both sides of that)
        for shift in range(65_440, 65_540, 7):
            dump = '{"A:b": {"type": "hash", "value": {"c": "' + "x" * shift + '"}},\n "A:ä": {"type": "hash", "value": {"e": "ä"}}}'
            script = run("from-dump", given=dump.encode())[1].decode()
            self.assertTrue(script.endswith("\nset A:ä e=ä\n" + END), shift)


class Refusals(unittest.TestCase):
    """Bad input: its line is told, and nothing is written."""

    def refused(self, dump, reason):
        self.assertEqual(run("from-dump", given=dump), (1, b"", f"from-dump: standard input: {reason}\n"))

    def test_cut_dumps(self):
        self.refused(b"", "line 1: the dump ends in its midst: it is cut")
        self.refused(b'{"A:b":\n {"type":"hash","value":{}},\n', "line 3: the dump ends in its midst: it is cut")
        self.refused(b'{"A:b":\n\n {"type":"hash","va', "line 3: no JSON from here to the end: Unterminated string starting at")

    def test_bytes_that_are_no_utf8(self):
        self.refused(b'{"A:b":\n {"type":"hash",\n"value":{"a":"\xff"}}}', "line 3: bytes that are no UTF-8")
        self.refused(b'{"A:b":\n {"type":"hash",\n"value":{"a":"\xc3', "line 3: bytes that are no UTF-8")

    def test_what_is_no_dump(self):
        self.refused(b'[{"A:b":{},"OP":"SET"}]', "line 1: this is a list, and a dump is an object: batches of swssconfig stand in a script, behind `json`")
        self.refused(b"\n2026-03-02.08:00:00|A:b|DEL\n", "line 2: '2026-03-02.08:00:00|A:b|DEL\\n' stands where the { of the dump has to stand")
        self.refused(b'{"A:b": 1}', "line 1: '1}' stands where the { of a row has to stand")
        self.refused(b'{"A:b": {"c":"d"}}', "line 1: 'A:b' has no \"type\": a row is {\"type\": \"hash\", \"value\": {..}}")
        self.refused(b'{"A:b":\n {"type":"hash","value":{"a":1}}}', "line 1: the value of 'A:b' is no object of strings")
        self.refused(b'{"A:b":{"type":"hash"}}', "line 1: the value of 'A:b' is no object of strings")
        self.refused(b"{}\n\nx", "line 3: there is more behind the dump's last }")
        self.refused(b'{"A:b":{"type":"hash","value":{}},}', "line 1: '}' stands where the name of a row has to stand")
        self.refused(b"\x1f\x8b\x08", "line 1: this is compressed: use zcat FILE | tools/from-dump")

    def test_json_that_is_hard(self):
        self.refused(b'{"A:b":{"type":"hash",\n"value":{"a":"\\ud800"}}}', "line 1: a half of a surrogate pair, which is no text")
        self.refused(b'{"A:b":{"c":' + b"[" * 100_000, "line 1: a row with too many brackets open at once")
        self.refused(b'{"A:b":{"c":"\n"}}', "line 1: no JSON from here to the end: Invalid control character at")

    def test_a_row_that_is_too_long(self):
        status, script, told = run("from-dump", given=b'{"A:b":{"type":"hash","value":{"c":"' + b"x" * 3_000_000)
        self.assertEqual((status, script), (1, b""))
        self.assertIn("line 1: no JSON, or more than 1,048,576 bytes of one row", told)

    def test_wrong_words(self):
        self.assertEqual(run("from-dump", "--gap", "1")[0], 2)

    def test_help(self):
        status, text, told = run("from-dump", "--help")
        self.assertEqual((status, told), (0, ""))
        self.assertIn(b"sonic-db-dump", text)


class Large(unittest.TestCase):
    """Long input: constant memory."""

    def test_memory_stays_where_it_is(self):
        short, long = (self.peak(count) for count in (2_000, 40_000))
        # (the long one has 5 MB, which a tool that keeps its rows holds more than twice)
        self.assertLess(long - short, 4_000)

    def peak(self, count):
        row = json.dumps({"type": "hash", "ttl": -0.001, "value": {"nexthop": "10.0.0.1,10.0.0.3", "ifname": "Ethernet0,Ethernet4"}}, indent=2)

        def write(pipe):
            pipe.write(b"{\n")
            for block in range(0, count, 1_000):
                pipe.write("".join(f'"ROUTE_TABLE:10.{it // 256}.{it % 256}.0/24": {row},\n' for it in range(block, block + 1_000)).encode())
            pipe.write(b'"ROUTE_TABLE:0.0.0.0/0": {"type": "hash", "value": {"blackhole": "true"}}}\n')

        status, peak, told = peak_of([sys.executable, "-B", str(TOOLS / "from-dump")], write)
        self.assertEqual((status, [it for it in told.splitlines() if "read" not in it]), (0, []))
        return peak


if __name__ == "__main__":
    unittest.main()
