"""Tests of tools/timeline: reports by hand, and what stands in their pictures."""
import re
import unittest
import xml.etree.ElementTree

import common
from common import EXAMPLES, run

NAMES = ("packets-during-apply", "restart-changed-route")
KINDS = ("PORT", "VLAN", "VIRTUAL_ROUTER", "BRIDGE_PORT", "VLAN_MEMBER", "RIF", "OWN_ADDRESS", "NEIGHBOR", "NEXT_HOP", "GROUP", "GROUP_MEMBER", "ROUTE")

REPORT = """\
settled 1 waiting 2
waiting 2
ROUTE_TABLE:10.1.0.0/16 missing NEIGH_TABLE:Ethernet0:10.0.0.1
ROUTE_TABLE:10.2.0.0/16 missing NEIGH_TABLE:Ethernet0:10.0.0.1
warm reconciled
warm initialized
warm restored cold
warm unknown faults 1
calls 2
3 remove RIF Ethernet0
4 create PORT Ethernet0 lanes 0 speed 100000 mtu 9100 admin up
waiting unknown
NOT_READY
warm unknown
warm initialized
warm restored hitless
warm reconciled
settled 3 waiting 0
calls 1
5 set ROUTE 10.1.0.0/16 drop
chip 1
calls 7 is a name here
counts taken 9 effects 5 turns 2
PORT 1 256
VLAN 0 4094
BRIDGE_PORT 0 256
VLAN_MEMBER 0 16384
RIF 0 1024
OWN_ADDRESS 0 2048
NEIGHBOR 0 16384
NEXT_HOP 0 16384
GROUP 0 512
GROUP_MEMBER 0 16384
ROUTE 0 65536
forward 10.1.0.1 drop
READY
"""


class Drawn:
    """A picture as it reads."""

    def __init__(self, text):
        self.top = xml.etree.ElementTree.fromstring(text)
        self.tips = {}
        for it in self.top.iter():
            tip = it.find("{*}title")
            if tip is not None and it is not self.top:
                self.tips.setdefault(tip.text, []).append(it)
        self.texts = {it.text: it for it in self.top.iter("{http://www.w3.org/2000/svg}text")}

    def x_of(self, tip):
        it = self.tips[tip][0]
        for name in ("cx", "x1", "x"):
            if it.get(name):
                return float(it.get(name))
        x = [float(number) for number in re.findall(r"[ML]([-\d.]+)", it.get("d"))]
        return (min(x) + max(x)) / 2


def picture_of(report, *words):
    status, text, told = run("timeline", *words, given=report.encode())
    assert (status, told) == (0, ""), told
    return Drawn(text.decode())


class Pictures(unittest.TestCase):
    """What stands in a picture."""

    def test_time_goes_to_the_right(self):
        it = picture_of(REPORT)
        order = [
            "round 1: calls 1 to 2 not shown",
            "round 1: settled 1 waiting 2",
            "round 2: warm initialized",
            "round 2: warm restored cold",
            "round 2: 3 remove RIF Ethernet0",
            "round 2: 4 create PORT Ethernet0 lanes 0 speed 100000 mtu 9100 admin up",
            "round 2: warm unknown faults 1",
            "round 3: warm initialized",
            "round 3: warm restored hitless",
            "round 3: 5 set ROUTE 10.1.0.0/16 drop",
            "round 3: warm reconciled",
            "round 3: settled 3 waiting 0",
        ]
        places = [it.x_of(tip) for tip in order]
        self.assertEqual(places, sorted(set(places)))
        self.assertEqual(len([tip for tip in it.tips if re.search(r"settled|warm|remove|create|set ", tip)]), 11)

    def test_each_kind_has_a_lane(self):
        it = picture_of(REPORT)
        lanes = [float(it.texts[kind].get("y")) for kind in KINDS]
        self.assertEqual(lanes, sorted(set(lanes)))
        port = it.tips["round 2: 4 create PORT Ethernet0 lanes 0 speed 100000 mtu 9100 admin up"][0]
        # (a name stands four points under the middle of its lane)
        self.assertEqual(float(port.get("cy")), lanes[0] - 4)

    def test_what_waits_is_a_band(self):
        it = picture_of(REPORT)
        reasons = "round 1: 2 waiting\nROUTE_TABLE:10.1.0.0/16 missing NEIGH_TABLE:Ethernet0:10.0.0.1\nROUTE_TABLE:10.2.0.0/16 missing NEIGH_TABLE:Ethernet0:10.0.0.1"
        box = it.tips[reasons][0]
        begin, width = float(box.get("x")), float(box.get("width"))
        self.assertEqual(begin, it.x_of("round 1: settled 1 waiting 2"))
        self.assertAlmostEqual(begin + width, it.x_of("round 2: warm unknown faults 1"), delta=0.2)
        self.assertGreater(float(box.get("height")), 0)
        self.assertEqual(it.tips["round 2: what waits is not known"][0].get("fill"), "url(#unseen)")
        self.assertEqual(float(it.tips["round 3: 0 waiting"][0].get("height")), 0)

    def test_a_picture_is_the_same_each_time(self):
        self.assertEqual(run("timeline", given=REPORT.encode()), run("timeline", given=REPORT.encode()))

    def test_signs_of_xml_are_escaped(self):
        it = picture_of('settled 1 waiting 1\nwaiting 1\nA:<&"\u0085\ufffe held A:b\n', "--title", "<a> & b")
        self.assertIn('round 1: 1 waiting\nA:<&"\u0085\ufffd held A:b', it.tips)
        self.assertIn("<a> & b", it.texts)

    def test_calls_of_no_round_are_shown(self):
        it = picture_of("settled 1 waiting 0\nsettled 2 waiting 0\n")
        self.assertEqual([tip for tip in it.tips if "shown" in tip], ["round 1: calls not shown", "round 2: calls not shown"])

    def test_counts_tell_how_many_are_not_shown(self):
        counts = "counts taken 1 effects {} turns 1\n" + "\n".join(f"{kind} 0 1" for kind in KINDS) + "\n"
        it = picture_of("settled 1 waiting 0\n" + counts.format(4) + "settled 2 waiting 0\n" + counts.format(4) + "settled 3 waiting 0\n" + counts.format(5))
        self.assertEqual([tip for tip in it.tips if "shown" in tip], ["round 1: calls 1 to 4 not shown", "round 3: call 5 not shown"])

    def test_many_calls_take_little_room(self):
        calls = "".join(f"{it} create ROUTE 10.{it // 256}.{it % 256}.0/24 drop\n" for it in range(1, 20_001))
        report = f"settled 1 waiting 0\ncalls 20000\n{calls}" + "".join(f"settled {it} waiting {it % 7}\n" for it in range(2, 3_000))
        status, text, _ = run("timeline", given=report.encode())
        self.assertEqual(status, 0)
        self.assertLess(len(text), 600_000)
        xml.etree.ElementTree.fromstring(text)


class Refusals(unittest.TestCase):
    """Bad reports: the line is told, and nothing is drawn."""

    def refused(self, report, reason):
        self.assertEqual(run("timeline", given=report), (1, b"", f"timeline: {reason}\n"))

    def test_what_is_no_report(self):
        self.refused(b"", "the report has no round")
        self.refused(b"set A:b\n", "line 1: 'set A:b' is no line of a report in this place")
        self.refused(b"calls 0\n", "line 1: 'calls 0' is no line of a report in this place")
        self.refused(b"warm reconciled\n", "line 1: 'warm reconciled' is no line of a report in this place")
        self.refused(b"settled 1 waiting 0\nsettled 3 waiting 0\n", "line 2: round 3 is told of where round 2 has to be: lines are missing")
        self.refused(b"settled 1 waiting 0\ncalls 1\n1 create PART a\n", "line 3: '1 create PART a' is no chip call")

    def test_cut_reports(self):
        self.refused(b"settled 1 waiting 0\ncalls 2\n1 create RIF a\n", "line 2: calls 2 says 2 lines, and the report ends behind 1 of them: it is cut")
        self.refused(b"settled 1 waiting 0\nwarm initialized\nwarm restored hitless\n", "line 3: the report ends before its round does: it is cut")
        self.refused(b"settled 1 wai", "line 1: 'settled 1 wai' is no line of a report in this place")

    def test_bytes_that_are_no_utf8(self):
        self.refused(b"settled 1 waiting 0\nREADY\xff\n", "line 2: bytes that are no UTF-8")

    def test_wrong_words(self):
        self.assertEqual(run("timeline", "report")[0], 2)

    def test_help(self):
        status, text, told = run("timeline", "--help")
        self.assertEqual((status, told), (0, ""))
        self.assertIn(b"tools/from-rec --show calls swss.rec | bin/swss run | tools/timeline > picture.svg", text)


class Documents(unittest.TestCase):
    """The pictures in docs/ are those of the examples' outputs."""

    def test_the_pictures_are_current(self):
        for name in NAMES:
            with self.subTest(name=name):
                status, text, told = run("timeline", "--title", name, given=(EXAMPLES / f"{name}.out").read_bytes())
                self.assertEqual((status, told), (0, ""))
                remedy = f"tools/timeline --title {name} < examples/{name}.out > docs/{name}.svg"
                self.assertTrue((common.TOP / "docs" / f"{name}.svg").read_bytes() == text, f"make it anew: {remedy}")

    def test_all_examples_are_drawn(self):
        for path in sorted(EXAMPLES.glob("*.out")):
            with self.subTest(name=path.stem):
                report = path.read_bytes()
                status, text, told = run("timeline", given=report)
                self.assertEqual((status, told), (0, "") if report else (1, "timeline: the report has no round\n"))
                if report:
                    xml.etree.ElementTree.fromstring(text)


if __name__ == "__main__":
    unittest.main()
