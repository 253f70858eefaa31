"""Tests of pages that follow from the sources: public items, pictures of the floors, the list of wrong bodies; and how tools/quick deals cases."""
import re
import unittest

from common import TOP, module_of, run


def crates():
    """Returns the crates, each with those of the repository that it stands on."""
    lines = [it.partition(":") for it in (TOP / "crates.txt").read_text().split("\n") if ":" in it and not it.startswith("#")]
    names = {name for name, _, _ in lines}
    return {name: {it for it in words.split() if it in names} for name, _, words in lines}


def reached(arrows, name):
    """Returns what is reached from a crate or a floor by arrows."""
    found, left = set(), [name]
    while left:
        new = arrows.get(left.pop(), set()) - found
        found |= new
        left += new
    return found


def pictures(page):
    """Returns the pictures of who stands on whom: each its floor, its own crates and its arrows. The picture of all floors has no floor."""
    found = []
    for text in re.findall(r"(?ms)^```mermaid\nflowchart (.*?)^```$", page):
        frame = re.search(r"(?ms)^    subgraph (\w+) (.*?)^    end$", text)
        own = re.findall(r"(?m)^        (\w+)$", frame[2]) if frame else []
        found.append((frame and frame[1], own, re.findall(r"(?m)^    (\w+) --> (\w+)$", text)))
    return found


def those_from(arrows):
    """Returns where arrows go to, by where they come from."""
    found = {}
    for one, other in arrows:
        found.setdefault(one, set()).add(other)
    return found


class Pages(unittest.TestCase):
    def setUp(self):
        self.page = (TOP / "docs" / "ARCHITECTURE.md").read_text(encoding="utf-8")
        self.pictures = pictures(self.page)
        self.floors = {name: floor for floor, own, _ in self.pictures for name in own}

    def test_the_page_of_public_items_is_that_of_the_sources(self):
        status, _, said = run("surface", "--check")
        self.assertEqual((status, said), (0, ""))

    def test_each_crate_has_one_place(self):
        places = [name for _, own, _ in self.pictures for name in own]
        self.assertEqual(sorted(places), sorted(crates()))
        for floor, own, arrows in self.pictures:
            self.assertTrue(not floor or {one for one, _ in arrows} <= set(own), floor)

    def test_the_table_has_each_crate_on_its_floor(self):
        told, floor = {}, ""
        for named, names in re.findall(r"(?m)^\| (\w* ?)\| ((?:`\w+`(?:, )?)+) \|", self.page):
            floor = named.strip() or floor
            told.update({name: floor for name in re.findall(r"\w+", names)})
        self.assertEqual(told, self.floors)

    def test_the_pictures_show_what_each_crate_stands_on(self):
        arrows = those_from(it for floor, _, its in self.pictures if floor for it in its)
        self.check_arrows(arrows, crates())

    def test_the_picture_of_floors_shows_on_which_others_each_stands(self):
        stand = {floor: set() for floor in self.floors.values()}
        for name, others in crates().items():
            floor = self.floors[name]
            stand[floor] |= {self.floors[it] for it in others} - {floor}
        [its] = [its for floor, _, its in self.pictures if not floor]
        self.check_arrows(those_from(its), stand)

    def check_arrows(self, arrows, stand):
        """Checks that arrows lead from each exactly to what it stands on, and that none shows what others show."""
        self.assertLessEqual(set(arrows), set(stand))
        for name in stand:
            its = arrows.get(name, set())
            self.assertLessEqual(its, reached(stand, name), name)
            self.assertLessEqual(stand[name], reached(arrows, name), name)
            for other in its:
                self.assertNotIn(other, reached({**arrows, name: its - {other}}, name), name)

    def test_definitions_and_laws_stand_where_the_pages_say(self):
        rows = re.findall(r"(?m)^\| (.*?) \|.*\| (.*?) \|$", (TOP / "docs" / "DEFINITIONS.md").read_text(encoding="utf-8"))
        told = [(names, re.findall(r"`([^`]+\.(?:antt|rt))`", files)) for names, files in rows]
        rules = (TOP / "docs" / "RULES.md").read_text(encoding="utf-8")
        told += [(names, [file]) for names, file in re.findall(r"((?:`\w+`(?:, | and )?)+) \(`([^`]+\.(?:antt|rt))`\)", rules)]
        self.assertGreater(len(told), 300)
        for names, files in told:
            text = "".join((TOP / "crates" / file).read_text(encoding="utf-8") for file in files)
            for name in re.findall(r"`([^`]+)`", names) if files else []:
                self.assertRegex(text, rf"(?<!\w){re.escape(name)}(?!\w)", f"{name} in {files}")

    def test_wrong_bodies_are_counted(self):
        rows = re.findall(r"(?m)^\| `(\w+)` \| (\d+) \|", (TOP / "docs" / "WRONG_BODIES.md").read_text())
        found = {it.name: len([*it.glob("wrong/*.edit"), *it.glob("must-fail/*.edit")]) for it in (TOP / "crates").iterdir()}
        self.assertEqual({name: int(count) for name, count in rows}, {name: count for name, count in found.items() if count})

    def test_what_an_edit_changes_stands_there_once(self):
        for edit in sorted((TOP / "crates").glob("*/*/*.edit")):
            text = ""
            for line in edit.read_text().split("\n"):
                if line.startswith("file: "):
                    text = (edit.parents[1] / line.removeprefix("file: ").strip()).read_text()
                if line.startswith("old: "):
                    self.assertEqual(text.count(line.removeprefix("old: ")), 1, f"{edit}: {line}")


class Dealing(unittest.TestCase):
    def test_each_case_is_dealt_once(self):
        quick = module_of("quick")
        text = (TOP / "crates" / "swss_cases" / "stdin").read_text()
        wanted = sorted(it for it in text.split("\n") if it.startswith("case "))
        for rooms in (1, 3, 5):
            parts, out = quick.dealt(text, rooms, True)
            self.assertEqual((len(parts), out), (rooms, 0))
            found = sorted(line for part in parts for line in part.split("\n") if line.startswith("case "))
            self.assertEqual(found, wanted)

    def test_a_long_case_is_left_out(self):
        text = "cases scripts\ncase long\n*400000 %0a\nonce\ncase large\n*400000 %0a\noutput\n|a\ncase small\n|a\noutput\n|a\n"
        self.assertEqual(module_of("quick").dealt(text, 1, False), (["cases scripts\ncase small\n|a\noutput\n|a\n\n"], 2))

    def test_few_drawn_rounds_are_run(self):
        text = "cases rounds\n# Twelve.\n" + "".join(f"{it} 10 2\n" for it in range(12)) + "\n"
        few = "cases rounds\n" + "".join(f"{it} 10 2\n" for it in range(9)) + "\n"
        self.assertEqual(module_of("quick").dealt(text, 1, False), ([few], 3))
        self.assertEqual(module_of("quick").dealt(text, 1, True)[1], 0)
