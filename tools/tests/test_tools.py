#!/usr/bin/env python3
"""Tries the tools over a stored journal: that of examples/echo/two-slots.toml for five host ticks, without its instructions.

usage: tools/tests/test_tools.py
"""

import json
import pathlib
import subprocess
import unittest

HERE = pathlib.Path(__file__).resolve().parent
TOOLS = HERE.parent
ECHO = HERE / "echo.journal"
EXPERIMENT = TOOLS.parent / "examples/echo/two-slots.toml"
ANSWERS = ["answered 0", "answered 1", "answered 2", "answered 3"]


def output(tool, *words, put=None):
    done = subprocess.run([TOOLS / tool, *words], input=put, capture_output=True, text=True, check=True)
    return done.stdout


class Uart(unittest.TestCase):
    def test_one_guest(self):
        self.assertEqual(output("uart", ECHO, "1").splitlines(), ANSWERS)

    def test_from_standard_input(self):
        self.assertEqual(output("uart", "-", "1", put=ECHO.read_text()).splitlines(), ANSWERS)

    def test_the_first_guest_on_standard_input_where_nothing_is_told(self):
        self.assertEqual(output("uart", put=ECHO.read_text()), output("uart", ECHO, "0"))

    def test_guest_by_guest(self):
        lines = output("uart", ECHO, "each").splitlines()
        self.assertEqual(lines[0], "guest 0")
        self.assertEqual(lines[-5:], ["guest 1", *ANSWERS])

    def test_all_as_it_comes(self):
        self.assertIn("1: answered 0\n", output("uart", ECHO, "all"))


class Traces(unittest.TestCase):
    def test_each_record_stands_under_its_guest(self):
        lines = output("traces", ECHO).splitlines()
        second = lines.index("guest 1")
        self.assertTrue(all(line.split()[1] == "0" for line in lines[2:second]))
        self.assertTrue(all(line.split()[1] == "1" for line in lines[second + 1 : -1]))

    def test_no_tick_that_is_not_owed(self):
        lines = output("traces", ECHO, "3").splitlines()
        self.assertEqual(lines[0], "traces guests 2 ticks 3")
        self.assertTrue(all(int(line.split()[0]) < 3 for line in lines[1:-1] if line[0].isdigit()))

    def test_a_journal_that_stops_is_refused(self):
        cut = "\n".join(ECHO.read_text().splitlines()[:-1]) + "\n"
        done = subprocess.run([TOOLS / "traces", "-"], input=cut, capture_output=True, text=True, check=False)
        self.assertEqual((done.returncode, done.stdout), (1, ""))


class Summary(unittest.TestCase):
    def test_units_of_a_slot_are_those_of_its_quanta(self):
        text = ECHO.read_text()
        quanta, slot = [0, 0], 0
        for words in map(str.split, text.splitlines()):
            slot = int(words[1]) if words[0] == "slot" else slot
            quanta[slot] += int(words[3]) if words[0] == "run" else 0
        summary = output("summary", ECHO)
        for slot, units in enumerate(quanta):
            self.assertIn(f"slot {slot}: {units} units", summary)

    def test_the_picture_is_xml(self):
        import xml.etree.ElementTree

        root = xml.etree.ElementTree.fromstring(output("summary", ECHO, "--svg"))
        self.assertTrue(root.tag.endswith("svg"))


class Timeline(unittest.TestCase):
    def events(self, *words):
        return json.loads(output("timeline", ECHO, *words))["traceEvents"]

    def test_every_frame_is_an_arrow_forward(self):
        for words in ((), (EXPERIMENT,)):
            events = self.events(*words)
            starts = {event["id"]: event for event in events if event["ph"] == "s"}
            ends = {event["id"]: event for event in events if event["ph"] == "f"}
            received = sum(" recv " in line for line in ECHO.read_text().splitlines())
            self.assertEqual(len(starts), received)
            self.assertEqual(starts.keys(), ends.keys())
            for number, end in ends.items():
                self.assertLess(starts[number]["ts"], end["ts"])
                self.assertNotEqual(starts[number]["tid"], end["tid"])

    def test_guests_have_the_names_of_the_experiment(self):
        names = [event["args"]["name"] for event in self.events(EXPERIMENT) if event["name"] == "thread_name"]
        self.assertEqual(names, ["slot 0", "slot 1", "client", "server"])

    def test_no_two_quanta_of_a_slot_overlap(self):
        free = {}
        for event in self.events():
            if event["ph"] == "X" and event["pid"] == 1:
                self.assertGreaterEqual(event["ts"] + 1e-6, free.get(event["tid"], 0))
                free[event["tid"]] = event["ts"] + event["dur"]


class Explain(unittest.TestCase):
    def explained(self, message):
        file = HERE / "wrong.toml"
        return output("explain", file, put=message + "\n").replace(str(file), "wrong.toml").splitlines()

    def test_a_key(self):
        lines = self.explained("diecast: experiment: range guest 1 rate")
        self.assertEqual(lines[1:], ["  wrong.toml:14: rate = 0", "  rate: the value is outside the range of the key"])

    def test_a_key_that_is_missing_is_told_by_its_table(self):
        lines = self.explained("diecast: experiment: missing guest 0 rate")
        self.assertEqual(lines[1], "  wrong.toml:7: [[guest]] # the first")

    def test_a_key_of_the_file(self):
        lines = self.explained("diecast: experiment: range top 0 factor")
        self.assertEqual(lines[1], "  wrong.toml:3: factor = 0")

    def test_a_table_in_braces(self):
        lines = self.explained("diecast: experiment: range disk 0 base")
        self.assertEqual(lines[1], "  wrong.toml:4: disk = [{ guest = \"a\", sectors = 1, base = 0 }]")

    def test_the_others(self):
        self.assertIn("wrong.toml:6:", self.explained("diecast: overload: slot 0 needs 3, has 2")[1])
        self.assertIn("wrong.toml:13:", self.explained("diecast: image 1: not-elf")[1])
        self.assertEqual(self.explained("diecast: write fault"), ["diecast: write fault"])


if __name__ == "__main__":
    unittest.main()
