"""Whole calls of the tool: what is printed, the exit status, and the files that it writes."""

import json
import os
import subprocess
import sys
import tempfile
from typing import Any

from fit.tests.support import ProgramTest, has_perf
from perfscript.program import REPOSITORY
from perfscript.tests.support import PATH

REFUSED = "{cycles,instructions},{l1d_pend_miss.pending,cycle_activity.cycles_l1d_pending},branches:k"


class Printed(ProgramTest):
    def test_a_member_is_refused_at_open(self) -> None:
        status, out, err = self.fit("-m", "sandybridge", "-e", REFUSED)
        lines = out.split("\n")
        self.assertEqual((1, ""), (status, err))
        self.assertEqual(
            [
                "{l1d_pend_miss.pending,cycle_activity.cycles_l1d_pending} can never be counted together:",
                "    l1d_pend_miss.pending and cycle_activity.cycles_l1d_pending both need counter 2.",
                "    So the open of cycle_activity.cycles_l1d_pending is refused.",
                "    perf prints <not counted> for the other too, though it holds a counter and runs.",
                "Everything else counts all the time.",
            ],
            lines[:5],
        )
        self.assertIn("   <not supported>      cycle_activity.cycles_l1d_pending", lines)
        self.assertNotIn("%", out)

    def test_never_on_is_named_first_with_its_cause(self) -> None:
        status, out, _ = self.fit("-m", "k10", "--watchdog", "-e", "branches,{cycles,cycles,cycles,cycles}")
        self.assertEqual(1, status)
        self.assertTrue(out.startswith(
            "{cycles,cycles,cycles,cycles} is opened and never on:\n"
            "    the watchdog's cycles and cycles (4 times) need 5 counters and have 4: counters 0-3.\n"
        ), out)
        self.assertIn("     <not counted>      cycles                      (0.00%)  off", out)

    def test_a_pinned_group_in_error_has_no_percentage(self) -> None:
        status, out, _ = self.fit("--counters", "1", "-e", "cycles:D,branches:D")
        self.assertEqual(1, status)
        self.assertIn("branches:D is in error and never on:\n    cycles:D and branches:D both need counter 0.\n", out)
        self.assertNotIn("%", out)

    def test_an_exclusive_group_names_what_keeps_it_off(self) -> None:
        status, out, _ = self.fit("--counters", "4", "--watchdog", "-e", "cycles:e")
        self.assertEqual(1, status)
        self.assertIn("    it is exclusive, and the watchdog's cycles is on.\n", out)

    def test_what_waits_for_another_has_its_cause(self) -> None:
        status, out, _ = self.fit("--counters", "2", "-e", "cycles,cycles,{branches,branches}")
        self.assertEqual(0, status)
        self.assertIn("                        cycles                     (33.33%)  counter 0     [1]\n", out)
        self.assertIn("(66.67%)  counter 1     [2]\n", out)
        cause = "[1] waits for {branches,branches}: cycles and branches (2 times) need 3 counters and have 2:"
        self.assertIn(cause, out)

    def test_a_group_of_two_kinds_of_core_is_refused(self) -> None:
        both = "{armv8_cortex_a53/cpu_cycles/,armv8_cortex_a72/cpu_cycles/}"
        for more in ((), ("-a",)):
            status, out, _ = self.fit("-m", "cortex-a53=0-1", "-m", "cortex-a72=2", *more, "-e", both)
            self.assertEqual(1, status)
            self.assertIn("its events are of different kinds of core", out)
            self.assertIn("   <not supported>      armv8_cortex_a72/cpu_cycles/", out)

    def test_the_rest_of_a_group_can_be_never_on(self) -> None:
        text = "{branches,branches,branches},cycles:D"
        status, out, _ = self.fit("--counters", "2", "-e", text)
        self.assertEqual(1, status)
        self.assertIn("So the open of branches is refused.\nWhat is left of it is opened and never on:\n", out)

    def test_processors_have_contexts_of_their_own(self) -> None:
        _, one, _ = self.fit("--counters", "2", "-e", "cycles,cycles,branches")
        status, out, _ = self.fit("--counters", "2", "-C", "0,2-3", "-e", "cycles,cycles,branches")
        self.assertEqual((0, one), (status, out))


class Json(ProgramTest):
    def read(self, *words: str) -> tuple[int, Any]:
        status, out, err = self.fit("--json", *words)
        self.assertEqual("", err)
        return status, json.loads(out)

    def test_groups(self) -> None:
        status, answer = self.read("--counters", "2", "-C", "1", "-e", "{cycles,branches},cycles:k,dummy")
        self.assertEqual((0, False, {"processors": [1]}), (status, answer["fails"], answer["context"]))
        first, second, third = answer["groups"]
        self.assertEqual(("50.00", 2000, 1000), (first["percent"], first["enabled"], first["running"]))
        seats = [one["counters_at_start"] for one in first["events"]]
        self.assertEqual([{"1": "counter 0"}, {"1": "counter 1"}], seats)
        self.assertEqual("hall", second["reason"]["word"])
        self.assertEqual(["cycles", "branches", "cycles:k"], second["reason"]["names"])
        self.assertEqual(("100.00", None, False), (third["percent"], third["reason"], third["waits"]))

    def test_refused_member(self) -> None:
        status, answer = self.read("-m", "sandybridge", "-e", REFUSED)
        self.assertEqual((1, True), (status, answer["fails"]))
        self.assertEqual("not counted", answer["groups"][1]["events"][0]["state"])
        member = answer["groups"][1]["events"][1]
        names = ["l1d_pend_miss.pending", "cycle_activity.cycles_l1d_pending"]
        self.assertEqual("not supported", member["state"])
        self.assertEqual(("hall", names), (member["refused"]["word"], member["refused"]["names"]))


class Typed(ProgramTest):
    """What users type for a core, and what needs none of its counters, is answered."""

    LISTS = """cpu-clock faults page-faults bus-cycles L1-dcache-loads LLC-loads dTLB-load-misses r01c2 cpu/r3c/
    cpu/event=0x3c,umask=0x0/ cycles:P cycles:h cycles:G {cycles,instructions}:S {cycles,instructions}:W mem-loads
    mem-stores topdown-total-slots L1-icache-misses 4:0x3c msr/tsc/ sched:sched_switch mem:0x1000:rw duration_time
    cycles-t cpu/mem-loads,ldlat=30/""".split()
    # of PMUs that count for all tasks of a processor
    EVERYWHERE = ("uncore_imc_0/cas_count_read/", "power/energy-pkg/")
    # names of perf's tables
    NAMES = ("inst_retired.any", "mem_load_retired.l1_miss:u", "cpu/inst_retired.any,cmask=1/")

    def test_each_is_answered(self) -> None:
        calls = [("-e", text) for text in (*self.LISTS, *self.EVERYWHERE, *(self.NAMES if has_perf() else ()))]
        for words in (*calls, *(("-a", "-e", text) for text in self.EVERYWHERE)):
            with self.subTest(words=words):
                status, out, err = self.fit("-m", "skylake", *words)
                self.assertEqual((0, ""), (status, err))
                self.assertTrue(out.startswith("All events are on all the time.\n"), out)

    def test_what_linux_refuses_is_answered_too(self) -> None:
        for machine, text, words in [
            ("skylake", "cycles:p", "an event with p takes samples, and perf stat takes none"),
            ("zen3", "ref-cycles", "Linux has no event for ref-cycles on zen3"),
            ("bulldozer", "re0", "bulldozer has no counter for the code re0"),
            ("skylake", "{cycles,branches:D}", "branches:D is no leader, so it can't be pinned"),
            ("icelake", "topdown-retiring", "topdown-retiring is a part of slots"),
            ("icelake", "cpu/slots,cmask=1/", "slots and its parts take no filter; leave out all terms but event"),
            ("sapphirerapids", "{slots,cpu/event=0,umask=0x87,edge/}", "slots and its parts take no filter"),
            ("icelake", "{slots,topdown-retiring,topdown-retiring}", "stands in its group twice"),
        ]:
            with self.subTest(machine=machine, text=text):
                status, out, _ = self.fit("-m", machine, "-e", text)
                self.assertEqual(1, status)
                self.assertIn(words, out)
                self.assertIn("<not supported>", out)

    def test_the_default_list_and_its_details(self) -> None:
        for machine, words, count in (
            ("skylake", (), 8), ("zen", (), 10), ("icelake", (), 13), ("skylake", ("-ddd",), 20),
        ):
            _, out, _ = self.fit("-m", machine, *words, "--json")
            self.assertEqual(count, sum(len(group["events"]) for group in json.loads(out)["groups"]))

    def test_a_group_of_nine_is_beyond_the_program(self) -> None:
        nine = "{" + ",".join(["cycles"] * 9) + "}"
        status, out, _ = self.fit("--counters", "9", "-e", f"{nine},branches")
        self.assertEqual(3, status)
        self.assertIn(f"{nine} is beyond this program:\n    it has 9 members, and the program takes 8.\n", out)
        self.assertIn("\nEverything else counts all the time.\n", out)

    def test_a_weak_group_stands_behind_all_others(self) -> None:
        status, out, _ = self.fit("-m", "k10", "--json", "-e", "{" + ",".join(["cycles"] * 5) + "}:W,branches")
        answer = json.loads(out)
        self.assertEqual((0, ["branches", *["cycles"] * 5]), (status, [group["text"] for group in answer["groups"]]))
        self.assertIn("perf takes the weak group of cycles", answer["hints"][0])

    def test_a_weak_group_with_a_pinned_sibling_is_taken_apart(self) -> None:
        """Linux refuses such a sibling, and by itself it is pinned; a leader's own D is not the others'."""
        others = {f"r1{number}": (False, "75.00") for number in range(1, 5)}
        for text, shares in (
            ("{cycles,branches:D}:W", {"cycles": (False, "100.00"), "branches:D": (True, "100.00")}),
            ("{r10:D,r11,r12,r13,r14}:W", {"r10:D": (True, "100.00")} | others),
        ):
            status, out, _ = self.fit("-m", "k10", "--json", "-e", text)
            groups = json.loads(out)["groups"]
            self.assertEqual((0, shares), (status, {one["text"]: (one["pinned"], one["percent"]) for one in groups}))

    def test_a_weak_group_whose_pair_is_refused_is_taken_apart(self) -> None:
        """By itself the pair has its counters, and takes turns."""
        five = "cycles,instructions,branches,branch-misses,cache-misses"
        status, out, _ = self.fit("-m", "zen", "--json", "-e", "{" + five + ",r03}:W,r03")
        groups = json.loads(out)["groups"]
        shares = ["57.14"] * 4 + ["71.43"] * 3
        self.assertEqual((0, shares), (status, [group["percent"] for group in groups]))
        self.assertEqual({"counted"}, {event["state"] for group in groups for event in group["events"]})

    def test_sampling(self) -> None:
        _, out, _ = self.fit("-m", "skylake", "--sampling", "-e", "cycles:ppp,r01c0")
        self.assertIn("cycles:ppp and r01c0 both need counter 1", out)
        status, out, _ = self.fit("-m", "zen3", "--sampling", "-e", "cycles:pp,instructions:p")
        self.assertEqual(1, status)
        self.assertIn("no event is precise on zen3", out)
        self.assertIn("cycles:pp                         no counter needed", out)


class Files(ProgramTest):
    def test_script_is_replayed(self) -> None:
        with tempfile.TemporaryDirectory() as folder:
            path = os.path.join(folder, "asked.script")
            self.fit("-m", "core2", "-e", "{r12,branches},r13", "--script", path)
            with open(path, "rb") as script:
                done = subprocess.run([PATH, "stat"], stdin=script, capture_output=True)
            with open(path) as file:
                text = file.read()
        self.assertEqual(0, done.returncode, done.stderr)
        self.assertEqual(["50.00%"] * 3, [line.split()[-1] for line in done.stdout.decode().splitlines()[1:-1]])
        self.assertIn("\nkind k0 pmu=0 mask=10\nkind k1 pmu=0 mask=18\ntask 0\n", text)

    def test_picture_has_the_names_of_perf(self) -> None:
        with tempfile.TemporaryDirectory() as folder:
            path = os.path.join(folder, "drawn.svg")
            self.fit("-m", "core2", "-e", "{r12,instructions},r13:D,ref-cycles", "--svg", path)
            with open(path) as file:
                text = file.read()
        self.assertIn(">processor 0, fixed counter 2</text>", text)
        self.assertIn(">r12</text>", text)
        self.assertIn("<title>r13:D, 0 to 1,000</title>", text)
        self.assertIn("r12 and r13:D both need counter 1", text)
        self.assertNotIn("k0", text)

    def test_timeline_draws_as_before(self) -> None:
        words = [os.path.join("tools", "timeline.py"), PATH, os.path.join("examples", "multiplexing.script")]
        done = subprocess.run([sys.executable, *words], cwd=REPOSITORY, capture_output=True)
        with open(os.path.join(REPOSITORY, "docs", "multiplexing.svg"), "rb") as file:
            self.assertEqual((file.read(), b""), (done.stdout, done.stderr))

    def test_a_picture_of_too_many_lines_is_refused(self) -> None:
        with tempfile.TemporaryDirectory() as folder:
            path = os.path.join(folder, "drawn.svg")
            status, out, err = self.fit("--counters", "1", "-e", ",".join(["cycles"] * 140), "--svg", path)
        self.assertEqual((2, ""), (status, out))
        self.assertIn("--svg: the picture would ask in 20", err)


class Limits(ProgramTest):
    def test_the_longest_list_is_answered(self) -> None:
        status, out, err = self.fit("--counters", "2", "-e", ",".join(["cycles"] * 256))
        self.assertEqual((0, ""), (status, err))
        self.assertEqual(256, out.count("(0.78%)"))

    def test_eight_processors_and_a_watchdog_each(self) -> None:
        words = ["--counters", "16", "--watchdog", "-C", "0-7", "-e", ",".join(["cycles"] * 31)]
        status, out, err = self.fit(*words)
        self.assertEqual((0, ""), (status, err))
        self.assertEqual(31, out.count("(48.39%)"))
