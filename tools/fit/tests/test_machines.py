"""The machines' files say what the kernel's tables say, and a file or an option that is wrong is refused."""

import os
import tempfile
import unittest
from unittest import mock

from fit import machines
from fit.faults import BadInput
from fit.tests.support import call

FIXED_ON_INTEL = {"00c0": 0, "003c": 1, "0300": 2}
# the codes that only some counters count, written down by hand from the constraint tables of Linux 6.1: general
# counters, fixed ones, and the masks of raw codes
TABLES = {
    "core2": (2, 3, {
        "10": 1, "11": 2, "12": 2, "13": 2, "14": 1, "18": 1, "19": 2, "a1": 1, "c9": 1, "cb": 1, "fecb": 1, "20": 3,
    }),
    "nehalem": (4, 3, dict.fromkeys(("40", "41", "42", "43", "48", "4e", "51", "63", "ff63"), 3) | {"b3": 15}),
    "westmere": (4, 3, {"151": 3, "60": 1, "63": 3, "b3": 1, "40": 15}),
    "sandybridge": (4, 3, {
        "148": 4, "2a3": 4, "6a3": 4, "4a3": 15, "5a3": 15, "1c0": 2, "1cd": 8, "2cd": 8, "1d1": 15,
    }),
    "ivybridge": (4, 3, {"148": 4, "48": 15, "8a3": 4, "ca3": 4, "2a3": 15, "1c0": 2, "1cd": 15}),
    "haswell": (4, 3, {"148": 4, "8a3": 4, "ca3": 4, "1c0": 2, "1cd": 8}),
    "broadwell": (4, 3, {"148": 4, "8a3": 4, "ca3": 4, "4a3": 15, "1cd": 15, "1c0": 15}),
    "skylake": (4, 3, {"1c0": 2, "1cd": 15, "81d0": 15, "10001c0": 2}),
    "icelake": (8, 4, {
        "10e": 255, "103": 15, "151": 15, "4a3": 255, "5a3": 15, "1b1": 255, "1b0": 15, "1d1": 15,
        "1e7": 255, "1f1": 15,
    }),
    "sapphirerapids": (8, 4, {
        "12e": 255, "10e": 15, "13c": 255, "1a3": 15, "5a3": 255, "4a4": 1, "8a4": 1, "2a4": 255, "2cd": 1, "1ce": 1,
        "1d1": 15, "191": 255,
    }),
    "k10": (4, 0, {"76": 15, "e0": 15}),
    "bulldozer": (6, 0, {
        "76": 7, "77d": 7, "c0": 63, "3": 8, "11": 56, "1100": 8, "100": 56, "2e": 9, "431": 7, "100000c0": 63,
        "1000000c0": 56, "100000087": 1, "87": 7, "db": 63, "d1": 7, "45": 7, "40": 63,
    }),
    "zen": (6, 0, {"76": 63, "c0": 63, "ff03": 21}),
    "zen3": (6, 0, {"76": 63, "ff03": 21}),
    "cortex-a53": (6, 1, {"11": 0x7F, "8": 0x3F}),
    "cortex-a72": (6, 1, {"11": 0x7F, "8": 0x3F}),
    "a64fx": (8, 1, {"11": 0x1FF}),
}


class Files(unittest.TestCase):
    def test_masks(self) -> None:
        for name, (general, fixed, codes) in TABLES.items():
            machine = machines.load(name)
            self.assertEqual((general, fixed), (machine.general, machine.fixed), name)
            for code, mask in codes.items():
                with self.subTest(machine=name, code=code):
                    self.assertEqual(mask, machine.counters_for(int(code, 16)).mask)
            for code, at in FIXED_ON_INTEL.items() if fixed >= 3 else ():
                wanted = 1 << (general + at) | (machine.all_general if code != "0300" else 0)
                self.assertEqual(wanted, machine.counters_for(int(code, 16)).mask, f"{name} {code}")

    def test_no_counter(self) -> None:
        for name, code in (("bulldozer", 0xE0), ("bulldozer", 0x331), ("bulldozer", 0xA5)):
            self.assertTrue(machines.load(name).counters_for(code).is_none, f"{name} {code:x}")

    def test_fixed_counters_want_the_plain_event(self) -> None:
        machine = machines.load("skylake")
        for config in (0x10000C0, 0x8000C0, 0x400C0):
            self.assertEqual(0xF, machine.counters_for(config).mask)
        # the bit for both threads reaches the fixed counter too
        self.assertEqual(0x1F, machine.counters_for(0x2000C0).mask)
        self.assertEqual(0x4, machine.counters_for(0x3000000C0).mask, "a checkpointed event needs counter 2")

    def test_precise(self) -> None:
        for name, code, precise, mask in [
            ("skylake", 0x3C, 1, 0xF), ("skylake", 0x3C, 3, 2), ("skylake", 0x8D1, 2, 0xF), ("haswell", 0x3C, 2, 0xF),
            ("sandybridge", 0x1CD, 2, 8), ("core2", 0x3C, 1, 1), ("core2", 0x10, 1, 0), ("nehalem", 0xC2, 1, 0xF),
            ("nehalem", 0x3C, 2, 0xF), ("goldmont", 0x4B, 2, 1), ("goldmontplus", 0x4B, 2, 0xF),
            ("goldmontplus", 0x4B, 3, 1), ("icelake", 0xC0, 3, 1 << 8), ("icelake", 0xC0, 2, 0x1FF),
            ("icelake", 0x1D1, 1, 0xF), ("sapphirerapids", 0x3C, 3, 1),
            ("sapphirerapids", 0xC0, 1, 0xFE), ("sapphirerapids", 0x2CD, 2, 1), ("alderlake-atom", 0xC0, 3, 0x41),
            ("alderlake-atom", 0x5D0, 1, 3),
        ]:
            with self.subTest(machine=name, code=hex(code), precise=precise):
                self.assertEqual(mask, machines.load(name).counters_for(code, precise).mask)

    def test_parts_of_slots(self) -> None:
        machine = machines.load("icelake")
        self.assertEqual([0, 3], [machine.counters_for(code).metric for code in (0x8000, 0x8300)])
        self.assertIsNone(machine.counters_for(0x8400).metric)
        self.assertEqual(7, machines.load("sapphirerapids").counters_for(0x8700).metric)

    def test_registers(self) -> None:
        for name, code, term, values in [
            ("skylake", 0x1B7, "offcore_rsp", 2), ("skylake", 0x1C6, "frontend", 1),
            ("nehalem", 0x1B7, "offcore_rsp", 1),
            ("sapphirerapids", 0x12A, "offcore_rsp", 2), ("sandybridge", 0x1CD, "ldlat", 1),
        ]:
            register = machines.load(name).register_of(code)
            self.assertEqual((term, values), register and (register.term, register.values), name)
        self.assertIsNone(machines.load("skylake").register_of(0x2B7))

    def test_without_threads(self) -> None:
        for name, general in (("skylake", 8), ("sandybridge", 8), ("nehalem", 4), ("icelake", 8), ("zen", 6)):
            self.assertEqual(general, machines.without_threads(machines.load(name)).general, name)
        alone = machines.without_threads(machines.load("skylake"))
        masks = [alone.counters_for(code).mask for code in (0x3C, 0x8D1, 0x1C7)]
        self.assertEqual([0x2FF, 0xF, 0xFF], masks)

    def test_each_has_a_source_and_models(self) -> None:
        for name in machines.names():
            machine = machines.load(name)
            self.assertRegex(machine.source, r"^Linux 6\.1\.192, arch/", name)
            self.assertTrue(machine.models and machine.numbers, name)
            self.assertLessEqual(machine.counters, 16)

    def test_models(self) -> None:
        for word, name, identity in [
            ("cascadelake", "skylake", "GenuineIntel-6-55-5"), ("Zen 2", "zen", "AuthenticAMD-23-30-1"),
            ("ice-lake-sp", "icelake", "GenuineIntel-6-6A-1"), ("skylake", "skylake", "GenuineIntel-6-5E-1"),
            ("neoverse-n1", "neoverse-n1", "0x41-0xd0c"), ("Kunpeng920", "hip08", "0x48-0xd01"),
        ]:
            machine = machines.load(word)
            self.assertEqual((name, identity), (machine.name, machine.identity))
            self.assertTrue(machine.model_of(machine.identity))

    def test_this_computer(self) -> None:
        intel = "vendor_id\t: GenuineIntel\ncpu family\t: 6\nmodel\t: {}\nstepping\t: {}\n\nprocessor: 1\n"
        amd = "vendor_id\t: AuthenticAMD\ncpu family\t: {}\nmodel\t: {}\nstepping\t: 1\n"
        arm = "processor\t: 0\nCPU implementer\t: 0x41\nCPU part\t: 0xd0c\n"
        with tempfile.TemporaryDirectory() as folder:
            path = os.path.join(folder, "cpuinfo")
            for text, name, identity in [
                (intel.format(0x55, 7), "skylake", "GenuineIntel-6-55-7"),
                (intel.format(0x8F, 8), "sapphirerapids", "GenuineIntel-6-8F-8"),
                (intel.format(42, 7), "sandybridge", "GenuineIntel-6-2A-7"),
                (amd.format(23, 0x31), "zen", "AuthenticAMD-23-31-1"),
                (amd.format(25, 0x21), "zen3", "AuthenticAMD-25-21-1"),
                (amd.format(25, 0x61), "zen4", "AuthenticAMD-25-61-1"),
                (amd.format(21, 2), "bulldozer", "AuthenticAMD-21-2-1"), (arm, "neoverse-n1", "0x41-0xd0c"),
            ]:
                with open(path, "w") as file:
                    file.write(text)
                found = machines.this_computer(path)
                self.assertEqual((name, identity), (found.name, found.identity))
            little, big = (arm.replace("0xd0c", part) for part in ("0xd03", "0xd08"))
            for text, words in [
                (intel.format(0xFE, 0), "no file has the processor GenuineIntel-6-FE-0; type -m NAME as --list has it"),
                (amd.format(26, 2), "no file has the processor AuthenticAMD-26-2-1; type"),
                (intel.format(0x97, 2), "2 kinds of core; type -m alderlake-atom=PROCESSORS -m alderlake-core=PROC"),
                (little + "\n" + big, "2 kinds of core; type -m cortex-a53=PROCESSORS -m cortex-a72=PROCESSORS"),
                ("hello\n", "does not say which processor this is; type -m NAME"),
            ]:
                with open(path, "w") as file:
                    file.write(text)
                with self.assertRaisesRegex(BadInput, words):
                    machines.this_computer(path)
        with self.assertRaisesRegex(BadInput, "can't be read: No such file"):
            machines.this_computer("/nonexistent/cpuinfo")

    def test_auto_is_this_computer_with_its_own_identity(self) -> None:
        """perf has other tables for Cascade Lake than for Skylake, and their counters are alike."""
        with tempfile.TemporaryDirectory() as folder:
            path = os.path.join(folder, "cpuinfo")
            with open(path, "w") as file:
                file.write("vendor_id\t: GenuineIntel\ncpu family\t: 6\nmodel\t: 85\nstepping\t: 7\n")
            with mock.patch.object(machines, "CPUINFO", path):
                for is_alone, general in ((False, 4), (True, 8)):
                    [machine] = machines.read_machines(["auto"], [], [], is_alone)
                    found = (machine.name, machine.identity, machine.general)
                    self.assertEqual(("skylake", "GenuineIntel-6-55-7", general), found)
            with open(path, "w") as file:
                file.write("vendor_id\t: GenuineIntel\ncpu family\t: 6\nmodel\t: 173\nstepping\t: 1\n")
            for words in (["-e", "cycles"], ["--list"], ["--", "perf", "stat"]):
                with mock.patch.object(machines, "CPUINFO", path):
                    status, out, err = call("-m", "auto", *words)
                self.assertEqual((2, "", 1), (status, out, err.count("\n")))
                self.assertIn("fit.py: -m auto: no file has the processor GenuineIntel-6-AD-1; type -m NAME", err)

    def test_counters_in_words(self) -> None:
        machine = machines.load("sandybridge")
        self.assertEqual("counters 0-3 and fixed counter 1", machine.counters_of(machine.counters_for(0x3C).mask))
        self.assertEqual("counters 0, 2 and 3 and fixed counters 0 and 2", machine.counters_of(0b1011101))
        self.assertEqual("fixed counter 2", machine.counters_of(64))


class RefusedFiles(unittest.TestCase):
    def check(self, text: str, words: str) -> None:
        with tempfile.TemporaryDirectory() as folder:
            path = os.path.join(folder, "own.toml")
            with open(path, "w") as file:
                file.write(text)
            status, out, err = call("-m", path, "-e", "cycles", "--list")
        self.assertEqual((2, ""), (status, out))
        self.assertIn(path, err)
        self.assertIn(words, err)

    def test_faults(self) -> None:
        for text, words in [
            ("general = ", "is no TOML file"),
            ("fixed = 1", "'general', the number of general counters, is missing"),
            ('general = 2\nrows = "event 3"', "rows, line 1: 'event 3' has to be KIND CODE COUNTERS"),
            ('general = 2\nrows = "event 3 0-2"', "rows, line 1: '0-2' is beyond the 2 general counters"),
            ('general = 2\nrows = "event xx 0"', "rows, line 1: 'xx' is no hexadecimal code"),
            ('general = 2\nrows = "event 3 0 odd"', "the mark 'odd' is not known"),
            ('general = 2\nextra = "event 3 ldlat"', "extra, line 1: 'event 3 ldlat' has to be KIND CODE TERM VALUES"),
            ('general = 2\n[terms]\nevent = "config"', "terms: 'config' is no format, as config:0-7,32-35 is one"),
            ('general = 2\n[hardware]\ncycles = "x"', "'x' has to be a config and maybe a config1"),
            ("general = 0", "at least 1 general"),
            ("general = 16\nfixed = 1", "1 to 16 counters together"),
            ('general = "4"', "general has to be int, not str"),
            ("general = 4\ncounters = 4", "the key 'counters' is not known"),
            ('general = 2\n[masks]\ncycles = "4"', "the mask of cycles: 4 has to name some of the 2 counters"),
            ('general = 2\n[masks]\ncycles = "x"', "'x' is no hexadecimal number"),
            ("general = 2\n[masks]\ncycles = 3", "3 has to be a string"),
            ('general = 2\nwatchdog = "cycles"', "the watchdog's event 'cycles' is not among the machine's events"),
            ('general = 2\nany = ["task-clock"]', "'task-clock' needs no counter, so it has no mask"),
        ]:
            with self.subTest(text=text):
                self.check(text, words)

    def test_no_file(self) -> None:
        status, _, err = call("-m", "/nonexistent/own.toml", "-e", "cycles")
        self.assertEqual(2, status)
        self.assertIn("/nonexistent/own.toml can't be read: No such file or directory", err)


class RefusedOptions(unittest.TestCase):
    def test_options(self) -> None:
        many = ",".join(f"x{number}" for number in range(1, 18))
        masks = [word for number in range(1, 18) for word in ("--mask", f"x{number}={number:x}")]
        for words, reason in [
            (["-e", "cycles"], "give a machine by -m"),
            (["-m", "zen", "--counters", "2", "-e", "cycles"], "give a machine by -m"),
            (["-m", "vax", "-e", "cycles"], "no machine and no model is called 'vax'"),
            (["-m", "zen", "--mask", "page-faults=f", "-e", "page-faults"], "'page-faults' needs no counter"),
            (["-m", "zen", "-e", "cpu/cycles/"], "'cycles'"),
            (["--counters", "17", "-e", "cycles"], "--counters: 17 has to be 1 to 16"),
            (["-m", "zen", "--mask", "x=40", "-e", "x"], "40 has to name some of the 6 counters"),
            (["-m", "zen", "--mask", "x", "-e", "x"], "has to be EVENT=HEX"),
            (["-m", "zen", "--mask", "=1", "-e", "x"], "'' can't be an event's name"),
            (["-m", "zen", "--mask", "a b=1", "-e", "x"], "'a b' can't be an event's name"),
            (["-m", "zen", "--mask", "dummy=1", "-e", "dummy"], "'dummy' needs no counter, so it has no mask"),
            (["-m", "zen", "-a", "-C", "0", "-e", "cycles"], "give one of them"),
            (["-m", "zen", "-C", "8", "-e", "cycles"], "processors 0 to 7"),
            (["-m", "zen", "-C", "x", "-e", "cycles"], "'x' is no processor"),
            (["-m", "zen=0-1", "-C", "3", "-e", "cycles"], "processor 3 is of no machine"),
            (["-m", "zen=1", "-e", "cycles"], "processor 0 is of no machine"),
            (["-m", "zen=0", "-m", "k10=0", "-e", "cycles"], "processor 0 is of two machines"),
            (["-m", "zen=0", "-m", "k10=1", "-e", "cycles"], "two machines call their PMU 'cpu'"),
            (["-m", "zen", "-m", "k10", "-e", "cycles"], "each needs its processors"),
            (["-m", "cortex-a53", "--watchdog", "-e", "cycles"], "no watchdog's event on cortex-a53"),
            (["-m", "cortex-a53=0", "-m", "cortex-a72=1", "-C", "0", "-e", "armv8_cortex_a72/cycles/"],
             "no processor that -C names is a cortex-a72"),
            (["--counters", "5", *masks, "-e", many], "17 kinds of hardware event that differ in their counters"),
            (["--counters", "5", *masks[:32], "--watchdog", "-e", many[:-4]], "17 kinds of hardware event, with"),
            (["--counters", "1", "-e", ",".join(["cycles"] * 257)], "257 events would be opened; the program takes"),
            (["--counters", "1", "-C", "0-1", "-e", ",".join(["cycles"] * 129)], "258 events would be opened"),
        ]:
            with self.subTest(words=[word[:40] for word in words]):
                status, out, err = call(*words)
                self.assertEqual((2, ""), (status, out), err)
                self.assertIn(reason, err)


if __name__ == "__main__":
    unittest.main()
