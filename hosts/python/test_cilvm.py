"""The worked examples by the library: the bytes, the ends and the reports are those of the program.

usage: test_cilvm.py

`NAME.expected` has the outputs. The reports are compared where CILVM_REPORTS names a folder with a file NAME.reports, as `tools/try_hosts`
writes it from `cilvm trace`. CILVM_LIBRARY may name the library.
"""
import glob
import os
import threading
import unittest

import cilvm
from cilvm import Code, Machine, Refused
from texts import do_events, limits_of_words, outcome, report_name

EXAMPLES = os.path.join(os.path.dirname(os.path.abspath(__file__)), "../../crates/conformance/data/examples")


def read(name):
    with open(os.path.join(EXAMPLES, name), "rb") as file:
        return file.read()


class Examples(unittest.TestCase):
    def names(self):
        found = sorted(os.path.basename(it)[: -len(".il")] for it in glob.glob(f"{EXAMPLES}/*.il"))
        self.assertGreaterEqual(len(found), 10)
        return found

    def machine(self, name):
        source = read(f"{name}.il")
        return Machine(source, **limits_of_words(source.decode().splitlines()[2].split()))

    def test_by_single_events(self):
        for name in self.names():
            with self.subTest(name), self.machine(name) as machine:
                reports = do_events(machine, read(f"{name}.schedule").decode())
                self.assertEqual(outcome(machine), read(f"{name}.expected"))
                if folder := os.environ.get("CILVM_REPORTS"):
                    with open(f"{folder}/{name}.reports", encoding="ascii") as file:
                        self.assertEqual([report_name(it) for it in reports], file.read().split())

    def test_by_the_text(self):
        for name in self.names():
            with self.subTest(name), self.machine(name) as machine:
                self.assertEqual(machine.run(read(f"{name}.schedule"))[1], Code.RAN)
                self.assertEqual(outcome(machine), read(f"{name}.expected"))


class Calls(unittest.TestCase):
    def test_steps_end_where_a_thread_does(self):
        with Machine(read("add.il")) as machine:
            self.assertEqual(machine.steps(100), (5, Code.DONE))
            self.assertEqual(machine.steps(100), (1, Code.ABSENT))
            self.assertEqual((machine.live(), machine.end_of(0), machine.end_of(1)), (0, Code.DONE, Code.ABSENT))
            self.assertEqual(machine.printed(), b"5\n")

    def test_refusals(self):
        with self.assertRaises(Refused) as refused:
            Machine(b"x")
        self.assertEqual(refused.exception.number, 103)
        self.assertTrue(refused.exception.text.startswith("source:1:1: "))
        with self.assertRaises(Refused) as refused:
            Machine(read("add.il"), words=1)
        self.assertEqual(refused.exception.number, 401)
        with Machine(read("add.il")) as machine:
            with self.assertRaises(Refused) as refused:
                machine.run(b"s0 s16")
            self.assertEqual(refused.exception.number, 502)
            self.assertEqual(machine.step(), Code.RAN)

    def test_numbers_that_do_not_fit(self):
        for words in (-1, 1 << 32):
            self.assertRaises(OverflowError, Machine, read("add.il"), words=words)
        with Machine(read("add.il")) as machine:
            self.assertRaises(OverflowError, machine.step, 256)
            self.assertRaises(OverflowError, machine.steps, -1)
            self.assertEqual(machine.step(255), Code.ABSENT)

    def test_what_may_be_printed(self):
        with Machine(read("add.il"), printed=1) as machine:
            self.assertEqual(machine.run(b"s0*5"), (4, Code.FULL))
            with self.assertRaises(cilvm.Full):
                machine.step()

    def test_waits(self):
        with Machine(read("deadlock.il")) as machine:
            machine.run(read("deadlock.schedule"))
            self.assertEqual((machine.waits(0), machine.waits(1)), (cilvm.Wait(True, 1), cilvm.Wait(True, 0)))
            self.assertIsNone(machine.waits(7))

    def test_closed_machines_are_used_again(self):
        with Machine(read("add.il")) as machine:
            pass
        self.assertRaises(ValueError, machine.step)
        with Machine(read("loop.il")) as machine:
            self.assertEqual(machine.steps(1000), (113, Code.DONE))

    def test_threads_have_machines_of_their_own(self):
        found = []

        def work():
            for _ in range(20):
                with Machine(read("loop.il")) as machine:
                    machine.steps(1000)
                    found.append(machine.printed())

        threads = [threading.Thread(target=work) for _ in range(4)]
        for it in threads:
            it.start()
        for it in threads:
            it.join()
        self.assertEqual(found, [b"55\n"] * 80)


if __name__ == "__main__":
    unittest.main()
