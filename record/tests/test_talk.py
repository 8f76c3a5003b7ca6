"""What is said to a px86 with which one talks, and what is heard of it. Run by tests/recording. A script answers as docs/FORMATS.md has
it."""

from __future__ import annotations

import fcntl
import os
import signal
import sys
import tempfile
import unittest
from collections.abc import Mapping
from contextlib import AbstractContextManager
from typing import Any

sys.dont_write_bytecode = True
sys.path.insert(0, os.path.dirname(os.path.dirname(os.path.abspath(__file__))))

from px86_crash.faults import Failed
from px86_crash.talk import NoCondition, Talk, can_be_said

# It answers lines as it is told, and nothing to others; on `quit` it ends with a fault.
SCRIPT = """#!{python} -S
import sys
answers = {answers!r}
assert sys.argv[1:] == ["debug", "--interactive", "a file"]
while True:
    print("px86> ", end="", flush=True)
    line = sys.stdin.readline().rstrip()
    if line == "quit":
        sys.exit("px86: G4 NoMemory")
    print(answers.get(line, ""), end="", flush=True)
"""


class Talking(unittest.TestCase):
    def talk(self, answers: Mapping[str, str], seconds: float = 60) -> Talk:
        return self.talk_with(SCRIPT.format(python=sys.executable, answers=dict(answers)), seconds)

    def talk_with(self, script: str, seconds: float = 60) -> Talk:
        folder = tempfile.TemporaryDirectory()
        self.addCleanup(folder.cleanup)
        path = os.path.join(folder.name, "px86")
        with open(path, "w", encoding="ascii") as file:
            file.write(script)
        os.chmod(path, 0o755)
        talk = Talk(path, "a file", dict(os.environ), seconds)
        self.addCleanup(talk.close)
        return talk

    def fails(self, said: str) -> AbstractContextManager[Any]:
        return self.assertRaisesRegex(Failed, said)

    def test_steps(self) -> None:
        talk = self.talk({"go": "end\n", "back 2": "back 2\n"})
        talk.make(["exec 0", "drain 0 0"])
        talk.back(2)
        # Of none nothing is said, and so nothing is heard.
        talk.make([])
        talk.back(0)
        self.assertEqual(talk.said, len("exec 0\ndrain 0 0\ngo\nback 2\n"))
        refuses = self.talk({"go": "refused 0 M6 NoEntry\n"})
        with self.fails("px86 answers refused 0 M6 NoEntry, and not end"):
            refuses.make(["drain 0 0"])

    def test_values(self) -> None:
        talk = self.talk({"values x": "value 3\nvalue 18446744073709551615\nvalues 2\n", "values y x=3": "values 0\n"})
        self.assertEqual(list(talk.values(["values x", "values y x=3"])), [[3, 2**64 - 1], []])
        wrong = "values 1", "S1 BadLine", "value", "value 1 2", "value x", "value -1", f"value {10**20}", "values", "image 1", ""
        for answer in wrong:
            talk = self.talk({"values x": f"{answer}\n"})
            with self.fails("px86 answers .*, and not values"):
                list(talk.values(["values x"]))

    def test_sets(self) -> None:
        talk = self.talk({"set 1 2": "set 0 2\n", "set 0 0": "set\n", "set 2 2": "no set\n"})
        self.assertEqual([talk.least_set(values) for values in ([1, 2], [0, 0], [2, 2])], [{0, 2}, set(), None])
        for answer in "S1 BadLine", "set x", "set  1", "no", "sets 1":
            talk = self.talk({"set 1": f"{answer}\n"})
            with self.fails(f"px86 answers {answer}, and not a set"):
                talk.least_set([1])

    def test_images(self) -> None:
        talk = self.talk({"images": "candidates 4\nimage 0 0\nimage 1 0\nimage 1 18446744073709551615\nimages 3\n"})
        self.assertEqual(talk.images(4), [(0, 0), (1, 0), (1, 2**64 - 1)])
        # Of no words there is one image.
        self.assertEqual(self.talk({"images": "candidates 1\nimage\nimages 1\n"}).images(1), [()])
        for number in "5", "more":
            others = self.talk({"images": f"candidates {number}\n"})
            with self.fails(f"px86 finds another memory than was meant .*candidates {number}, and not 4$"):
                others.images(4)
        with self.fails("answers images 2, and not images 1"):
            self.talk({"images": "candidates 4\nimage 0\nimages 2\n"}).images(4)
        with self.fails("answers image x, and not images"):
            self.talk({"images": "candidates 4\nimage x\nimages 1\n"}).images(4)

    def test_conditions(self) -> None:
        true, false, none = "persisted x = 0", "persisted x = 1", "persisted x = y"
        talk = self.talk({f"all {true}": "all holds\n", f"all {false}": "all fails 1 0\n", f"all {none}": "E1 BadCond 3\nall COND  says\n"})
        self.assertIsNone(talk.false_image(true))
        self.assertEqual(talk.false_image(false), (1, 0))
        with self.assertRaisesRegex(NoCondition, "^--all: E1 BadCond 3$"):
            talk.false_image(none)
        # A part of it would not be asked of: so nothing is said.
        with self.assertRaises(NoCondition):
            talk.false_image(f"{true} # and {false}")
        for answer in "candidates more", "all", "all is well", "S1 BadLine", "all fails x":
            talk = self.talk({f"all {true}": f"{answer}\n"})
            with self.fails(f"{answer}, and not whether"):
                talk.false_image(true)

    def test_which_conditions_can_be_said(self) -> None:
        """In a line a comment begins with `#`: so what stands behind it would not be asked of."""
        self.assertTrue(can_be_said("not (persisted w0 = 1\tor persisted w8 != 0x2)\r"))
        for behind in " # and persisted w8 = 1", "\nquit", "\x0b", " or persisted w\u00f8 = 1":
            self.assertFalse(can_be_said(f"persisted w0 = 1{behind}"), behind)

    def test_words(self) -> None:
        talk = self.talk({"print x": "word x coherent 2 persisted 1\n", "print y": "word y coherent 18446744073709551615 persisted 0\n"})
        self.assertEqual(talk.words(["x", "y"]), [(2, 1), (2**64 - 1, 0)])
        for answer in "S1 BadLine", "word x coherent 0 persisted 0", "word z coherent 0", "word z coherent 0 persisted x":
            talk = self.talk({"print z": f"{answer}\n"})
            with self.fails(f"px86 answers {answer}, and not the word z"):
                talk.words(["z"])

    # --- what goes wrong

    def test_the_end(self) -> None:
        talk = self.talk({})
        talk.say(["quit"])
        with self.fails("px86 debug --interactive a file breaks off: G4 NoMemory$"):
            talk.hear()
        # Behind its end too.
        talk.say(["quit"])
        with self.fails("breaks off: G4 NoMemory$"):
            talk.hear()
        with self.fails("/nowhere/px86: No such file or directory"):
            Talk("/nowhere/px86", "a file", {})

    def test_bytes_that_are_no_text(self) -> None:
        talk = self.talk_with("#!/bin/sh\nread line\nprintf '\\377\\n'\nread line\nprintf 'px86: \\377\\n' >&2\n")
        with self.fails("px86 answers \ufffd, and not end$"):
            talk.make(["exec 0"])
        with self.fails("breaks off: \ufffd$"):
            talk.hear()

    def test_one_that_does_not_converse(self) -> None:
        talk = self.talk_with('#!/bin/sh\necho "px86: usage" >&2\nexit 2\n')
        with self.fails("px86 debug --interactive a file breaks off: usage$"):
            talk.make(["exec 0"])
        with self.fails("breaks off$"):
            self.talk_with("#!/bin/sh\nkill -KILL $$\n").make(["exec 0"])

    def test_what_came_before_the_end_is_heard(self) -> None:
        talk = self.talk_with("#!/bin/sh\nread line\necho 'px86> values 0'\n")
        values = talk.values(["values x"] * 100000)
        self.assertEqual(next(values), [])
        with self.fails("breaks off$"):
            next(values)

    def test_no_answer(self) -> None:
        """It is not waited for more than so long: neither where nothing is answered, nor where nothing is taken."""
        for steps in 1, 100000:
            talk = self.talk_with("#!/bin/sh\nexec sleep 100\n", seconds=0.2)
            with self.fails("answers nothing in 0.2 seconds$"):
                talk.make(["exec 0"] * steps)

    def test_one_that_says_no_more_but_lives_on(self) -> None:
        """What px86 has started lives on, and holds what it had: that is not waited for. (It ends here by a signal.)"""
        talk = self.talk_with('#!/bin/sh\nsleep 1000 >&- &\necho "$!"\necho "px86: G4 NoMemory" >&2\nexec >&-\nexec sleep 1000\n')
        started = int(talk.hear())
        with self.fails("breaks off: G4 NoMemory$"):
            talk.hear()
        talk.close()
        os.kill(started, signal.SIGKILL)

    def test_much_is_said_of_faults(self) -> None:
        """More than a pipe takes; and px86 goes on."""
        noise = 'import sys; sys.stderr.write("px86: " + "noise\\n" * 100000)'
        talk = self.talk_with(f"#!/bin/sh\n{sys.executable} -S -c '{noise}'\nread line\necho end\n")
        talk.make([])
        talk.say(["go"])
        talk.want("end")
        with self.fails("breaks off: noise\nnoise"):
            talk.hear()

    def test_much_is_said_and_answered(self) -> None:
        """More than pipes take that are as small as can be, where each line is answered before the next is read."""
        count = 5000
        talk = self.talk({"values x": "value 1\nvalues 1\n", "go": "end\n"})
        for pipe in talk.process.stdin, talk.process.stdout:
            assert pipe is not None
            fcntl.fcntl(pipe, fcntl.F_SETPIPE_SZ, 4096)
        self.assertEqual(list(talk.values(["values x"] * count)), [[1]] * count)
        talk.make(["exec 0"] * count)
        self.assertEqual(talk.unsaid, b"")


if __name__ == "__main__":
    unittest.main()
