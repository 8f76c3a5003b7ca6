"""Converses with the program as it is built: `debug --interactive` over a pseudo-terminal, pipes and files.

Over the pseudo-terminal each answer, with the prompt behind it, has to come before the next line is sent. What each line is
answered was worked out by hand, or is what `debug` writes of the same lines as a script.
"""

from __future__ import annotations

import dataclasses
import glob
import itertools
import os
import re
import signal
from collections.abc import Iterable, Iterator, Sequence
from typing import Any

from tests.harness import TIMED_OUT, TOP, Case, Checks, Done, Px86, Terminal, read, run, unlike, wrong_end, wrong_run

AT_LEAST = {"": 1198}
NEEDS_PROGRAM = True
LIMIT = 2**26
PROMPT = "px86> "
# How long a conversation by a pipe may take, in seconds.
MOST = 600
# Of how many steps of a list `next` is asked behind each.
MOST_STEPS = 12

# --- lines, and what is answered

# A store, a flush of its line and a fence.
TEXT = "litmus 1\nline x\ncpu\nmov [x], 1\nclflush [x]\nsfence\nend\n"
BEGIN = "turns 0\ncrashes 0\ncpu 0 main 0 ready zf 0\nword x coherent 0 persisted 0\n"
STORED = "turns 1\ncrashes 0\ncpu 0 main 1 ready zf 0\n  buf 0 W x 1\nword x coherent 0 persisted 0\n"
LEFT = "turns 2\ncrashes 0\ncpu 0 main 1 ready zf 0\nword x coherent 1 persisted 0\npend 0 W x 1\n"
# What may be said: a row for each word that begins a line.
HELP = """\
stop ID COND        stops a go where COND holds after a step
watch ID NAME       notes each write of a word; with stop behind NAME it halts steps behind each, too, as a break does
break ID line N     halts steps behind one with which a processor comes to line N of the text; break ID crash where the power fails, break ID trap where a processor traps
disarm ID           takes out a stop
detach ID           takes out a watch, with its notes
info                prints the lines that declared the stops, watches and breaks that there are
delete ID           takes out the stop, the watch and the break of this id, whichever there is
exec P              for the next go: processor P runs an instruction
drain P I           for the next go: entry I of its store buffer leaves
persist LINE        for the next go: the oldest pending write of a line persists
settle              for the next go: the oldest marker leaves the pending list
crash               for the next go: the power fails, and recovery begins; crash V .. does so now, leaving these values, unless a stop or a break comes before
go                  makes these steps
continue            makes the rest of them after a stop, or after one that was refused, and the steps after it
ahead               prints the steps that wait for go or continue, as a list of steps
step [STEP]         makes this step now, or the first of those that are ahead; the others stay
run [N]             makes the first step of next, again and again, up to a stop, a break or N steps, at most 1000
until P PLACE       makes the first step of next, again and again, up to where processor P is at PLACE, a stop, a break or 1000 steps
finish P            makes exec P now, again and again, up to a stop, a break, a refusal or 1000 steps
next                prints the steps that may be made now, and what each would do
K                   makes the step that next has under this number, as step does; the numbers begin at 0
back N              goes back before the last N steps; what was noted of them stays
undo [N]            goes back before the last step, or before the last N, and forgets what was noted of them
goto N              goes back to the state after the first N steps, as undo does; it never goes forward
reverse             goes back, as undo does, to the last state behind in which a stop's condition holds, or to the beginning; it knows no breaks
show                prints the machine's state
changed             prints the lines of show that were not there before the last step, those of a processor below its line cpu
list                prints the program that each processor runs, with > before the place where it is
print NAME          prints the values of a word; print P:REG the value of a register
images [COND]       lists what a crash may leave, or of that what makes COND false
all COND            says whether COND holds in all that a crash may leave, and if not, where it does not, as images --all does
set V ..            prints which pending entries leave these values, one for each word, as images --set does
why V ..            says which writes are missing where a crash leaves these values, and why each may be, as images --set --explain-image does
check COND          asks COND of all that crashes may leave in all runs from here, as px86 check --all does; a run that fails is ahead then
values NAME [NAME=V ..]   lists the values that a word may then have, where others have these
notes               prints the notes of each watch
history             prints the steps that led here, as a list of steps
help [WORD]         prints these lines, or that of a word
quit                ends; so does the end of the input
"""
ROWS = {row.split()[0]: row + "\n" for row in HELP.splitlines()}


def bad(line: str, fault: str = "S1 BadLine\n") -> str:
    """The answer to a line that is wrong: its fault, and the row of its first word, or that of `help`."""
    words = line.partition("#")[0].split()
    return fault + ROWS.get(words[0] if words else "", ROWS["help"])


# Lines, and what each is answered, worked out by hand.
TALK = [
    ("show", BEGIN),
    ("list", "cpu 0 main 0\n> 0 line 4: mov [x], 1\n  1 line 5: clflush [x]\n  2 line 6: sfence\n"),
    ("step # there is nothing to make", "no step ahead\n"),
    ("ahead", ""),
    ("exec 0", ""),
    ("show", BEGIN),
    (" ahead # it waits", "exec 0\n"),
    ("go", "end\n"),
    ("show", STORED),
    ("list # it is before the second", "cpu 0 main 1\n  0 line 4: mov [x], 1\n> 1 line 5: clflush [x]\n  2 line 6: sfence\n"),
    ("why 0", "image x 0\nmissing x 1 line 4: in the store buffer\n"),
    ("why 1", "no set\n"),
    ("images", "candidates 1\nimage 0\nimages 1\n"),
    ("step drain 0 0", "end\n"),
    ("show", LEFT),
    ("images", "candidates 2\nimage 0\nimage 1\nimages 2\n"),
    ("values x", "value 0\nvalue 1\nvalues 2\n"),
    ("values x x=1", "value 1\nvalues 1\n"),
    ("values x x=2", "values 0\n"),
    ("all persisted x = 0", "all fails 1\n"),
    ("all persisted x = 1 # of 0 and 1", "all fails 0\n"),
    (" all  persisted x = 0 or persisted x = 1", "all holds\n"),
    ("all coherent x = 1", "all holds\n"),
    ("images persisted x = 1", "image 0\nimages 1\n"),
    (" images\tpersisted x = 0 # of 0 and 1", "image 1\nimages 1\n"),
    ("images coherent x = 1", "images 0\n"),
    ("images coherent x = 0 or reg 0 rax = 1", "image 0\nimage 1\nimages 2\n"),
    ("set 0", "set\n"),
    (" set\t1 # of what is pending", "set 0\n"),
    ("set 2", "no set\n"),
    ("why 0", "image x 0\nmissing x 1 line 4: never flushed\n"),
    (" why\t1 # nothing is", "image x 1\nmissing none\n"),
    ("why 2", "no set\n"),
    ("crash 2", "no set\n"),
    ("show", LEFT),
    ("crash 1", "end\n"),
    ("history", "exec 0\ndrain 0 0\npersist 0\ncrash\n"),
    ("show", "turns 4\ncrashes 1\ncpu 0 recover 0 halted zf 0\nword x coherent 1 persisted 1\n"),
    ("set 1", "set\n"),
    ("set 0", "no set\n"),
    ("list # there is no recovery", "cpu 0 recover 0\n> 0: end\n"),
    ("undo 2", "back 2\n"),
    ("crash 0", "end\n"),
    ("show", "turns 3\ncrashes 1\ncpu 0 recover 0 halted zf 0\nword x coherent 0 persisted 0\n"),
    ("undo", "back 1\n"),
    ("show", LEFT),
    ("step persist 1", "refused 0 M10 NoLine\n"),
    ("step persist x", bad("step persist x")),
    ("back 1", "back 1\n"),
    ("show", STORED),
    ("back 2", "G3 TooFar\n"),
    ("disarm 1", "G2 NoId\n"),
    ("detach 1", "G2 NoId\n"),
    ("", ""),
    ("   # nothing but a comment", ""),
    ("drain 0 0  # gathered", ""),
    ("step exec 0", "end\n"),
    ("back 1", "back 1\n"),
    ("persist 0", ""),
    ("settle # there is no marker: it is refused, and ahead no longer", ""),
    ("ahead # what was gathered", "drain 0 0\npersist 0\nsettle\n"),
    ("step", "end\n"),
    ("show", LEFT),
    ("step # the second", "end\n"),
    ("ahead", "settle\n"),
    ("step", "refused 0 M13 NoMarker\n"),
    ("step", "no step ahead\n"),
    ("undo", "back 1\n"),
    ("show", LEFT),
    ("step crash", "end\n"),
    ("show", "turns 3\ncrashes 1\ncpu 0 recover 0 halted zf 0\nword x coherent 0 persisted 0\n"),
    ("undo", "back 1\n"),
    ("show", LEFT),
    ("undo 2 # all of it", "back 2\n"),
    ("undo", "G3 TooFar\n"),
    ("show", BEGIN),
    ("next", "0 exec 0: mov [x], 1: delay W x 1\n1 crash: crashed 1\n"),
    ("2", "no step 2\n"),
    ("1 # the power fails", "end\n"),
    ("next", "0 crash: crashed 2\n"),
    ("1", "no step 1\n"),
    ("4294967295", "no step 4294967295\n"),
    ("history", "crash\n"),
    ("undo", "back 1\n"),
    ("0", "end\n"),
    ("step exec 0", "end\n"),
    ("next # all that may come", "0 exec 0: sfence: delay SF\n1 drain 0 0: left 0 0 W x 1\n2 crash: crashed 1\n"),
    (" 1", "end\n"),
    ("history", "exec 0\nexec 0\ndrain 0 0\n"),
    ("undo", "back 1\n"),
    ("3", "no step 3\n"),
    ("history", "exec 0\nexec 0\n"),
    ("print x", "word x coherent 0 persisted 0\n"),
    ("step drain 0 0", "end\n"),
    (" print\tx # after it left", "word x coherent 1 persisted 0\n"),
    ("print 0:rax", "0:rax=0\n"),
    ("print 1:rax", "M2 NoCpu\n"),
    ("goto 4", "G3 TooFar\n"),
    ("goto 3", "back 0\n"),
    ("history # of three steps", "exec 0\nexec 0\ndrain 0 0\n"),
    ("goto 1", "back 2\n"),
    ("show", STORED),
    ("history", "exec 0\n"),
    ("goto 0", "back 1\n"),
    ("history", ""),
    ("show", BEGIN),
    ("goto 1", "G3 TooFar\n"),
    ("finish 1", "refused 0 M2 NoCpu\n"),
    ("finish 0 # up to its end", "refused 3 M3 Halted\n"),
    ("history", "exec 0\nexec 0\nexec 0\n"),
    ("list", "cpu 0 main 3\n  0 line 4: mov [x], 1\n  1 line 5: clflush [x]\n  2 line 6: sfence\n> 3: end\n"),
    ("goto 0", "back 3\n"),
    ("until 0 2", "end\n"),
    ("history", "exec 0\nexec 0\n"),
    ("until 0 2 # that is only where it is at 2 again", "end\n"),
    ("history # up to where nothing is left to do", "exec 0\nexec 0\nexec 0\ndrain 0 0\ndrain 0 0\ndrain 0 0\npersist 0\nsettle\n"),
    ("goto 0", "back 8\n"),
    ("until 1 0", "refused 0 M2 NoCpu\n"),
    ("until 4294967295 3 # there is none either", "refused 0 M2 NoCpu\n"),
    ("history", ""),
    ("run", "end\n"),
    ("goto 1", "back 7\n"),
    ("until 0 0", "end\n"),
    ("goto 0", "back 8\n"),
    ("reverse # there is nothing behind", "back 0\n"),
    ("until 0 2", "end\n"),
    ("reverse # there is no stop", "back 2\n"),
    ("run 4", "end\n"),
    ("history", "exec 0\nexec 0\nexec 0\ndrain 0 0\n"),
    ("run 0", "end\n"),
    ("run # up to the end", "end\n"),
    ("next", "0 crash: crashed 1\n"),
    ("images", "candidates 1\nimage 1\nimages 1\n"),
    ("goto 0", "back 8\n"),
    ("changed # there was no step", ""),
    ("step exec 0", "end\n"),
    ("changed", "turns 1\ncpu 0 main 1 ready zf 0\n  buf 0 W x 1\n"),
    ("step drain 0 0", "end\n"),
    (" changed # the program stands where it stood", "turns 2\nword x coherent 1 persisted 0\npend 0 W x 1\n"),
    ("step persist 1", "refused 0 M10 NoLine\n"),
    ("changed # by the last that was made", "turns 2\nword x coherent 1 persisted 0\npend 0 W x 1\n"),
    ("step crash", "end\n"),
    ("changed", "turns 3\ncrashes 1\ncpu 0 recover 0 halted zf 0\nword x coherent 0 persisted 0\n"),
    ("undo 2", "back 2\n"),
    ("changed", "turns 1\ncpu 0 main 1 ready zf 0\n  buf 0 W x 1\n"),
    ("undo", "back 1\n"),
    ("changed", ""),
]

# The same with stops and watches, which may come at any time. What is noted of steps stays where `back` goes back before them, and
# is forgotten where `undo` or `goto` does.
STOPPED = [
    ("info", ""),
    ("exec 0", ""),
    ("stop 7 coherent x = 1 # halts where x is 1", ""),
    ("drain 0 0", ""),
    ("watch 3 x", ""),
    ("persist 0", ""),
    ("notes", "watch 3 0\n"),
    ("stop 7 coherent x = 2", "G1 DoubleId\n"),
    ("watch 3 x", "G1 DoubleId\n"),
    ("go", "stop 7 2\n"),
    ("ahead # what the stop left", "persist 0\n"),
    ("show", LEFT),
    ("notes", "watch 3 1\n  2 left 0 0 W x 1\n"),
    ("watch 7 x", ""),
    (" stop 3   persisted x = 1", ""),
    ("info", "stop 7 coherent x = 1 \nwatch 3 x\nwatch 7 x\nstop 3   persisted x = 1\n"),
    ("continue", "stop 3 1\n"),
    ("disarm 3", "ok\n"),
    ("disarm 3", "G2 NoId\n"),
    ("info", "stop 7 coherent x = 1 \nwatch 3 x\nwatch 7 x\n"),
    ("undo", "back 1\n"),
    ("step persist 0", "stop 7 1\n"),
    ("undo # and once more by its number, which is behind that of exec 0", "back 1\n"),
    ("1", "stop 7 1\n"),
    ("disarm 7", "ok\n"),
    ("back 2", "back 2\n"),
    ("notes", "watch 3 1\n  2 left 0 0 W x 1\nwatch 7 0\n"),
    ("step drain 0 0", "end\n"),
    ("step persist 0", "end\n"),
    ("notes", "watch 3 2\n  2 left 0 0 W x 1\n  2 left 0 0 W x 1\nwatch 7 1\n  2 left 0 0 W x 1\n"),
    ("undo 2", "back 2\n"),
    ("notes", "watch 3 0\nwatch 7 0\n"),
    ("step drain 0 0", "end\n"),
    ("goto 1", "back 1\n"),
    ("step drain 0 0", "end\n"),
    ("step persist 0", "end\n"),
    ("undo", "back 1\n"),
    ("notes", "watch 3 1\n  2 left 0 0 W x 1\nwatch 7 1\n  2 left 0 0 W x 1\n"),
    ("step persist 0", "end\n"),
    ("detach 3", "ok\n"),
    ("detach 3", "G2 NoId\n"),
    ("notes", "watch 7 1\n  2 left 0 0 W x 1\n"),
    ("watch 3 x", ""),
    ("notes", "watch 7 1\n  2 left 0 0 W x 1\nwatch 3 0\n"),
    ("stop 7 persisted x = 1", ""),
    ("info", "watch 7 x\nwatch 3 x\nstop 7 persisted x = 1\n"),
    ("delete 9", "G2 NoId\n"),
    ("delete 3", "ok\n"),
    ("info", "watch 7 x\nstop 7 persisted x = 1\n"),
    ("delete 7", "ok\n"),
    ("delete 7", "G2 NoId\n"),
    ("info # nothing is left", ""),
    ("notes", ""),
    ("stop 3 persisted x = 1", ""),
    ("undo", "back 1\n"),
    ("step persist 0", "stop 3 1\n"),
    ("delete 3 # of stops alone", "ok\n"),
    ("undo", "back 1\n"),
    ("step persist 0", "end\n"),
    ("images", "candidates 1\nimage 1\nimages 1\n"),
    # The steps are exec 0, drain 0 0 and persist 0. In the state behind the second x is 1, in that behind the third it has persisted.
    ("history", "exec 0\ndrain 0 0\npersist 0\n"),
    ("watch 1 x", ""),
    ("stop 2 persisted x = 1", ""),
    ("stop 1 coherent x = 1 # it holds now, too: it is left first", ""),
    ("reverse", "back 1\n"),
    ("history", "exec 0\ndrain 0 0\n"),
    ("reverse # to the beginning", "back 2\n"),
    ("history", ""),
    ("run", "stop 1 4\n"),
    ("notes", "watch 1 1\n  4 left 0 0 W x 1\n"),
    ("delete 1 # and the watch of this id", "ok\n"),
    ("watch 3 x", ""),
    ("run", "stop 2 3\n"),
    ("step settle", "stop 2 1\n"),
    ("reverse", "back 1\n"),
    ("reverse # it held in no state before", "back 7\n"),
    ("0", "end\n"),
    ("step drain 0 0", "end\n"),
    ("notes", "watch 3 1\n  2 left 0 0 W x 1\n"),
    ("reverse # the note is forgotten", "back 2\n"),
    ("notes", "watch 3 0\n"),
]

# Two processors: the first stores and then jumps to itself, and its recovery stores and then traps, as 0 is no word's address; the
# second has a locked operation.
TWO = """\
litmus 1
line x y
cpu
mov [x], 1
spin:
jmp spin
recover
mov [y], 2
mov rax, [r8]
end
cpu
mov rcx, 3
lock xadd [x], rcx
mov rbx, [x]
end
"""
# Lines about them. A processor is at a line where its next instruction is there.
BROKEN = [
    ("break 1 line 6", ""),
    ("break 1 line 4 # the id is taken", "G1 DoubleId\n"),
    ("break 2 line 5 # there is a label, and no instruction", bad("break")),
    ("break 2 line 0", bad("break")),
    ("break 2 line 16", bad("break")),
    ("break 2 line 4294967295", bad("break")),
    ("info", "break 1 line 6\n"),
    ("step exec 0", "break 1 1\n"),
    ("step exec 0 # it stays there", "end\n"),
    ("exec 0", ""),
    ("exec 1", ""),
    ("go", "end\n"),
    ("undo 4", "back 4\n"),
    ("exec 1", ""),
    ("exec 0", ""),
    ("drain 0 0", ""),
    ("crash", ""),
    ("go", "break 1 2\n"),
    ("history", "exec 1\nexec 0\n"),
    ("ahead # those behind the break", "drain 0 0\ncrash\n"),
    ("continue", "end\n"),
    ("history", "exec 1\nexec 0\ndrain 0 0\ncrash\n"),
    ("undo", "back 1\n"),
    ("break 8 line 8", ""),
    (" break\t3  crash", ""),
    ("break 4 trap # of a processor", ""),
    ("info", "break 1 line 6\nbreak 8 line 8\nbreak\t3  crash\nbreak 4 trap \n"),
    ("step crash # two breaks: the first that was declared", "break 8 1\n"),
    ("delete 8", "ok\n"),
    ("undo # breaks stay", "back 1\n"),
    ("step crash", "break 3 1\n"),
    ("disarm 3", "G2 NoId\n"),
    ("detach 3", "G2 NoId\n"),
    ("delete 3", "ok\n"),
    ("delete 3", "G2 NoId\n"),
    ("info", "break 1 line 6\nbreak 4 trap \n"),
    ("step exec 0", "end\n"),
    ("step exec 0", "break 4 1\n"),
    ("step exec 0", "refused 0 M3 Halted\n"),
    ("undo 2", "back 2\n"),
    ("finish 0", "break 4 2\n"),
    ("finish 0", "refused 0 M3 Halted\n"),
    # The recovery's second instruction is on line 9, and the main program's on line 6.
    ("break 9 line 9", ""),
    ("goto 0", "back 6\n"),
    ("delete 1", "ok\n"),
    ("step exec 0", "end\n"),
    ("step crash", "end\n"),
    ("step exec 0", "break 9 1\n"),
    ("goto 0", "back 3\n"),
    # A stop and a break at one step, and ids that each kind has for itself.
    ("break 1 line 13", ""),
    ("stop 1 reg 1 rcx = 3", ""),
    ("step exec 1", "stop 1 1\n"),
    ("disarm 1 # that is the stop", "ok\n"),
    ("info", "break 4 trap \nbreak 9 line 9\nbreak 1 line 13\n"),
    ("undo", "back 1\n"),
    ("step exec 1", "break 1 1\n"),
    ("step exec 0", "end\n"),
    ("reverse # it knows no breaks", "back 2\n"),
    # Lines that make steps of themselves. The first step of next is that of processor 0.
    ("break 2 line 6", ""),
    ("run 5", "break 2 1\n"),
    ("history", "exec 0\n"),
    ("run 3", "end\n"),
    ("goto 0", "back 4\n"),
    ("until 1 1", "break 2 1\n"),
    ("goto 0", "back 1\n"),
    ("0", "break 2 1\n"),
    ("goto 0", "back 1\n"),
    ("exec 0", ""),
    ("exec 1", ""),
    ("step", "break 2 1\n"),
    ("ahead", "exec 1\n"),
    ("step", "break 1 1\n"),
    ("step", "no step ahead\n"),
    ("goto 0", "back 2\n"),
    # The rest is forgotten by go, and not by continue.
    ("exec 0", ""),
    ("exec 1", ""),
    ("go", "break 2 1\n"),
    ("exec 1", ""),
    ("go", "break 1 1\n"),
    ("ahead", ""),
    ("goto 0", "back 2\n"),
    ("exec 0", ""),
    ("exec 1", ""),
    ("go", "break 2 1\n"),
    ("drain 0 0", ""),
    ("continue", "break 1 1\n"),
    ("ahead", "drain 0 0\n"),
    ("goto 0", "back 2\n"),
    ("exec 1 # refused is what is not there: it is behind the break", ""),
    ("exec 2", ""),
    ("go", "break 1 1\n"),
    ("continue", "refused 0 M2 NoCpu\n"),
    ("goto 0", "back 1\n"),
    ("delete 2", "ok\n"),
    # A crash to values halts where a break comes before it, or at it.
    ("step exec 0", "end\n"),
    ("step drain 0 0", "end\n"),
    ("break 3 crash", ""),
    ("crash 1 0", "break 3 2\n"),
    ("history", "exec 0\ndrain 0 0\npersist 0\ncrash\n"),
    ("delete 3", "ok\n"),
    ("goto 0", "back 4\n"),
    # Watches that halt are breaks, too.
    ("watch 5 x stop", ""),
    ("watch 5 y", "G1 DoubleId\n"),
    ("watch 1 y stop # there is a break of this id", "G1 DoubleId\n"),
    ("watch 1 y", ""),
    ("break 5 crash", "G1 DoubleId\n"),
    ("info", "break 4 trap \nbreak 9 line 9\nbreak 1 line 13\nwatch 5 x stop\nwatch 1 y\n"),
    ("exec 0", ""),
    ("drain 0 0", ""),
    ("exec 1", ""),
    ("go # the store is in the buffer first", "break 5 2\n"),
    ("notes", "watch 5 1\n  2 left 0 0 W x 1\nwatch 1 0\n"),
    ("ahead", "exec 1\n"),
    ("continue", "break 1 1\n"),
    ("step exec 1 # a locked operation writes as it runs", "break 5 1\n"),
    ("notes", "watch 5 2\n  2 left 0 0 W x 1\n  4 ran 1 1 locked x 1 4\nwatch 1 0\n"),
    ("step exec 1 # a load does not", "end\n"),
    ("step persist 0", "end\n"),
    ("undo 3", "back 3\n"),
    ("notes", "watch 5 1\n  2 left 0 0 W x 1\nwatch 1 0\n"),
    ("step exec 1", "break 5 1\n"),
    ("undo", "back 1\n"),
    ("detach 5 # the break is gone with the watch", "ok\n"),
    ("step exec 1", "end\n"),
    ("undo", "back 1\n"),
    ("watch 5 x stop", ""),
    ("delete 5", "ok\n"),
    ("step exec 1", "end\n"),
    ("break 5 crash", ""),
    ("delete 1 # the break and the watch", "ok\n"),
    ("info", "break 4 trap \nbreak 9 line 9\nbreak 5 crash\n"),
]

# Lines that are wrong, of which the state knows nothing.
WRONG = [
    "bogus", "exec", "exec 9 9", "exec -1", "step go", "step stop 1 coherent x = 1", "step step exec 0", "back", "back x",
    "values", "values y", "values x x", "values x x=", "values x x=y", "values x y=1", "go go", "show x", "quit now", "help me",
    "help help me", "help undo 1", "history 1", "finish", "finish x", "finish 0 0", "finish -1", "run x", "run 1 1", "run -1",
    "QUIT", "\x01", "stop", "stop x coherent x = 1", "watch", "watch 1 y", "disarm", "detach x", "undo x", "undo 1 1", "notes 1",
    "undo -1", "next 1", "next --refused", "info 1", "delete", "delete x", "delete 1 1", "goto", "goto x", "goto -1", "goto 0 0",
    "print", "print y", "print x x", "print 0:", "print 0:rip", "print :rax", "print 0:x", "print rax", "print -1:rax",
    "print 0 rax", "print 0:rax:rax", "until", "until 0", "until x 1", "until 0 x", "until 0 1 1", "until -1 1", "reverse 1",
    "reverse x", "set", "set x", "set 0 0", "set -1", "set 18446744073709551616", "crash x", "crash 0 0", "crash 1 x", "ahead 1",
    "list 1", "list x", "why", "why x", "why 0 0", "why -1", "why 18446744073709551616", "checks persisted x = 1", "break",
    "break 1", "break x line 4", "break 1 line", "break 1 line x", "break 1 line 4 4", "break 1 lines 4", "break 1 crash 1",
    "break 1 refused", "break -1 crash", "break 1 line 3", "break 1 line 7", "break 1 line 0", "watch 1 x stops",
    "watch 1 x stop 1", "watch 1 y stop", "watch x x stop", "watch 1 stop", "changed 1", "0 0", "-1", "1x", "4294967296", "K",
    "K 1",
]

# Stops whose condition is none, by its fault: the number is that of the token, from 0.
NO_CONDITIONS = [
    ("stop 1", "E1 BadCond 0\n"),
    ("stop 1 # coherent x = 1", "E1 BadCond 0\n"),
    ("stop 1 coherent x =", "E1 BadCond 3\n"),
    ("stop 1 coherent y = 1", "E2 UnknownName 1\n"),
    ("stop 1 coherent x = 1 or", "E1 BadCond 5\n"),
    ("all", "E1 BadCond 0\n"),
    ("all # coherent x = 1", "E1 BadCond 0\n"),
    ("all persisted y = 1", "E2 UnknownName 1\n"),
    ("all persisted x = 1 1", "E1 BadCond 4\n"),
    ("images persisted x =", "E1 BadCond 3\n"),
    ("images persisted y = 1", "E2 UnknownName 1\n"),
    ("check", "E1 BadCond 0\n"),
    ("check --all # persisted x = 1", "E1 BadCond 0\n"),
    ("check --ends persisted x = 1", "E1 BadCond 0\n"),
    ("check --all --all persisted x = 1", "E1 BadCond 0\n"),
    ("check persisted y = 1", "E2 UnknownName 1\n"),
]

# Two processors that do the same, and what each step changes, worked out by hand.
ALIKE = "litmus 1\nline x y\n" + "cpu\nmov [x], 1\nmov [y], 2\nend\n" * 2
CHANGES = [
    ("exec 0", "turns 1\ncpu 0 main 1 ready zf 0\n  buf 0 W x 1\n"),
    ("exec 1", "turns 2\ncpu 1 main 1 ready zf 0\n  buf 0 W x 1\n"),
    ("exec 0", "turns 3\ncpu 0 main 2 halted zf 0\n  buf 1 W y 2\n"),
    ("exec 1", "turns 4\ncpu 1 main 2 halted zf 0\n  buf 1 W y 2\n"),
    ("drain 1 0", "turns 5\ncpu 1 main 2 halted zf 0\n  buf 0 W y 2\nword x coherent 1 persisted 0\npend 0 W x 1\n"),
    ("drain 0 0", "turns 6\ncpu 0 main 2 halted zf 0\n  buf 0 W y 2\npend 1 W x 1\n"),
    ("drain 0 0", "turns 7\nword y coherent 2 persisted 0\npend 2 W y 2\n"),
    ("persist 0", "turns 8\nword x coherent 1 persisted 1\npend 1 W y 2\n"),
    ("crash", "turns 9\ncrashes 1\ncpu 0 recover 0 halted zf 0\ncpu 1 recover 0 halted zf 0\nword y coherent 0 persisted 0\n"),
]
# Of which examples `changed` is asked behind each step.
CHANGED = ["guide/append-unfenced", "guide/append", "queue", "lock", "store-buffering", "acknowledged-commit"]

# --- conversations


def said(lines: Iterable[str]) -> str:
    """These lines, as they are typed."""
    return "".join(f"{line}\n" for line in lines)


def shown(rows: Iterable[tuple[str, str]]) -> str:
    """What is written where lines are answered so, and then the input ends."""
    return PROMPT + "".join(answer + PROMPT for _, answer in rows)


def words_of(px86: Px86, text: str = "") -> list[str]:
    """The words of a conversation about a text, TEXT if none is named."""
    return [px86.path, "debug", "--interactive", text or px86.keep("text", TEXT)]


def talk(px86: Px86, given: str | None, text: str = "", **how: Any) -> Done:
    """What comes of what is given by a pipe."""
    return run(words_of(px86, text), given, MOST, **how)


def wrong_talk(px86: Px86, rows: Sequence[tuple[str, str]], text: str = "") -> str:
    """What is wrong with a conversation of these lines by a pipe, which are to be answered so."""
    return wrong_run(talk(px86, said(line for line, _ in rows), text), 0, shown(rows))


def answers(px86: Px86, lines: Iterable[str], text: str) -> list[str]:
    """What each line of a conversation by a pipe is answered."""
    return talk(px86, said(lines), text).out.split(PROMPT)[1:-1]


@dataclasses.dataclass(frozen=True)
class Listed:
    """A text, and steps of it."""

    name: str
    text: str
    steps: list[str]

    def made(self, count: int | None = None) -> list[str]:
        """The lines of a conversation that make the first steps, or all."""
        return [f"step {step}" for step in self.steps[:count]]

    def report(self, px86: Px86, command: str, *words: str, count: int | None = None) -> str:
        """What a command reports of the first steps, or of all."""
        return px86(command, *words, self.text, given=said(self.steps[:count]), most=MOST).out


def listed(name: str, most: int | None = None) -> Listed:
    """An example with its list of steps, or so many of them at most."""
    lines = [line for line in read(f"examples/{name}.steps").splitlines() if line.partition("#")[0].strip()]
    return Listed(name, f"{TOP}/examples/{name}.litmus", lines[:most])


def lists(*folders: str) -> list[str]:
    """The names of the examples of folders that have a list of steps."""
    found = sorted(it for folder in folders for it in glob.glob(f"{TOP}/examples/{folder}*.steps"))
    names = [os.path.relpath(it, f"{TOP}/examples").removesuffix(".steps") for it in found]
    return [it for it in names if os.path.exists(f"{TOP}/examples/{it}.litmus")]


# --- at a window


def window(words: Sequence[str], ignored: bool = False) -> Terminal:
    """A window with a conversation, which the signal of a window that closes ends, also where the tests run under `nohup`."""
    return Terminal(["env", f"--{'ignore' if ignored else 'default'}-signal=HUP", *words], "-opost -echo")


def prompted(written: str) -> bool:
    return written.endswith(PROMPT)


def at_a_window(px86: Px86, rows: Sequence[tuple[str, str]], text: str = "") -> Checks:
    """Each answer comes before the next line is typed."""
    with window(words_of(px86, text)) as it:
        yield "the first prompt", unlike(it.reads(prompted), PROMPT)
        for line, answer in rows:
            it.types(f"{line}\n")
            yield f"the answer to {line!r}", unlike(it.reads(prompted), answer + PROMPT)
        it.types("\x04")
        yield "status after Ctrl-D", unlike(it.status(), 0)


def quit_at_a_window(px86: Px86) -> Checks:
    with window(words_of(px86)) as it:
        it.reads(prompted)
        it.types("quit\n")
        yield "nothing comes after it", unlike(it.reads(prompted), "")
        yield "status", unlike(it.status(), 0)


def closing(px86: Px86) -> Checks:
    """A window that closes ends the conversation."""
    for ignored in False, True:
        with window(words_of(px86), ignored) as it:
            it.reads(prompted)
            it.hang_up()
            status = it.status()
        if ignored:
            # A read that waits fails then, and one that begins after that is at the end.
            yield "the signal is ignored: it ends", unlike(status == TIMED_OUT, False)
        else:
            yield "its status", unlike(status, -signal.SIGHUP)


# --- by pipes and files


def breaks(px86: Px86) -> Checks:
    """What is said of breaks, at a window and by a pipe. An object file has no lines to come to."""
    text = px86.keep("two", TWO)
    yield from at_a_window(px86, BROKEN, text)
    yield "by a pipe", wrong_talk(px86, BROKEN, text)
    path = px86.keep("object", px86("asm", px86.keep("text", TEXT)).written)
    rows = [("break 1 line 4", bad("break")), ("break 1 crash", ""), ("step exec 0", "end\n"), ("step crash", "break 1 1\n")]
    yield "of an object", wrong_talk(px86, rows, path)


def streams(px86: Px86) -> Checks:
    """A pipe, a file and a terminal are alike."""
    rows = TALK + STOPPED
    yield "by a pipe", wrong_talk(px86, rows)
    with open(px86.keep("lines", said(line for line, _ in rows)), "rb") as file:
        yield "by a file", wrong_run(talk(px86, None, stdin=file), 0, shown(rows))
    for name, given, wanted in (
        ("nothing is said", "", PROMPT),
        ("a line that the end ends", "show", PROMPT + BEGIN),
        ("quit that the end ends", "quit", PROMPT),
        ("quit beside blanks and a comment", " \tquit \r # over\nshow\n", PROMPT),
    ):
        yield name, wrong_run(talk(px86, given), 0, wanted)


def wrong_lines(px86: Px86) -> Checks:
    """A line that is wrong is answered, and changes nothing."""
    second = STORED.replace("turns 1", "turns 2").replace("main 1", "main 2").replace("  buf 0 W x 1\n", "  buf 0 W x 1\n  buf 1 FL 0\n")
    before = [("exec 0", ""), ("go", "end\n"), ("clf", bad("clf")), ("exec 0", "")]
    after = [("show", STORED), ("go", "end\n"), ("show", second)]
    for line, answer in [(line, bad(line)) for line in WRONG] + [(line, bad(line, fault)) for line, fault in NO_CONDITIONS]:
        yield repr(line), wrong_talk(px86, [*before, (line, answer), *after])


def rest(px86: Px86) -> Checks:
    """What is behind `quit` is left to others."""
    reader = 'printf "show\\nquit\\nthe rest of it\\nshow\\n" | ("$@"; cat)'
    done = run(["sh", "-c", reader, "sh", *words_of(px86)], most=MOST)
    yield "of a pipe", unlike((done.status, done.out), (0, PROMPT + BEGIN + PROMPT + "the rest of it\nshow\n"))
    with open(px86.keep("lines", "quit\nthe rest of it\n"), "rb", buffering=0) as file:
        talk(px86, None, stdin=file)
        yield "of a file", unlike(file.read(), b"the rest of it\n")


def faults(px86: Px86) -> Checks:
    """Devices that fail, texts that are none, and words that are none."""
    words, read_failed = words_of(px86), "px86: F1 ReadFailed\n"
    with open("/dev/full", "wb") as full:
        yield "a write fails", wrong_end(talk(px86, "", stdout=full), 3, "px86: F2 WriteFailed\n")
    closed, folder = (run(["sh", "-c", f'exec "$@" {given}', "sh", *words], cwd=px86.folder) for given in ("<&-", "<."))
    yield "the standard input is closed", wrong_run(closed, 3, "", read_failed)
    yield "a read fails", wrong_run(folder, 3, PROMPT, read_failed)
    yield "there is no file", wrong_run(talk(px86, "show\n", f"{px86.folder}/none"), 3, "", read_failed)
    done = talk(px86, "show\n", px86.keep("bad", "litmus 1\nline x\nbogus\nend\n"))
    yield "a text that is none", unlike((done.status, done.out, done.err.startswith("px86: X")), (2, "", True))
    for more in ["--no-steps"], ["--steps", words[-1]], ["--interactive"]:
        yield f"beside {more[0]}", wrong_run(run([*words, *more]), 2, "", "px86: usage\n")
    done = run([*words, "--no-steps", "--explain"])
    yield "beside --no-steps, explained", unlike((done.status, done.out, "--interactive" in done.err), (2, "", True))
    yield "run does not converse", wrong_run(px86("run", "--interactive", words[-1]), 2, "", "px86: usage\n")


def limit(px86: Px86) -> Checks:
    """2^26 bytes are heard, and no more."""
    line = b"x" * (2**16 - 1) + b"\n"
    with open(px86.keep("long", line * (LIMIT // len(line)) + b"rest\n"), "rb", buffering=0) as file:
        done = talk(px86, None, stdin=file)
        yield "the fault", wrong_end(done, 2, "px86: F3 InputTooLong\n")
        yield "the answers", unlike(done.out == PROMPT + (bad("x") + PROMPT) * (LIMIT // len(line)), True)
        yield "the rest", unlike(file.read(), b"rest\n")


# --- beside what other commands report


def by_processor(report: str) -> list[tuple[str, str]]:
    """The lines of a state's report, each with the `cpu P` that it belongs to, or with none."""
    lines, owner = [], ""
    for line in report.splitlines(True):
        if not line.startswith("  "):
            owner = " ".join(line.split()[:2]) if line.startswith("cpu ") else ""
        lines.append((owner, line))
    return lines


def changed(before: str, after: str) -> str:
    """What `changed` has to say of a step between two reports: the lines that are new, and those `cpu` that stand above them."""
    old, new = by_processor(before), by_processor(after)
    owners = {owner for owner, line in new if owner and (owner, line) not in old}
    return "".join(line for owner, line in new if (owner, line) not in old or owner in owners and line.startswith("cpu "))


def changes_by_hand(px86: Px86) -> Checks:
    rows = [row for step, answer in CHANGES for row in ((f"step {step}", "end\n"), ("changed", answer))]
    yield "", wrong_talk(px86, rows, px86.keep("alike", ALIKE))


def changes(px86: Px86, name: str) -> Checks:
    """`changed` has the lines of `show` that `show` did not have before the last step, behind each of the steps of an example."""
    it = listed(name)
    found = answers(px86, [word for step in it.made() for word in (step, "changed")], it.text)[1::2]
    states = [it.report(px86, "run", count=n) for n in range(len(it.steps) + 1)]
    yield "", unlike(found, [changed(before, after) for before, after in itertools.pairwise(states)])


def late(lines: list[str]) -> list[str]:
    """These lines, but each stop and watch comes behind the steps that the first `go` makes."""
    declared = [line for line in lines if line.split()[:1] in (["stop"], ["watch"])]
    others = [line for line in lines if line not in declared]
    first = next(place for place, line in enumerate(others) if line.split()[:1] == ["go"])
    return others[:first] + declared + others[first:]


def scripts(px86: Px86) -> Checks:
    """What is answered, without the prompts, and then the notes, is what `debug` writes of the same lines as a script."""
    paths = sorted(glob.glob(f"{TOP}/examples/*.script") + glob.glob(f"{TOP}/examples/guide/*.script"))
    yield "there are scripts", unlike(len(paths) >= 4, True)
    for path in paths:
        name, text = os.path.basename(path), path.removesuffix(".script") + ".litmus"
        more = ["images", "back 2", "go", "continue", "drain 0 0", "go", "show", "disarm 1", "detach 9", "images"]
        lines = read(path).splitlines() + more
        done, behind = talk(px86, said([*lines, "notes"]), text), talk(px86, said([*late(lines), "notes"]), text)
        report = px86("debug", text, given=said(lines), most=MOST).out
        yield f"{name}: there is a report", unlike(len(report) > 100, True)
        yield f"{name}: status", unlike(done.status, 0)
        yield f"{name}: the answers are the report", unlike(done.out.replace(PROMPT, ""), report)
        yield f"{name}: a prompt for each line, and one more", unlike(done.out.count(PROMPT), len(lines) + 2)
        yield f"{name}: status with late stops and watches", unlike(behind.status, 0)
        yield f"{name}: the answers are the report, with late stops and watches", unlike(behind.out.replace(PROMPT, ""), report)
    yield "scripts have stops", unlike(any("stop " in read(path) for path in paths), True)


def prints(px86: Px86) -> Checks:
    """`print` is answered as `px86 run` reports of the same steps, of each word and of each register that is not 0."""
    names, told = lists("", "guide/"), 0
    yield "there are lists of steps", unlike(len(names) >= 3, True)
    for it in map(listed, names):
        done = px86("run", it.text, given=said(it.steps), most=MOST)
        if done.status:
            # A refused step ends a run. A conversation goes on behind it.
            continue
        rows, processor = [], ""
        for kind, name, *more in (line.split() for line in done.out.splitlines()):
            processor = name if kind == "cpu" else processor
            if kind == "word":
                rows.append((name, " ".join([kind, name, *more]) + "\n"))
            elif kind == "reg":
                rows.append((f"{processor}:{name}", f"{processor}:{name}={more[0]}\n"))
        told += sum(":" in name for name, _ in rows)
        found = answers(px86, [*it.made(), *(f"print {name}" for name, _ in rows)], it.text)
        yield it.name, unlike(found[len(it.steps) :], [wanted for _, wanted in rows])
    yield "registers are told", unlike(told > 0, True)


def nexts(px86: Px86) -> Checks:
    """`next` is answered as `px86 next` reports, with a number before each line, behind each of the first steps of the examples. Where
    a step is taken by this number, it is that step."""
    asked = [listed(name, MOST_STEPS) for name in lists("guide/")]
    for it in asked:
        found = answers(px86, [word for step in it.made() for word in (step, "next")], it.text)[1::2]
        reports = [it.report(px86, "next", count=n).splitlines(True) for n in range(len(it.steps) + 1)]
        wanted = ["".join(f"{n} {line}" for n, line in enumerate(report)) for report in reports[1:]]
        yield f"{it.name}: next behind each step", unlike(found, wanted)
        numbers = [[line.split(":")[0] for line in report].index(step) for report, step in zip(reports, it.steps)]
        history = answers(px86, [*map(str, numbers), "history"], it.text)[-1]
        yield f"{it.name}: steps by their numbers", unlike(history, said(it.steps))
    yield "next is asked", unlike(len(asked) >= 2, True)


KEPT = "persisted tail = 0 or persisted a = 11 and persisted b = 12"


def images(px86: Px86, n: int) -> Checks:
    """`all`, `set` and `why` are answered as `px86 images` reports, behind so many steps of the append. A crash to each of the images
    leaves it."""
    it = listed("guide/append-unfenced", MOST_STEPS)
    told, kept = answers(px86, [*it.made(n), "images", f"all {KEPT}"], it.text)[n:]
    yield "all", unlike(told + kept, it.report(px86, "images", "--all", KEPT, count=n))
    yield "all is said", unlike(kept.split()[:1], ["all"])
    # Each word that is not 0 tells the images apart in which it is 0.
    rows = re.findall(r"^image .*$", told, re.M)
    for place, word in enumerate(("a", "b", "tail"), 1):
        those = [row for row in rows if row.split()[place] == "0"]
        found = answers(px86, [*it.made(n), f"images persisted {word} > 0"], it.text)[n]
        yield f"images in which {word} is 0", unlike(found.splitlines(), [*those, f"images {len(those)}"])
    left = 0
    for values in [*(row.removeprefix("image ") for row in rows), "7 7 7"]:
        asked = [f"set {values}", f"why {values}", f"crash {values}", "show"]
        chosen, why, crashed, state = answers(px86, [*it.made(n), *asked], it.text)[n:]
        is_one = chosen != "no set\n"
        yield f"set {values}", unlike(chosen, it.report(px86, "images", "--set", values, count=n))
        reasons = it.report(px86, "images", "--set", values, "--explain-image", count=n)
        yield f"why {values}", unlike(chosen + why if is_one else why, reasons)
        words = " ".join(re.findall(r"^word .* (\d+)$", state, re.M))
        if is_one:
            yield f"crash {values}", unlike((crashed, words, "crashes 1\n" in state), ("end\n", values, True))
        else:
            yield f"crash {values} is none", unlike((crashed, "crashes 0\n" in state), (chosen, True))
        left += is_one
    yield "images are left", unlike(left > 0, True)


# Of which examples runs are asked what, and whether some run breaks it.
CHECKED = [
    ("append-unfenced", KEPT, True),
    ("append", KEPT, False),
    ("append-unfenced", "persisted a = 0", True),
    ("append", "persisted tail = 0 or reg 0 rax = 0", True),
]


def checked(px86: Px86, name: str, cond: str, breaks: bool) -> Checks:
    """`check` is answered as `px86 check` reports of the same steps. The run that fails is ahead then: it is walked by `step`, or by
    `continue`, and leads to a state in which the condition fails for the same image."""
    it, broken = listed(f"guide/{name}", MOST_STEPS), 0
    for n in (0, len(it.steps) // 2, len(it.steps)):
        told = it.report(px86, "check", "--all", cond, "--show", count=n).splitlines()
        for question in (f"check {cond}", f" check\t--all {cond} # of all runs"):
            behind = f"behind {n} steps, {question!r}"
            lines = [*it.made(n), "exec 15", question, "ahead", "continue", f"all {cond}", "history"]
            found, ahead, went, left, history = answers(px86, lines, it.text)[n + 1 :]
            if told[0] == "all holds":
                wanted = "all holds\n", "exec 15\n", "refused 0 M2 NoCpu\n"
                yield f"{behind}: what was ahead stays", unlike((found, ahead, went), wanted)
                continue
            steps = told[2 : 2 + int(told[1].split()[1])]
            yield behind, unlike(found.splitlines(), told[:2])
            yield f"{behind}: its run", unlike(history.splitlines(), it.steps[:n] + steps)
            yield f"{behind}: it leads there", unlike((went, left.splitlines()), ("end\n", told[:1]))
            yield f"{behind}: it is ahead", unlike(ahead.splitlines(), steps)
            walked = answers(px86, [*it.made(n), question, *["step"] * (len(steps) + 1), "history"], it.text)[n + 1 :]
            wanted = ["end\n"] * len(steps), "no step ahead\n", said(it.steps[:n] + steps)
            yield f"{behind}: step by step", unlike((walked[:-2], walked[-2], walked[-1]), wanted)
            broken += 1
    yield "whether some are broken", unlike(broken >= 4, breaks)


def untold(px86: Px86, text: str, cond: str, fault: str) -> Checks:
    """Of all runs it is not told, and the conversation goes on."""
    lines = ["exec 0", f"check {cond}", "ahead", "show"]
    _, found, ahead, state = answers(px86, lines, px86.keep("untold", text))
    yield "", unlike((found, ahead, state.startswith("turns 0\n")), (fault, "exec 0\n", True))


def lists_programs(px86: Px86, name: str) -> Checks:
    """`list` has the lines of the text, and its marks are where `px86 run` reports the processors, behind each of the first steps."""
    it = listed(f"guide/{name}", MOST_STEPS)
    lines = [line.partition("#")[0].strip() for line in read(it.text).splitlines()]
    asked = ["list", *(word for step in it.made() for word in (step, "list"))]
    for n, told in enumerate(answers(px86, asked, it.text)[::2]):
        heads = re.findall(r"^cpu .*$", told, re.M)
        places = [line.split()[:4] for line in re.findall(r"^cpu .*$", it.report(px86, "run", count=n), re.M)]
        yield f"{n} steps: heads", unlike([head.split() for head in heads], places)
        yield f"{n} steps: marks", unlike(re.findall(r"^> (\d+)", told, re.M), [place[3] for place in places])
        for row in (line[2:] for line in told.splitlines() if " line " in line):
            where, _, instruction = row.partition(": ")
            there = lines[int(where.split()[2]) - 1]
            # Of a jump the label has another name.
            found, wanted = (word.split()[0] if there[0] == "j" else word for word in (instruction, there))
            yield f"{n} steps: {row}", unlike(found, wanted)
        yield f"{n} steps: there are lines", unlike(" line " in told, True)


LISTED_OBJECT = "cpu 0 main 0\n> 0: mov [x], 1\n  1: clflush [x]\n  2: sfence\n"
MISSING_OF_OBJECT = "image x 0\nmissing x 1 cpu 0 main 0: in the store buffer\n"


def lists_object(px86: Px86) -> Checks:
    path = px86.keep("object", px86("asm", px86.keep("text", TEXT)).written)
    found = answers(px86, ["list", "step exec 0", "why 0"], path)[::2]
    yield "list and why", unlike(found, [LISTED_OBJECT, MISSING_OF_OBJECT])


def goes_to(px86: Px86) -> Checks:
    """`goto N` leaves the state of the first N steps, as `px86 run` reports it."""
    it = listed("guide/append-unfenced")
    count = len(it.steps)
    yield "there are steps", unlike(count >= 3, True)
    for kept in range(count + 1):
        found = answers(px86, [*it.made(), f"goto {kept}", "show"], it.text)[-2:]
        yield f"goto {kept}", unlike(found, [f"back {count - kept}\n", it.report(px86, "run", count=kept)])


# The words that may be said, and those of them that the help of `debug` has.
SAID = """stop watch break changed exec drain persist settle crash go continue ahead step run until finish next K back undo goto reverse
show list print images all set why check values info disarm detach delete notes history help quit""".split()
IN_HELP = """continue break changed info delete ahead step run until finish next K undo goto reverse list print all set why check notes
history help quit""".split()


def helps(px86: Px86) -> Checks:
    """`help` has a row for each word that may be said, and each is one that Tab completes. The command's help says the same of the
    words that scripts lack."""
    yield "help", wrong_talk(px86, [("help", HELP)])
    for word in SAID:
        yield f"{word} has a row", unlike(word in ROWS, True)
        yield f"help {word}", wrong_talk(px86, [(f"help {word}", ROWS[word])])
    completed = read("tools/conversation.words").split()
    yield from ((f"Tab completes {word}", unlike(word in completed, True)) for word in ROWS if word.islower())
    told = px86("debug", "--help").out.replace("\n  ", "\n")
    yield from ((f"debug --help: {word}", unlike(ROWS[word] in told, True)) for word in IN_HELP)


# --- cases


def check_cases() -> Iterator[Case]:
    """Cases of `check` in a conversation."""
    yield from (Case(f"check: {name}: {cond}", checked, name, cond, broken) for name, cond, broken in CHECKED)
    # A pending list has room for 256 writes of a line; and of 17 lines with a write each a crash may leave 2^17 memories.
    full = ["line x", "cpu", *(f"mov [x], {n}" for n in range(257))]
    many = [*(f"line w{n}" for n in range(17)), "cpu", *(f"mov [w{n}], 1" for n in range(17))]
    yield Case("check: no room", untold, said(["litmus 1", *full, "end"]), "persisted x < 300", "R2 NoRoom\n")
    yield Case("check: too many memories", untold, said(["litmus 1", *many, "end"]), "persisted w0 <= 1", "I1 TooMany\n")


def cases() -> Iterator[Case]:
    """All cases."""
    yield from check_cases()
    yield Case("2^26 bytes", limit)
    yield from (Case(f"images behind {n} steps", images, n) for n in range(len(listed("guide/append-unfenced", MOST_STEPS).steps) + 1))
    yield Case("lines at a window", at_a_window, TALK + STOPPED)
    yield Case("quit at a window", quit_at_a_window)
    yield Case("breaks", breaks)
    yield Case("changed: two that do the same", changes_by_hand)
    yield from (Case(f"changed: {name}", changes, name) for name in CHANGED)
    yield Case("a window that closes", closing)
    yield Case("a pipe, a file and a terminal", streams)
    yield Case("a wrong line changes nothing", wrong_lines)
    yield Case("the rest behind quit", rest)
    yield Case("answers and reports of scripts", scripts)
    yield Case("print", prints)
    yield Case("next", nexts)
    yield from (Case(f"list: {name}", lists_programs, name) for name in ("append-unfenced", "append-told-early"))
    yield Case("list of an object", lists_object)
    yield Case("goto", goes_to)
    yield Case("help", helps)
    yield Case("faults", faults)
