"""A second opinion on `px86 run`, `trace`, `next`, `images`, `law`, `replay`, `tally`, `hunt`, `live`, `check`, `outcomes`, `fences` and
`mend`.

Written from docs/MODEL.md and docs/FORMATS.md alone, in another language than the program, and slow: its reports say
what those of the program must be. It reads litmus texts without faults, and sheets (no objects), and the steps on standard input. Of
the conditions that are asked of a sheet it tells the faults too; those of a litmus text have none.

  tools/schedules-model run FILE
  tools/schedules-model trace FILE
  tools/schedules-model next FILE [--refused]
  tools/schedules-model images FILE [--count] [--names] [--all COND] [--some COND]
  tools/schedules-model images FILE --set VALUES
  tools/schedules-model explain FILE [--image VALUES] [--report LINES] [--all COND] [--ends COND] [--recovered COND] [--only NAME] [--states N]
  tools/schedules-model answer FILE [--only NAME]
  tools/schedules-model law FILE
  tools/schedules-model tally FILE [--all COND] [PLAN]
  tools/schedules-model hunt FILE (--cond COND | --all COND [--lazy] [--explain-image]) [--workers W] [--show] [PLAN]
  tools/schedules-model replay FILE --number K [--lazy] [PLAN]
  tools/schedules-model live FILE [--threads T] [--check REPORT]
  tools/schedules-model check FILE.. [--all COND] [--ends COND] [--recovered COND] [--images] [--before-crash] [--states N]
      [--names] [--only NAME]
  tools/schedules-model fences FILE [--all COND] [--ends COND] [--recovered COND] [--before-crash] [--states N] [--only SITE]
  tools/schedules-model mend FILE [--all COND] [--ends COND] [--recovered COND] [--before-crash] [--states N] [--moves] [--sets N]
  tools/schedules-model outcomes FILE [--recovered] [--states N] [--breaking COND]
  tools/schedules-model enumerate FILE [--crash] [--cond COND]
  tools/schedules-model dis FILE
  tools/schedules-model program N
  tools/schedules-model words SEED NUMBER
  tools/schedules-model compare PROGRAM [--lists N] [--full N] [--states N] [--listings N]
      [--commands N] [--hunts N]
  tools/schedules-model sets PROGRAM ROWS..
  tools/schedules-model every-run PROGRAM [--programs N] [--first F]
  tools/schedules-model small N

PLAN is [--seed S] [--length N] [--first F] [--runs K] [--crash-after T]. `live` writes the report of one of the journals that may
be, that in the order of the list; with --check it says what is wrong with a report, which may be that of any of them,
and nothing where it is right. The exit status is the program's, and of --check 0 or 1. `dis` writes the written form of a
litmus text or a sheet, or its fault. `program` writes litmus text N of many, which have all instructions and no meaning. `words`
writes the first five words that choose the steps of the schedule of this number.

`check` and `outcomes` make every list of steps of all kinds from the state to which the given steps lead, crashes too, with
nothing left out: a state that was met before, counts apart, is not gone through again, and there is no other saving. The
report of `check` is that of the program without the lines `states` and `steps`. Where a condition fails the program tells
one state that makes it false, and which one is not said; here there is a line `Q fails V..` for each that may be told. With
`--states N` more than N of these states, of which the program needs fewer, are R1 TooManyStates. Without a condition it answers the
questions of a sheet, with a line `NAME fails V..` or `NAME found V..` for each that may be told. Of several files it asks the questions
of one after another, from the same steps: `FILE: N hold`, or a line for each that may be told of the first question whose answer is not
good. With --breaking COND, which the program does not have, `outcomes` tells those alone that make it false.

`fences` does the same from the opening state of the program, and reads no steps: once for the program as it is, and where its
conditions hold, once for each program in which a flush or a fence is a `nop`, for that without all that are not needed, and where
this one breaks a condition, for those that lack one more of these after another. `mend` does it with each set of any size of
flushes and fences in the text, or in the text that a sheet says, in their order, up to the first that holds: with 2^N sets of N
instructions, where none does; and with --moves, where none does, so for each program in which one store stands elsewhere (there with all
instructions that may be put in first: if it fails with these, none does). Its report is without the count of states. With --sets, which
the program does not have, it is `more sets` where more than so many are to be tried of one program; and there, too, what may be put in is
first put in together.

`explain`, which the program does not have, writes what `check --explain-image` with these conditions says of a run of these steps: of
each crash, and with `--image` of an image of the state to which they lead. With `--report` it says what is wrong with these lines. Which
writes are enough alone it finds by closed sets, and then makes every list of steps of all kinds from the crash; where these lead to more
than 3,000 states, either answer is right. With --only it is that of a question. `answer`, which the program does not have either, writes
what is told of each question, or of this one, where a run leads to the state after these steps.

`enumerate` makes every list of Exec and Drain steps from the state to which the steps lead, for small programs: a state
that was met before is not gone through again, and a program that has states without end is never done. It writes each outcome in which they end, once. Persist and Settle steps
are not made: they change no coherent value, and no Exec or Drain asks for them, as long as the limits of the pending list
are not met. With --crash it writes each image that a crash may leave, at whatever step of whatever schedule it comes,
and each outcome in which recovery from one of these ends. A crash during recovery may leave more images; they are
written too, and recovery from them. In the outcomes of --crash the second value of a word is that of the image, as recovery
makes no Persist steps. With --cond it says first whether the condition holds in each outcome; the exit status is 1 where it
does not.

`compare` asks the built program for the broken pairs of so many random lists of steps, some more of them behind full
lines, markers and store buffers, and in so many random states for the closed set of each image, of values that
are no image, for the values of words in the images in which others have given values, and for what explains one of the images. Of so many random programs it asks for the whole report of `images`, most with random conditions, behind a random
list of steps, of which some end with a step that is refused; and of so many more for a trace, and in a random state for the steps
that it accepts and those that it refuses, names of images, the steps of a schedule, and what hunts and tallies say of
what crashes may leave; of more programs, which store, flush and store again, how hunts explain an image. It writes what differs,
and then how many answers of each kind there were; the exit status is 1 where anything differs, or where a kind came too seldom. What the model answers here
is by definition and brute force: it takes all pairs and all steps, all subsets of the pending list, and all memories that
it can become. `sets` asks the program for the images of each state of files of worked rows, and for the closed set of each
of these images; it writes each state whose images are others, each set that is not closed, that leaves another image where
its writes are applied one by one, or that is not the least, and how many sets there were.

`every-run` asks the program for `check` and `outcomes` of programs that come to one place by two ways, which leave nearly the
same there, and of so many small random programs, most with random conditions, some behind random steps: what holds, how many
ends there are, which instructions never ran, each image of all states, where they are asked for, and each outcome have to be
what every list of steps shows here. Where a condition fails the steps that are shown are made here and by `run` and `images`;
they have to lead to what is told, and to what explains an image, and none of their beginnings to a state that breaks the
condition of `--all`. Of some of these programs it asks which flushes and fences are needed, of all and of one alone. `small`
writes the text of one of these programs.
"""
