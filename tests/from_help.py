"""Compares the manual page and the completions, which tools/from-help makes, with what the program's --help says: as man shows the
page, and as bash, zsh and fish complete what is typed. What needs a shell or a man that is absent counts as not run. The help is read
here by a reader of its own.
"""

from __future__ import annotations

import dataclasses
import os
import re
import shutil
import time
from collections.abc import Callable, Iterator

from tests.harness import TOP, Case, Checks, Px86, Terminal, absent, commands_of, differs, run, unlike

AT_LEAST = {"": 225}
NEEDS_PROGRAM = True
KINDS = "manual", "bash", "zsh", "fish"


def made(px86: Px86, kind: str) -> str:
    """The path of a manual page or a completion, as it is made of the program's help."""
    done = run([f"{TOP}/tools/from-help", px86.path, kind])
    if done.status:
        raise AssertionError(f"tools/from-help made no {kind}: {done.err[:300]}")
    return px86.keep(f"px86.{kind}", done.written)


# --- the help


class Help:
    """What the program's help says: its texts by command, of all under no name, and the names of commands and options in them."""

    def __init__(self, px86: Px86) -> None:
        self.commands = commands_of(px86)
        self.texts = {it: px86(*it.split(), "--help").out for it in ["", *self.commands]}
        listed = {it: text.partition("Options:\n")[2].partition("\n\n")[0] + " " for it, text in self.texts.items()}
        # (What stands in brackets is a default, and may name options too.)
        rows = {it: re.sub(r"\[[^\]]*\]", "", text) for it, text in listed.items()}
        self.options = {it: set(re.findall(r"(?:^ +|, )(--?[A-Za-z][a-z-]*)(?=[ ,])", text, re.M)) for it, text in rows.items()}
        # The commands of which FILE may be there again.
        self.take_several = [it for it, text in self.texts.items() if re.search(r"^Usage: .* <FILE>\.\.\.$", text, re.M)]
        self.takes_value = {it: set(re.findall(r"(--[a-z-]+) <", text)) for it, text in listed.items()}


# --- the manual page


def words_of_help(text: str) -> list[str]:
    """The words of a page of help, without the headings that the manual does not have."""
    summary, _, rest = text.partition("\n")
    rest = re.sub(r"^(Arguments|Options):$|^Usage:", "", rest, flags=re.M)
    return re.sub(r"<([A-Z.]+)>", r"\1", f"{summary}. {rest}").split()


def sections_of(shown: str) -> dict[str, list[str]]:
    """The sections of a page as it is shown, by their headings; each command is one of COMMANDS."""
    sections: dict[str, list[str]] = {}
    heading = ""
    for line in shown.splitlines():
        if re.match(r"( {3})?\S", line) and "(1)" not in line:
            heading = line.strip()
            sections[heading] = []
        elif heading:
            sections[heading].append(line)
    return sections


def names_in(lines: list[str]) -> set[str]:
    return {name for line in lines if line.startswith("       -") for name in re.findall(r"(?:^ +|, )(--?[A-Za-z][a-z-]*)", line)}


def page(text: Help, shown: str) -> Checks:
    """What the manual page shows is what the help says."""
    sections = sections_of(shown)
    listed = re.findall(r"^ {7}([a-z]+)", "\n".join(sections.get("COMMANDS", [])), re.M)
    yield "its list of commands", unlike(listed, text.commands)
    yield "options of all", unlike(names_in(sections.get("OPTIONS", [])), text.options[""])
    described = [it.removeprefix("px86 ") for it in sections if it.startswith("px86 ")]
    yield "commands that it describes", unlike(described, text.commands)
    for command in text.commands:
        lines = sections.get(f"px86 {command}", [])
        yield f"options of {command}", unlike(names_in(lines), text.options[command])
        yield f"all words of {command}", differs("\n".join(" ".join(lines).split()), "\n".join(words_of_help(text.texts[command])))


def manual(px86: Px86) -> Checks:
    path, options = made(px86, "manual"), ["--no-hyphenation", "--no-justification", "--encoding=ascii", "--local-file"]
    if not shutil.which("man") or not shutil.which("groff"):
        yield from absent("man or groff", ["what groff warns of", *page(Help(px86), "")])
        return
    warned = run(["groff", "-man", "-Tutf8", "-ww", "-z", path])
    yield "what groff warns of", unlike((warned.status, warned.err), (0, ""))
    yield from page(Help(px86), run(["man", *options, path], env=os.environ | {"MANWIDTH": "300"}).out)


# --- what is made of other help


def making(px86: Px86) -> Checks:
    """What is made depends on the help alone, and help of another form is refused."""
    elsewhere = {"PATH": os.environ["PATH"], "LC_ALL": "C", "PYTHONHASHSEED": "7", "COLUMNS": "40", "TZ": "Asia/Tokyo"}
    odd = px86.keep("odd", "#!/bin/sh\nprintf 'It\\n\\nUsage: it\\n\\nOptions:\\n  +x  one\\n'\n")
    os.chmod(odd, 0o755)
    for kind in KINDS:
        again = run([f"{TOP}/tools/from-help", px86.path, kind], cwd=px86.folder, env=elsewhere)
        with open(made(px86, kind), "rb") as file:
            yield f"{kind}: made again, elsewhere", unlike(again.written, file.read())
        done = run([f"{TOP}/tools/from-help", odd, kind])
        yield f"{kind}: help of another form", unlike((done.status, done.out), (1, ""))


# --- shells

# What a shell offers of what is typed, and the words that one completes to.
Offered = Callable[[str], set[str]]
Completed = Callable[[str], list[str]]
SHOW = "px86() { for word in px86 \"$@\"; do printf '<%s>' \"$word\"; done; echo; }"


@dataclasses.dataclass
class Shell:
    """An interactive shell at a terminal of its own, with the function SHOW. It makes the file `told`, if there is to be one, behind each
    completion."""

    window: Terminal
    told: str = ""
    count: int = 0

    def types(self, keys: str) -> str:
        """Types these keys, and then a command that is known by what it writes. Answers what was shown until then."""
        before, tab, behind = keys.rpartition("\t")
        if tab:
            self.window.types(before + tab)
            self.wait_for_completion()
        self.count += 1
        self.window.types(f"{behind}echo en'd'{self.count}\r")
        return self.window.reads(lambda shown: f"end{self.count}" in shown)

    def wait_for_completion(self) -> None:
        """Waits until the shell has done what the tab asks for, where it says so in `told`: zsh offers nothing if it finds keys behind
        the tab already typed."""
        until = time.monotonic() + 60
        while self.told and not os.path.exists(self.told) and time.monotonic() < until:
            time.sleep(0.002)
        if self.told and os.path.exists(self.told):
            os.remove(self.told)

    def completed(self, keys: str) -> list[str]:
        shown = self.types(f"{keys}\t\r")
        return re.findall(r"<([^<>]*)>", (re.findall(r"^((?:<[^<>]*>)+)\r?$", shown, re.M) or [""])[-1])


def opened(px86: Px86, *words: str) -> Terminal:
    """A terminal with a shell, in the folder."""
    names = {"PATH": os.environ["PATH"], "HOME": px86.folder, "TERM": "dumb", "LC_ALL": "C.UTF-8"}
    return Terminal(words, "rows 200 columns 300", cwd=px86.folder, env=names)


def typed(command: str, *words: str) -> str:
    return " ".join(["px86", *([command] if command else []), *words])


def completions(text: Help, offered: Offered, completed: Completed) -> Checks:
    """What a shell offers and completes is what the help says."""
    yield "commands", unlike(offered("px86 ") - {"-", "--"}, set(text.commands))
    yield "commands of several files", unlike(text.take_several, ["check"])
    for command in text.texts:
        yield f"options of {command or 'all'}", unlike(offered(typed(command, "-")), text.options[command])
        if value := sorted(text.takes_value[command] - {"--steps"}):
            found = [it for it in value if offered(typed(command, it, "fir"))]
            yield f"values of {command} for which something is offered", unlike(found, [])
    for command in text.commands:
        yield f"FILE of {command}", unlike(completed(typed(command, "fir")), ["px86", command, "first.litmus"])
        if command in text.take_several:
            wanted = ["px86", command, "first.litmus", "second.litmus"]
            yield f"another FILE of {command}", unlike(completed(typed(command, "first.litmus", "sec")), wanted)
        if "--steps" in text.options[command]:
            wanted = ["px86", command, "--steps", "third.steps"]
            yield f"--steps of {command}", unlike(completed(typed(command, "--steps", "thi")), wanted)
    yield "--steps=", unlike(completed("px86 run --steps=thi"), ["px86", "run", "--steps=third.steps"])
    yield "a beginning", unlike(completed("px86 outc"), ["px86", "outcomes"])
    yield "behind --explain", unlike(completed("px86 --explain outc"), ["px86", "--explain", "outcomes"])


BASH_OFFERS = r""". "$1"
COMP_WORDS=($2)
[[ $2 != *' ' ]] || COMP_WORDS+=('')
COMP_CWORD=$((${#COMP_WORDS[@]} - 1)) COMPREPLY=()
_px86
printf '%s\n' "${COMPREPLY[@]}"
"""


def bash(px86: Px86, text: Help) -> Checks:
    path, said = made(px86, "bash"), []

    def offered(keys: str) -> set[str]:
        done = run(["bash", "--norc", "--noprofile", "-c", BASH_OFFERS, "bash", path, keys], cwd=px86.folder)
        said.append(done.err)
        return set(done.out.split("\n")) - {""} - (text.options[""] if keys == "px86 " else set())

    with opened(px86, "bash", "--norc", "--noprofile", "-i") as window:
        shell = Shell(window)
        shell.types(f"PS1=; bind 'set enable-bracketed-paste off'; . {path}\r{SHOW}\r")
        yield from completions(text, offered, shell.completed)
    yield "what it says", unlike("".join(said), "")


# Writes what is offered to a file, and makes another behind each completion.
ZSH_OFFERS = r"""OFFERS_TOLD=$PWD/told
compadd() {
    local -a told
    [[ " ${@[1,(i)(-|--)]}" == *\ -(O|A|D)\ * ]] || { builtin compadd -A told "$@"; print -rl -- $told >>offered; }
    builtin compadd "$@"
}
complete-and-tell() { zle expand-or-complete; : >$OFFERS_TOLD }
zle -N complete-and-tell
bindkey '^I' complete-and-tell
fpath=($PWD/functions $fpath)
autoload -Uz compinit
compinit -D -u
LISTMAX=1000
setopt no_beep
"""


def zsh(px86: Px86, text: Help) -> Checks:
    os.mkdir(f"{px86.folder}/functions")
    shutil.copy(made(px86, "zsh"), f"{px86.folder}/functions/_px86")
    px86.keep("offers.zsh", f"{ZSH_OFFERS}{SHOW}\n")

    def offered(keys: str) -> set[str]:
        path = px86.keep("offered", "")
        shell.types(f"{keys}\t\x15")
        with open(path, encoding="ascii") as file:
            return {it.rstrip("=") for it in file.read().split("\n")} - {""}

    with opened(px86, "zsh", "-f", "-i") as window:
        shell = Shell(window, f"{px86.folder}/told")
        shell.types("PS1=; unsetopt zle_bracketed_paste prompt_cr prompt_sp; zle_bracketed_paste=(); source ./offers.zsh\r")
        yield from completions(text, offered, shell.completed)


def fish(px86: Px86, text: Help) -> Checks:
    path = made(px86, "fish")

    def asked(keys: str) -> list[str]:
        words = ["fish", "--no-config", "-c", "source $argv[1]; complete -C $argv[2]", path, keys]
        done = run(words, cwd=px86.folder, env=os.environ | {"HOME": px86.folder})
        return [it.split("\t")[0] for it in (done.out + done.err).splitlines()]

    yield from completions(text, lambda keys: set(asked(keys)), lambda keys: keys.split()[:-1] + asked(keys))


def in_shell(px86: Px86, name: str, asks: Callable[[Px86, Help], Checks]) -> Checks:
    """What a shell completes, in a folder with three files."""
    text = Help(px86)
    for file in "first.litmus", "second.litmus", "third.steps":
        px86.keep(file, "")
    checks = asks(px86, text) if shutil.which(name) else absent(name, completions(text, lambda _: set(), lambda _: []))
    yield from checks


def cases() -> Iterator[Case]:
    """All cases."""
    yield Case("the manual page", manual)
    yield Case("what is made depends on the help alone", making)
    yield from (Case(f"completion in {asks.__name__}", in_shell, asks.__name__, asks) for asks in (bash, zsh, fish))
