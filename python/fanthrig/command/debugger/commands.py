"""What may be said to the debugger, and what it answers."""

from __future__ import annotations

from typing import Callable, Mapping, NamedTuple

from ...conditions import ConditionError
from ...sitting import Sitting
from ...steps import NAMES
from ...telling import of_os_error
from .console import Console
from .looking import Looking
from .motion import Motion, Wrong
from .names import Names
from .stops import Stops


class Command(NamedTuple):
    """A command: its name, shorter ones, what it takes, what it does, and how it is obeyed. Enter
    alone repeats one that moves."""

    name: str
    short: str
    takes: str
    does: str
    obey: Callable[[str], str]
    repeats: bool = False


HELP = """\
Addresses are x3000, #12288 or a label; values also R0, PC or another register, and [x4000],
[LABEL+2] or [R6-1] for a word. A condition is R0 == 5, or several joined by and, or; numbers are
compared as signed. Commands may be shortened. Enter alone repeats a command that moves."""

BACK = """\
back [N]              N steps back, or one
back over [N]         over calls
back out              to before the call of the routine
back run              to the last breakpoint or watch, or to the start
back write ADDRESS    to the last step that wrote a word
back change REGISTER  to the last step that changed a register
back to N             to before step N
What came from outside comes again when you go on. Who sets something then begins another future;
what is typed then takes the place of the keys that were typed later."""


class Debugger:
    """A sitting and what is said to it."""

    def __init__(self, sitting: Sitting, labels: Mapping[str, int], console: Console) -> None:
        """A sitting with labels, and the program's keyboard and display."""
        self.sitting, self.names = sitting, Names(labels)
        self.stops = Stops(self.names)
        self.motion = Motion(sitting, self.names, self.stops, console)
        self.looking = Looking(sitting, self.names, self.stops)
        # What is to be done next: the prompt, the screen, or nothing more.
        self.ended, self.on_screen = False, False
        self._repeated = ""
        self.commands = {command.name: command for command in self._table()}
        self._by_short = {
            short: command for command in self.commands.values() for short in command.short.split()
        }

    def _table(self) -> list[Command]:
        """All commands, in the order in which help tells them."""
        go, look, stops = self.motion, self.looking, self.stops
        return [
            Command("step", "s", "[N]", "make a step, or N", go.step, True),
            Command("over", "o n next", "[N]", "the same, with calls as one step", go.over, True),
            Command("out", "f finish", "", "run until the routine has returned", go.out, True),
            Command("run", "r c continue", "[N]", "run on, or N steps", go.run, True),
            Command("back", "b", "...", "go back: help back", go.back, True),
            Command("goto", "g", "N", "go to before step N", go.goto),
            Command("where", "", "", "where the machine stands", lambda _: go.here()),
            Command("break", "br", "[ADDRESS] [if CONDITION]", "stop there", self._break),
            Command("watch", "w", "WHAT", "stop after a write, or a change", self._watch),
            Command("delete", "d", "[NUMBER...]", "delete breakpoints and watches", stops.delete),
            Command("list", "l", "[ADDRESS [N]]", "lines around PC, or from there on", look.code),
            Command("registers", "regs", "", "all registers", look.registers),
            Command("print", "p", "VALUE", "a register, a word or a label", look.print),
            Command("words", "x", "ADDRESS [N]", "words of memory", look.words),
            Command("set", "", "WHAT VALUE", "set a register or a word", look.set),
            Command("type", "t", "TEXT", "type keys for the program; \\n is Enter", look.type),
            Command("display", "", "", "all that the program has shown", look.display),
            Command("last", "", "[N]", "the last steps", look.last),
            Command("labels", "", "[BEGINNING]", "labels", look.labels),
            Command("save", "", "FILE", "save the sitting, to be replayed", look.save),
            Command("screen", "", "", "all in one screen", self._to_screen),
            Command("prompt", "", "", "leave the screen", self._to_prompt),
            Command("help", "h ?", "[COMMAND]", "this, or more of a command", self._help),
            Command("quit", "q exit", "", "end", self._quit),
        ]

    def obey(self, line: str) -> str:
        """Obeys a line, and answers what is to be told; ``Wrong`` says why it can't be obeyed."""
        name, _, rest = (line.strip() or self._repeated).partition(" ")
        if not name:
            return ""
        command = self._found(name)
        self._repeated = f"{command.name} {rest}" if command.repeats else ""
        try:
            return command.obey(rest.strip())
        except (ConditionError, ValueError) as error:
            raise Wrong(str(error)) from None
        except OSError as error:
            raise Wrong(of_os_error(error)) from None

    def _found(self, name: str) -> Command:
        """The command of a name, of a shorter one, or of the beginning of its name alone."""
        name = name.lower()
        exact = self.commands.get(name) or self._by_short.get(name)
        if exact is not None:
            return exact
        begun = [command for command in self.commands.values() if command.name.startswith(name)]
        if len(begun) == 1:
            return begun[0]
        if begun:
            either = ", ".join(command.name for command in begun)
            raise Wrong(f"{name!r} may be any of {either}")
        raise Wrong(f"{name!r} is no command: help tells all")

    def completed(self, before: str, begun: str) -> list[str]:
        """What the beginning of a word may become, by what stands before it in the line."""
        words = before.split()
        if not words or words[0] in ("help", "h", "?"):
            known = [*self.commands]
        elif words in (["back"], ["b"]):
            known = ["over", "out", "run", "write", "change", "to"]
        else:
            known = [*self.names.labels, *NAMES, "if", "and", "or"]
        return [word for word in known if word.lower().startswith(begun.lower())]

    def _break(self, text: str) -> str:
        """Sets a breakpoint, or tells all."""
        return self.stops.breakpoint(text) if text else self.stops.all_told()

    def _watch(self, text: str) -> str:
        """Sets a watch, or tells all."""
        return self.stops.watch(text) if text else self.stops.all_told()

    def _to_screen(self, _text: str) -> str:
        """Goes on in the screen."""
        self.on_screen = True
        return ""

    def _to_prompt(self, _text: str) -> str:
        """Goes on at the prompt."""
        self.on_screen = False
        return ""

    def _quit(self, _text: str) -> str:
        """Ends the debugger."""
        self.ended = True
        return ""

    def _help(self, text: str) -> str:
        """What may be said, or more of one command."""
        if not text:
            rows = [f"{c.name} {c.takes}".ljust(32) + c.does for c in self.commands.values()]
            return "\n".join([*rows, HELP])
        command = self._found(text)
        if command.name == "back":
            return BACK
        short = f"; also {', '.join(command.short.split())}" if command.short else ""
        return f"{command.name} {command.takes}".strip() + f": {command.does}{short}"
