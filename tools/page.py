"""Makes one file of modules of JavaScript, for hosts or with all that the page is made of.

    python3 tools/page.py module OUT.mjs
    python3 tools/page.py page LIBRARY.wasm OUT.html

A browser that opens a page from a disk loads neither a module nor a library that lies beside it. So
the modules of page/ are put one behind the other in the order in which they need each other, each
as a function of its own that answers what it exports; the library and the examples are written in
base64. The page's Content-Security-Policy names its script and its style by
their SHA-256 and allows nothing else: the browser itself sees to it that the page loads nothing and
sends nothing.
"""

from __future__ import annotations

import base64
import hashlib
import re
import sys
from pathlib import Path

ROOT = Path(__file__).resolve().parent.parent
PAGE = ROOT / "page"
EXAMPLES = ("hello", "echo", "sieve", "tasks", "examiner", "answers")

FROM = re.compile(r'^(?:import|export) (\{[^}]*\}) from "(\.[^"]+)";$', re.MULTILINE)
LISTED = re.compile(r'^export (\{[^}]*\}) from', re.MULTILINE)
EXPORTED = re.compile(
    r"^export (?=(?:async )?(?:const|class|function\*?) ([\w$]+))", re.MULTILINE
)


class PageError(Exception):
    """Modules that can't be one file."""


def _name(path: Path) -> str:
    """The name of a module inside of the file."""
    return "$" + path.stem


class Bundle:
    """Modules in the order in which they need each other."""

    def __init__(self, first: Path) -> None:
        """The module, and all that it imports."""
        self.texts: dict[Path, str] = {}
        self._add(first.resolve(), ())

    def _add(self, path: Path, above: tuple[Path, ...]) -> None:
        """Adds a module behind those that it imports."""
        if path in above:
            raise PageError(f"{path} imports itself")
        if path in self.texts:
            return
        if _name(path) in map(_name, self.texts):
            raise PageError(f"two modules have the name {path.name}")
        text = path.read_text(encoding="utf-8")
        for listed, other in FROM.findall(text):
            target = (path.parent / other).resolve()
            self._add(target, (*above, path))
            missing = set(re.findall(r"[\w$]+", listed)) - set(self.exports(target))
            if missing:
                raise PageError(f"{path} imports {missing}, which {target} has not")
        self.texts[path] = text

    def exports(self, path: Path) -> list[str]:
        """The names that a module exports, its own and those of others."""
        text = self.texts[path]
        others = [name for listed in LISTED.findall(text) for name in re.findall(r"[\w$]+", listed)]
        return [*EXPORTED.findall(text), *others]

    def script(self) -> str:
        """All modules as one script."""
        script = "\n".join(self._function(path, text) for path, text in self.texts.items())
        if re.search(r"^(import|export)\b|</script|<!--", script, re.MULTILINE):
            raise PageError("an import, an export or the end of a script is left")
        return script

    def _function(self, path: Path, text: str) -> str:
        """A module as a function that is called at once and answers what the module exports."""

        def taken(found: re.Match[str]) -> str:
            """The line that stands for an import."""
            return f"const {found[1]} = {_name(Path(found[2]))};"

        answered = ", ".join(self.exports(path))
        text = EXPORTED.sub("", FROM.sub(taken, text))
        return f"const {_name(path)} = (() => {{\n{text}return {{ {answered} }};\n}})();\n"


def module() -> str:
    """The module for hosts."""
    first = (PAGE / "lib/fanthrig.mjs").resolve()
    bundle = Bundle(first)
    names = ", ".join(bundle.exports(first))
    return f"{bundle.script()}\nexport const {{ {names} }} = {_name(first)};\n"


def _digest(text: str) -> str:
    """The source of a policy that allows a text and no other."""
    return "'sha256-" + base64.b64encode(hashlib.sha256(text.encode()).digest()).decode() + "'"


def _data(name: str, path: Path) -> str:
    """A file inside of the page."""
    text = base64.b64encode(path.read_bytes()).decode()
    return f'<script type="text/plain" id="{name}">{text}</script>\n'


def page(library: Path) -> str:
    """The page as one file."""
    script = "\n" + Bundle(PAGE / "ui/main.mjs").script()
    style = "\n" + (PAGE / "page.css").read_text(encoding="utf-8")
    policy = (
        f"default-src 'none'; script-src {_digest(script)} 'wasm-unsafe-eval'; "
        f"style-src {_digest(style)}; img-src data:; base-uri 'none'; form-action 'none'"
    )
    data = _data("library", library)
    data += "".join(_data(f"example-{name}", ROOT / f"examples/{name}.obj") for name in EXAMPLES)
    html = (PAGE / "index.html").read_text(encoding="utf-8")
    for place, text in {
        "@POLICY@": policy,
        "@VERSION@": (ROOT / "VERSION").read_text(encoding="utf-8").strip(),
        '<link rel="stylesheet" href="page.css">': f"<style>{style}</style>",
        '<script type="module" src="ui/main.mjs"></script>': (
            f'{data}<script type="module">{script}</script>'
        ),
    }.items():
        if html.count(place) != 1:
            raise PageError(f"index.html has {place} {html.count(place)} times")
        html = html.replace(place, text)
    return html


def main(words: list[str]) -> int:
    """Obeys a command line."""
    if len(words) == 2 and words[0] == "module":
        text = module()
    elif len(words) == 3 and words[0] == "page":
        text = page(Path(words[1]))
    else:
        print(__doc__, file=sys.stderr)
        return 2
    out = Path(words[-1])
    out.parent.mkdir(parents=True, exist_ok=True)
    out.write_text(text, encoding="utf-8")
    return 0


if __name__ == "__main__":
    try:
        sys.exit(main(sys.argv[1:]))
    except PageError as error:
        sys.exit(f"tools/page.py: {error}")
