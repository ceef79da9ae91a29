"""Which files are candidates of ``lc3 mark``: folders, links, special files, and strange names."""

from __future__ import annotations

import hashlib
import os
import socket
import subprocess
import unittest
from pathlib import Path
from unittest import mock

from fanthrig.marking.candidates import Found, candidate_file, found_in
from fanthrig.marking.regular import opened
from fanthrig.telling import FileError

from .command_support import ENVIRONMENT, PYTHON, process
from .mark_support import Marking, doubling, lines_of, names, of_kind, verdicts


class Walk(Marking):
    """Names of the command line, and the files of folders."""

    def setUp(self) -> None:
        super().setUp()
        self.top = self.folder / "students"
        self.top.mkdir()

    def found(self, *paths: Path, links: bool = False) -> list[tuple[str, str]]:
        """The files that are found, with why they are passed over."""
        files = found_in([str(path or self.top) for path in paths or (self.top,)], links)
        return [(os.path.relpath(file.name, self.top), file.passed_over) for file in files]

    def test_every_file_is_accounted_for(self) -> None:
        for name in "b/p.obj UPPER.OBJ b/c/d/deep.Obj notes.txt b/.obj obj .hid".split():
            self.file(f"students/{name}", doubling())
        (self.top / "empty").mkdir()
        (self.top / "folder.obj").mkdir()
        self.file("students/folder.obj/x.obj", doubling())
        other = "its name does not end in .obj, .bin or .hex"
        expected = [
            (".hid", other),
            ("UPPER.OBJ", ""),
            ("b/.obj", ""),
            ("b/c/d/deep.Obj", ""),
            ("b/p.obj", ""),
            ("empty", "the folder is empty"),
            ("folder.obj/x.obj", ""),
            ("notes.txt", "its name ends in .txt: --texts has it marked"),
            ("obj", other),
        ]
        self.assertEqual(self.found(), expected)
        lines = self.lines(self.top, code=0)
        marked, passed = of_kind("candidate", lines), of_kind("passed over", lines)
        self.assertEqual(verdicts(marked), ["right"] * 5)
        self.assertEqual([line["problem"] for line in passed], [w for _, w in expected if w])
        self.assertEqual(
            [os.path.relpath(line["candidate"], self.top) for line in lines[:-1]],
            [name for name, _ in expected],
        )
        table = self.mark(self.top).out.decode()
        self.assertIn("\n5 of 5 candidates right; 4 files passed over\n\npassed over:\n", table)
        self.assertIn(f"\n  {self.top}/notes.txt: its name ends in .txt", table)
        rows = self.mark("--csv", self.top).out.decode()
        self.assertIn(f'"{self.top}/notes.txt","","passed over"', rows)

    def test_a_named_file_has_any_name(self) -> None:
        path = self.file("students/program", doubling())
        self.assertEqual(names(self.marked(path, code=0)), [str(path)])

    def test_names_that_are_not_there(self) -> None:
        path = self.file("students/right.obj", doubling())
        for wrong, said in (
            (self.folder / "studnets", "no such file: check its name"),
            (path / "x", "a part of its path is no directory"),
            (self.folder / ("n" * 300), "the name is too long"),
        ):
            for form in ((), ("--json",), ("--csv",), ("--one",)):
                code, out, err = self.mark(*form, wrong)
                self.assertEqual((code, out), (3, b""))
                self.assertIn(f"lc3: {wrong}: ", err)
                self.assertIn(said, err)
            self.assertEqual(self.mark(path, wrong)[:2], (3, b""))

    def test_folders_without_a_candidate(self) -> None:
        code, out, err = self.mark(self.top)
        self.assertEqual((code, out, "nothing to mark: no file in it" in err), (3, b"", True))
        self.assertEqual(self.found(self.top, self.file("x", doubling()))[0], (".", ""))
        self.assertEqual(len(self.found(self.top, self.file("x", doubling()))), 2)
        self.file("students/bob/notes.txt", "I did not do it")
        right = self.file("ada/right.obj", doubling())
        self.assertEqual(self.mark(self.top, self.top)[:2], (3, b""))
        lines = self.lines(self.top, right.parent)
        marked = of_kind("candidate", lines)
        self.assertEqual(names(marked), [str(self.top), str(right)])
        self.assertEqual(verdicts(marked), ["refused", "right"])
        self.assertIn("no file in it, or in the folders in it", marked[0]["problem"])
        self.assertEqual(len(of_kind("passed over", lines)), 1)

    def test_symbolic_links(self) -> None:
        right = self.file("students/right.obj", doubling())
        for name, target in (
            ("l.obj", right),
            ("away.obj", self.file("model.obj", doubling())),
            ("none.obj", Path("nowhere")),
            ("notes", right),
            ("lost", Path("nowhere")),
            ("more", self.file("more/m.obj", doubling()).parent),
            ("circle.obj", Path("circle.obj")),
        ):
            (self.top / name).symlink_to(target)
        link = "it is a symbolic link: --follow-links has it followed"
        marked = self.marked(self.top)
        self.assertEqual(verdicts(marked), [*["refused"] * 4, "right"])
        self.assertEqual(sum(link in line["problem"] for line in marked), 4)
        self.assertEqual(dict(self.found())["more"], link)
        self.assertEqual(dict(self.found())["notes"], link)
        followed = self.marked("--follow-links", self.top)
        told = dict(zip((Path(name).name for name in names(followed)), verdicts(followed)))
        refused = {name for name, verdict in told.items() if verdict == "refused"}
        self.assertEqual(refused, {"none.obj", "circle.obj"})
        lost = dict(self.found(links=True))["lost"]
        self.assertEqual(lost, "it is a symbolic link that leads to nothing")
        self.assertEqual(set(told) - refused, {"away.obj", "l.obj", "m.obj", "right.obj"})
        # A link that is named is followed by the same rule.
        self.assertEqual(verdicts(self.marked(self.top / "l.obj", right)), ["refused", "right"])
        (line,) = self.marked("--follow-links", self.top / "l.obj", code=0)
        self.assertEqual(line["verdict"], "right")

    def test_nothing_but_links(self) -> None:
        right = self.file("students/right.obj", doubling())
        file, folder = self.folder / "file.obj", self.folder / "folder"
        file.symlink_to(right)
        folder.symlink_to(self.top)
        link = "nothing to mark: it is a symbolic link: --follow-links has it followed"
        for named in ([file], [folder], [folder, file], [folder, self.folder / "cases"]):
            done = self.mark(*named)
            self.assertEqual(done, (3, b"", f"lc3: {named[0]}: {link}\n"))
        for named in ([file], [folder], [folder, file]):
            followed = self.marked("--follow-links", *named, code=0)
            self.assertEqual(verdicts(followed), ["right"] * len(named))
        # Of many that are marked one by one each has its line.
        done = self.mark("--one", file)
        self.assertEqual((done.code, verdicts(lines_of(done.out))), (0, ["refused"]))

    def test_loops_of_links(self) -> None:
        self.file("students/a/x.obj", doubling())
        self.file("students/b/y.obj", doubling())
        for name, target in (("a/up", ".."), ("a/b", "../b"), ("b/a", "../a"), ("b/self", ".")):
            (self.top / name).symlink_to(target)
        found = self.found(links=True)
        self.assertEqual([name for name, why in found if not why], ["a/b/y.obj", "a/x.obj"])
        passed = {name: why for name, why in found if why}
        self.assertEqual(set(passed), {"a/b/a", "a/b/self", "a/up", "b"})
        self.assertEqual(set(passed.values()), {"the same folder as one that is walked already"})

    def test_hard_links_are_files(self) -> None:
        right = self.file("students/right.obj", doubling())
        os.link(right, self.top / "same.obj")
        first, second = self.marked(self.top, code=0)
        self.assertEqual(first["sha256"], second["sha256"])

    def test_folders_that_are_deep(self) -> None:
        deep = str(self.top)
        self.addCleanup(lambda: subprocess.run(["rm", "-r", str(self.top)]))
        for _ in range(1500):
            deep += "/d"
            os.mkdir(deep)
        Path(deep, "x.obj").write_bytes(doubling())
        self.assertEqual(len(self.marked(self.top, code=0)), 1)

    @unittest.skipIf(os.geteuid(), "only root can become another user")
    def test_no_permission(self) -> None:
        self.file("students/closed/x.obj", doubling()).parent.chmod(0)
        self.file("students/secret.obj", doubling()).chmod(0)
        # Its names can be read, and nothing else of it: some of them may be folders.
        listed = self.file("students/listed/notes", doubling()).parent
        listed.chmod(0o744)
        right = self.file("students/right.obj", doubling())
        self.folder.chmod(0o755)
        os.seteuid(65534)
        try:
            marked = self.marked(self.top)
            alone = self.mark(self.top / "closed/x.obj")
        finally:
            os.seteuid(0)
            (self.top / "closed").chmod(0o755)
        expected = [self.top / "closed", listed / "notes", right, self.top / "secret.obj"]
        self.assertEqual(names(marked), list(map(str, expected)))
        self.assertEqual(verdicts(marked), ["refused", "refused", "right", "refused"])
        for line in (*marked[:2], marked[3]):
            self.assertIn("permission denied", line["problem"])
        self.assertEqual((alone.code, "permission denied" in alone.err), (3, True))


class Special(Marking):
    """What is no regular file, and names that are no text or work on terminals."""

    def special(self) -> dict[str, Path]:
        """One of each, in a folder."""
        folder = self.folder / "special"
        folder.mkdir()
        os.mkfifo(folder / "fifo.obj")
        with socket.socket(socket.AF_UNIX) as open_socket:
            open_socket.bind(str(folder / "socket.obj"))
        places = {"FIFO": folder / "fifo.obj", "socket": folder / "socket.obj"}
        for place in ("/dev/zero", "/dev/tty", "/dev/full"):
            places[f"device{place}"] = Path(place)
        return places

    def test_they_are_refused_at_once(self) -> None:
        for kind, path in self.special().items():
            for jobs in (1, 2):
                # A process of its own: one that hangs fails the test.
                right = self.file("right.obj", doubling())
                arguments = ("mark", "--cases", self.cases, "--json", "--jobs", jobs)
                done = process(*arguments, path, right)
                marked = of_kind("candidate", lines_of(done.out))
                self.assertEqual((done.code, verdicts(marked)), (1, ["refused", "right"]))
                self.assertIn(f"it is a {kind.partition('/')[0]}", marked[0]["problem"])
                self.assertIsNone(marked[0]["sha256"])

    def test_they_are_refused_in_folders(self) -> None:
        folder = self.special()["FIFO"].parent
        os.mkfifo(folder / "fifo.txt")
        self.file("special/right.obj", doubling())
        lines = self.lines(folder)
        self.assertEqual(verdicts(of_kind("candidate", lines)), ["refused", "right", "refused"])
        (passed,) = of_kind("passed over", lines)
        self.assertEqual(Path(passed["candidate"]).name, "fifo.txt")

    def test_they_are_refused_beside_the_candidates(self) -> None:
        right = self.file("right.obj", doubling())
        for kind, path in self.special().items():
            said = f"lc3: {path}: refused: it is a {kind.partition('/')[0]}, "
            for option in ("--with", "--data", "--cases"):
                # The last of an option given twice is the one that counts.
                done = process("mark", "--cases", self.cases, option, path, right)
                self.assertEqual((done.code, done.out, done.err[: len(said)]), (3, b"", said))

    def test_pipes_of_the_shell_beside_the_candidates(self) -> None:
        right, data = self.file("right.obj", doubling()), self.file("data.obj", b"\x40\0\0\7")
        lc3_mark = f"{PYTHON[0]} -m fanthrig mark --cases {self.cases}"
        for pipe in (f"--data <(sleep 0.1; cat {data})", f"--data /dev/stdin < <(cat {data})"):
            line = f"{lc3_mark} {right} {pipe}"
            ended = subprocess.run(["bash", "-c", line], env=ENVIRONMENT, capture_output=True)
            self.assertEqual((ended.returncode, ended.stderr), (0, b""))

    def test_one_that_takes_a_file_s_place(self) -> None:
        path = self.file("right.obj", doubling())
        usual = os.stat(path)
        path.unlink()
        others = [self.special()["FIFO"], self.folder / "link.obj", self.folder / "folder.obj"]
        others[1].symlink_to("/dev/zero")
        others[2].mkdir()
        for other in others:
            other.rename(path)
            # The look before the opening has seen the file as it was.
            with mock.patch("os.stat", return_value=usual), self.assertRaises(FileError):
                with opened(str(path), links=False):
                    self.fail("it is opened")
            path.rename(other)

    def test_the_hash_is_that_of_the_file(self) -> None:
        for content, known in (
            (doubling(), True),
            (b"\x30", True),
            (b"hello, this is text", True),
            (b"\x30\x00" * 65537, True),
            (b"\x30\x00" * 65538, False),
        ):
            (line,) = self.marked(self.file("x", content), code=0 if content == doubling() else 1)
            expected = hashlib.sha256(content).hexdigest() if known else None
            self.assertEqual(line["sha256"], expected)

    def test_long_files_are_not_read(self) -> None:
        path = self.file("x.obj", "")
        os.truncate(path, 1 << 40)
        self.assertEqual(len(candidate_file(str(path), False)), 131076)
        self.assertIn("refused (18)", self.marked(path)[0]["problem"])

    def test_names_that_collide(self) -> None:
        same = [self.file(f"{n}/double.obj", doubling(n)) for n in (1, 2)]
        first, second = self.marked(*same)
        self.assertEqual((first["candidate"], second["candidate"]), tuple(map(str, same)))
        self.assertEqual((first["verdict"], second["verdict"]), ("wrong display", "right"))
        twice = self.marked(same[1], same[1], code=0)
        self.assertEqual(twice[0], twice[1])
        self.assertEqual(found_in([str(same[0])] * 2, False), [Found(str(same[0]))] * 2)

    def test_names_of_options(self) -> None:
        name = "--any-halt"
        self.file(name, doubling(2, "RTI"))
        self.file("cases/one.expected", "aa")
        self.file("cases/two.expected", "\n\n")
        for given, code in ((f"{name} -- {name}", 0), (f"-- {name}", 1), (f"./{name}", 1)):
            done = process("mark", "--cases", self.cases, "--csv", *given.split(), cwd=self.folder)
            self.assertEqual(done.code, code)
            self.assertIn('any-halt","one",', done.out.decode())

    def test_names_that_work_on_terminals(self) -> None:
        strange = self.file("a\n\x1b[2J\r=b.obj", doubling(1))
        self.file("odd/\x1b]0;x\x07.txt", "")
        self.file("odd/\x9b2J.obj", "this is text")
        for form in ((), ("--json",), ("--csv",), ("--one",)):
            done = self.mark(*form, strange, *([] if form == ("--one",) else [self.folder / "odd"]))
            for sign in "\x1b\r\x07\x9b":
                self.assertNotIn(sign, done.out.decode())
                self.assertNotIn(sign, done.err)
        self.assertIn("a\\n\\x1b[2J\\r=b.obj", self.mark(strange).out.decode())
        self.assertEqual(self.marked(strange)[0]["candidate"], str(strange))
        err = self.mark(f"{strange}.none").err
        self.assertEqual((err.count("\n"), err.count("\x1b"), "\\x1b[2J" in err), (1, 0, True))


if __name__ == "__main__":
    unittest.main()
