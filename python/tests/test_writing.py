"""Files that are written whole or not at all."""

from __future__ import annotations

import errno
import os
import resource
import tempfile
import unittest
from pathlib import Path

from fanthrig import Sitting
from fanthrig.writing import write_file

from .support import ECHO


class Writing(unittest.TestCase):
    """New files, old files, links, devices, and a disk that is full."""

    def setUp(self) -> None:
        folder = tempfile.TemporaryDirectory()
        self.addCleanup(folder.cleanup)
        self.folder = Path(folder.name)
        self.path = self.folder / "sitting.json"

    def names(self) -> list[str]:
        """What is in the folder."""
        return sorted(os.listdir(self.folder))

    def content_and_mode(self) -> tuple[bytes, int]:
        """What the file holds, and who may do what with it."""
        return self.path.read_bytes(), self.path.stat().st_mode & 0o777

    def full(self) -> None:
        """Has the disk full after a hundred bytes, until the test is over."""
        usual = resource.getrlimit(resource.RLIMIT_FSIZE)
        self.addCleanup(resource.setrlimit, resource.RLIMIT_FSIZE, usual)
        resource.setrlimit(resource.RLIMIT_FSIZE, (100, usual[1]))

    def test_new_and_old_files(self) -> None:
        mask = os.umask(0o027)
        self.addCleanup(os.umask, mask)
        write_file(self.path, b"one")
        self.assertEqual(self.content_and_mode(), (b"one", 0o640))
        self.path.chmod(0o606)
        write_file(str(self.path), b"two")
        self.assertEqual(self.content_and_mode(), (b"two", 0o606))
        self.assertEqual(self.names(), ["sitting.json"])

    def test_a_full_disk_leaves_the_old_file(self) -> None:
        sitting = Sitting(ECHO)
        sitting.save(self.path)
        before = self.path.read_bytes()
        sitting.type("abc")
        sitting.run(1000)
        self.full()
        with self.assertRaises(OSError) as caught:
            sitting.save(self.path)
        error = caught.exception
        self.assertEqual((error.errno, error.filename), (errno.EFBIG, str(self.path)))
        self.assertEqual((self.path.read_bytes(), self.names()), (before, ["sitting.json"]))

    def test_links(self) -> None:
        self.path.write_bytes(b"one")
        symbolic, hard = self.folder / "symbolic", self.folder / "hard"
        symbolic.symlink_to("sitting.json")
        write_file(symbolic, b"two")
        self.assertEqual((symbolic.is_symlink(), self.path.read_bytes()), (True, b"two"))
        os.link(self.path, hard)
        for path in (hard, self.path, symbolic):
            write_file(path, path.name.encode())
            contents = {p.read_bytes() for p in (self.path, symbolic, hard)}
            self.assertEqual((contents, self.path.stat().st_nlink), ({path.name.encode()}, 2))
        nowhere = self.folder / "nowhere"
        nowhere.symlink_to("new")
        write_file(nowhere, b"three")
        self.assertEqual((self.folder / "new").read_bytes(), b"three")

    def test_what_is_no_regular_file(self) -> None:
        write_file("/dev/null", b"one")
        with self.assertRaises(OSError) as caught:
            write_file("/dev/full", b"one")
        self.assertEqual((caught.exception.errno, caught.exception.filename),
                         (errno.ENOSPC, "/dev/full"))
        with self.assertRaises(IsADirectoryError) as directory:
            write_file(self.folder, b"one")
        self.assertEqual(directory.exception.filename, str(self.folder))
        pipe = self.folder / "pipe"
        os.mkfifo(pipe)
        reader = os.open(pipe, os.O_RDONLY | os.O_NONBLOCK)
        write_file(pipe, b"one")
        self.assertEqual(os.read(reader, 9), b"one")
        os.close(reader)

    def test_folders_that_are_not_there(self) -> None:
        with self.assertRaises(FileNotFoundError) as caught:
            write_file(self.folder / "none" / "file", b"one")
        self.assertEqual(caught.exception.filename, str(self.folder / "none" / "file"))


if __name__ == "__main__":
    unittest.main()
