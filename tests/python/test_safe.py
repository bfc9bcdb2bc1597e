"""How names and files that others chose are shown, opened and written."""
from __future__ import annotations

import os
import stat
import unittest
from unittest import mock

from engine_support import folder
from relint.base import safe
from relint.base.safe import OpenError, WriteError, replace_file


class Texts(unittest.TestCase):
    """Texts that no terminal and no build server obeys."""

    def test_what_does_not_show_itself(self) -> None:
        for text, shown in (
            ("a\x1b[31m\nb", "a\\x1b[31m\\nb"),
            ("\x85\x9b\x7f", "\\x85\\x9b\\x7f"),
            ("\u202eab\u2066", "\\u202eab\\u2066"),
            ("\udc80\u200b\ufeff", "\\udc80\\u200b\\ufeff"),
            ("\u3164\U000e0100", "\\u3164\\U000e0100"),
            ("\xfc \u4e2d", "\xfc \u4e2d"),
        ):
            self.assertEqual(safe.visible(text), shown)

    def test_commands_of_build_servers(self) -> None:
        self.assertEqual(safe.visible("a ##[error]b ##vso[x]"), "a #\\x23[error]b #\\x23vso[x]")
        self.assertEqual(safe.visible("# ## a[b]"), "# ## a[b]")
        self.assertEqual(safe.line(" ::set-output name=a::b"), " \\x3a:set-output name=a::b")
        self.assertEqual(safe.line("a::b"), "a::b")


class Files(unittest.TestCase):
    """Files that take the place of others."""

    def test_a_new_file_and_one_in_the_place_of_another(self) -> None:
        with folder({"old.sh": "old"}) as here:
            (here / "old.sh").chmod(0o750)
            self.assertEqual((replace_file("old.sh", b"new"), replace_file(str(here / "made"), b"made")), ([], []))
            self.assertEqual(((here / "old.sh").read_bytes(), (here / "made").read_bytes()), (b"new", b"made"))
            self.assertEqual(stat.S_IMODE((here / "old.sh").stat().st_mode), 0o750)
            self.assertEqual(sorted(os.listdir()), ["made", "old.sh"])

    def test_what_lies_outside_or_behind_a_link(self) -> None:
        with folder({"kept/secret": "secret", "tree/a": "a"}) as here:
            os.symlink("../kept/secret", "tree/file")
            os.symlink("../kept", "tree/folder")
            os.symlink("../kept/none", "tree/lost")
            for path in ("tree/file", "tree/folder/secret", "tree/folder/new", "tree/lost", f"{here}/tree/folder/new", "tree"):
                self.assertRaises(WriteError, replace_file, path, b"new")
            os.chdir("tree")
            for path in ("file", "folder/secret", "folder/new", "lost", "../made", "", ".", "a\0b"):
                self.assertRaises(WriteError, replace_file, path, b"new")
            self.assertEqual((os.listdir("../kept"), (here / "kept/secret").read_text()), (["secret"], "secret"))
            self.assertEqual(safe.replace_named("../made", b"made"), [])

    def test_pipes_and_devices_are_refused(self) -> None:
        with folder({}):
            os.mkfifo("pipe")
            for path in ("pipe", "none/file"):
                self.assertRaises(WriteError, replace_file, path, b"new")
            self.assertRaises(WriteError, safe.replace_named, os.devnull, b"new")
            self.assertEqual(os.listdir(), ["pipe"])

    def test_a_full_disk_keeps_the_old_file(self) -> None:
        with folder({"old": "old"}) as here:
            with mock.patch.object(os, "fsync", side_effect=OSError(28, "No space left on device")):
                self.assertRaisesRegex(WriteError, "No space left", replace_file, "old", b"new")
            self.assertEqual(((here / "old").read_text(), os.listdir()), ("old", ["old"]))

    def test_one_that_changed_meanwhile(self) -> None:
        with folder({"old": "changed"}) as here:
            for path, was in (("old", b"old"), ("old", b"change"), ("none", b"old")):
                self.assertRaisesRegex(WriteError, "changed meanwhile", replace_file, path, b"new", ".", was)
            self.assertEqual(((here / "old").read_text(), os.listdir()), ("changed", ["old"]))

    def test_other_names_of_the_file_are_told(self) -> None:
        with folder({"old": "old"}) as here:
            os.link("old", "other")
            self.assertEqual(replace_file("old", b"new"), ["1 other name of the file (hard links) keep the old text"])
            self.assertEqual(((here / "old").read_text(), (here / "other").read_text()), ("new", "old"))


class Opened(unittest.TestCase):
    """Files that are opened by a name that others wrote."""

    def refused(self, why: str, path: str, *folders: str) -> None:
        with self.assertRaisesRegex(OpenError, why):
            safe.read_below(path, folders or safe.HERE, 10)

    def test_regular_files_below_the_folder(self) -> None:
        with folder({"src/a.py": "a", "b.py": "b"}) as here:
            for path, folders in (("src/a.py", "."), ("./src//a.py", "."), (f"{here}/src/a.py", "."), ("src/../src/a.py", "."),
                                  ("src/a.py", "src"), ("src/a.py", "src/a.py"), (f"{here}/src/a.py", str(here)),
                                  ("./src/a.py", "src/a.py")):
                self.assertEqual(safe.read_below(path, [folders]), b"a")
            os.chdir("src")
            self.assertEqual(safe.read_below("../b.py", [".", ".."]), b"b")

    def test_others(self) -> None:
        with folder({"src/a.py": "a", "long": "a" * 11, "secret": "secret"}) as here:
            os.symlink("a.py", "src/link.py")
            os.symlink(".", "src/loop")
            os.symlink("src", "folder")
            os.mkfifo("pipe")
            self.refused("it is a link", "src/link.py")
            self.refused("a link or no folder", "src/loop/a.py")
            self.refused("a link or no folder", "folder/a.py")
            self.refused("no regular file", "pipe")
            self.refused("no regular file", "src")
            self.assertRaisesRegex(OpenError, "no regular file", safe.read_named, "src", 10)
            self.assertEqual(safe.read_named("src/link.py", 10), b"a")
            self.refused("more than 10 bytes", "long")
            self.refused("isn't there", "none")
            self.refused("outside of src", "src/../secret", "src")
            for path in ("/proc/self/environ", f"{here}-other", "", "a\0b"):
                self.refused("outside of the current folder", path)
            self.refused("no regular file", os.devnull, os.path.dirname(os.devnull))

    def test_a_named_file_opens_nothing_beside_it(self) -> None:
        with folder({"src/a.py": "a", "src/b.py": "b"}) as here:
            reader = safe.FolderReader(["src/a.py"])
            for path in ("src/a.py", "./src/a.py", f"{here}/src/a.py"):
                self.assertEqual(reader.read(path), b"a")
            for path in ("src/b.py", "src/./b.py", "src/..", "src/"):
                self.assertRaises(OpenError, reader.read, path)
            os.symlink("src", "other")
            reader = safe.FolderReader(["other/a.py", "."])
            self.assertEqual(reader.read("other/a.py"), b"a")
            self.assertRaises(OpenError, reader.read, "other/b.py")

    def test_many_folders(self) -> None:
        with folder({f"f{it}/a.py": str(it) for it in range(80)}):
            reader = safe.FolderReader()
            for it in [*range(80), 0, 79]:
                self.assertEqual(reader.read(f"f{it}/a.py"), str(it).encode())
            self.assertLessEqual(len(os.listdir("/proc/self/fd")), 80)
            reader.close()


if __name__ == "__main__":
    unittest.main()
