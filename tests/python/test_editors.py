"""Tests with editors: Neovim and Emacs with `rlt server`, and what Vim, Emacs and VS Code make of a report.

Each is skipped where its editor isn't installed.
"""
from __future__ import annotations

import json
import os
import re
import shutil
import subprocess
import unittest
from typing import List

from plugin_support import NO_PROGRAM, SECONDS, Installed, python_with
from support import ROOT

EDITORS, PYTHON = ROOT / "examples" / "editors", python_with("pylsp_jsonrpc")
SOURCES = {
    "src/slow.py": 'import re\nROWS = re.compile(r"(\\w+\\s?)*$")\nif ROWS:\n    re.search(r"a*a*a*b", s)\n',
    "src/my file.py": 'import re\nre.search(r"\\s+$", s)\nre.search(r"(a)\\1", s)\n',
}
# What the sources hold: path, line, column and the start of what is said.
FOUND = [("src/slow.py", "2", "19", "RLT100 exponential: "), ("src/slow.py", "4", "15", "RLT104 quartic: "),
         ("src/my file.py", "3", "11", "RLT201 not judged (backreference")]
LISP = """
(let ((root default-directory))
  (rlt "src")
  (let ((process (get-buffer-process "*rlt*")))
    (while (memq (process-status process) '(run open)) (accept-process-output process 0.1))
    (accept-process-output nil 0.3))
  (with-current-buffer "*rlt*" (setq compilation-skip-threshold 0))
  (condition-case nil
      (while t
        (with-current-buffer "*rlt*" (next-error))
        (with-current-buffer (window-buffer)
          (princ (format "%s|%d|%d\\n" (file-relative-name buffer-file-name root)
                         (line-number-at-pos) (1+ (- (point) (line-beginning-position)))))))
    (user-error nil)))
"""
# (the functions that Neovim 0.7 hasn't yet)
LUA = """
vim.lsp.start = vim.lsp.start or function(config)
  vim.lsp.buf_attach_client(0, vim.lsp.start_client(config))
end
local function wait(wanted)
  return vim.wait(%d000, function() return (#vim.diagnostic.get(0) == 1) == wanted end, 50)
end
local said = {}
vim.ui.select = function(items, _, choose) said.action = (items[1].action or items[1][2]).title; choose(items[1], 1) end
local done, why = pcall(function()
  %s
  vim.cmd("filetype on")
  vim.cmd("edit src/slow.py")
  said.found = wait(true)
  local it = vim.diagnostic.get(0)[1]
  said.message, said.place = it.message, {it.lnum, it.col, it.end_lnum, it.end_col}
  vim.api.nvim_win_set_cursor(0, {it.lnum + 1, it.col})
  local asked = vim.lsp.util.make_position_params(0, "utf-16")
  for _, answer in pairs(vim.lsp.buf_request_sync(0, "textDocument/hover", asked, %d000)) do
    said.hover = answer.result.contents.value
  end
  vim.lsp.buf.code_action()
  said.gone = wait(false)
  vim.cmd("write")
end)
said.why = not done and tostring(why) or nil
vim.fn.writefile({vim.fn.json_encode(said)}, "said")
vim.cmd("qa!")
"""
EGLOT = """
(require 'eglot)
(load (expand-file-name "docs.el"))
(setq eglot-connect-timeout 60 eglot-sync-connect t)
(find-file "src/slow.py")
(python-mode)
(apply #'eglot--connect (eglot--guess-contact))
(let ((until (+ (float-time) 100)))
  (while (and (< (float-time) until) (not (flymake-diagnostics))) (accept-process-output nil 0.2)))
(princ (mapconcat #'flymake-diagnostic-text (flymake-diagnostics) "\\n"))
(kill-emacs)
"""


@unittest.skipIf(NO_PROGRAM, NO_PROGRAM)
class Editors(Installed):
    """A project in a folder of its own, with rlt on the PATH."""

    def setUp(self) -> None:
        super().setUp()
        for name, text in SOURCES.items():
            self.put(name, text)
        rlt = self.put("bin/rlt", f'#!/bin/sh\nexec {PYTHON or "python3"} -P -m relint "$@"\n')
        rlt.chmod(0o755)
        self.environment["PATH"] = f"{rlt.parent}{os.pathsep}{os.environ['PATH']}"

    def ran(self, *words: str) -> str:
        """Runs a program in the project; returns what it writes."""
        return subprocess.run(words, cwd=self.folder, env=self.environment, stdin=subprocess.DEVNULL, text=True,
                              stdout=subprocess.PIPE, stderr=subprocess.DEVNULL, timeout=SECONDS).stdout

    def settings(self, after: str, end: str) -> str:
        """The settings that the page about editors has between these texts."""
        page = (ROOT / "docs/CI.md").read_text(encoding="utf-8")
        self.assertIn(after, page)
        return page.partition(after)[2].partition(end)[0]

    @unittest.skipUnless(shutil.which("nvim"), "Neovim isn't installed")
    @unittest.skipUnless(PYTHON, "pylsp_jsonrpc isn't installed")
    def test_neovim(self) -> None:
        self.put("src/slow.py", SOURCES["src/slow.py"].replace("a*a*a*b", "b"))
        self.put("try.lua", LUA % (SECONDS // 3, self.settings("```lua", "```"), SECONDS // 3))
        self.ran("nvim", "--headless", "-u", "NONE", "-i", "NONE", "-n", "-S", "try.lua")
        said = json.loads((self.folder / "said").read_text(encoding="utf-8"))
        self.assertEqual((said.get("why"), said.get("found"), said.get("gone")), (None, True, True), said)
        self.assertEqual(said["place"], [1, 18, 1, 31])
        self.assertIn("exponential", said["message"])
        self.assertIn("fix:  r", said["hover"])
        self.assertTrue(said["action"].startswith("rlt: fix: "), said)
        self.assertIn(said["action"][10:].partition("    ")[0], (self.folder / "src/slow.py").read_text())
        self.assertNotIn("slow.py", self.ran("rlt", "--quiet", "--format", "concise", "src/slow.py"))

    @unittest.skipUnless(shutil.which("emacs"), "Emacs isn't installed")
    @unittest.skipUnless(PYTHON, "pylsp_jsonrpc isn't installed")
    def test_emacs_with_the_server(self) -> None:
        self.put("docs.el", self.settings("- **Emacs** (eglot): `", "`\n"))
        self.put("try.el", EGLOT)
        if not self.ran("emacs", "-Q", "--batch", "--eval", "(princ (locate-library \"eglot\"))").startswith("/"):
            self.skipTest("Emacs has no eglot")
        self.assertIn("exponential: a text of", self.ran("emacs", "-Q", "--batch", "-l", "try.el"))

    @unittest.skipUnless(shutil.which("vim"), "Vim isn't installed")
    def test_vim(self) -> None:
        told = 'map(getqflist(), {_, it -> join([bufname(it.bufnr), it.lnum, it.col, it.valid, it.text], "|")})'
        self.ran("vim", "-N", "-u", "NONE", "-i", "NONE", "-es", "--cmd", f"set runtimepath+={EDITORS / 'vim'}",
                 "-c", "compiler rlt", "-c", "silent make! src none", "-c", f"call writefile({told}, 'found')", "-c", "qa!")
        found = (self.folder / "found").read_text().splitlines()
        wanted = [f"{path}|{line}|{column}|1|{said}" for path, line, column, said in FOUND[:2]] + ["|0|0|1|not "] * 2
        self.assertEqual(len(found), len(wanted), found)
        self.assertTrue(all(one.startswith(other) for one, other in zip(found, wanted)), found)

    @unittest.skipUnless(shutil.which("emacs"), "Emacs isn't installed")
    def test_emacs(self) -> None:
        self.put("try.el", LISP)
        said = self.ran("emacs", "-Q", "--batch", "-l", str(EDITORS / "rlt.el"), "-l", "try.el")
        self.assertEqual(said.splitlines(), [f"{path}|{line}|{column}" for path, line, column, _ in FOUND])

    def test_problem_matchers(self) -> None:
        task = json.loads((EDITORS / "tasks.json").read_text())["tasks"][0]
        found: List[List[str]] = []
        for line in self.ran(task["command"], *task["args"]).splitlines():
            for matcher in task["problemMatcher"]:
                pattern = matcher["pattern"]
                match = re.search(pattern["regexp"], line)
                if match:
                    said = [match.group(pattern[it]) for it in ("file", "line", "column", "message")]
                    found.append([matcher["severity"], *said])
        severities = ("error", "warning", "info")
        self.assertEqual([it[:4] for it in found], [[one, *it[:3]] for one, it in zip(severities, FOUND)])
        self.assertTrue(all(one[4].startswith(other[3]) for one, other in zip(found, FOUND)), found)


if __name__ == "__main__":
    unittest.main()
