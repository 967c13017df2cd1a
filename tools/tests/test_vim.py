"""Vim's `:make`: it keeps every kind of refusal, with and without a place."""
import os
import re
import shutil
import subprocess
import tempfile
import unittest

from helping import NEEDS_SIGC, TOOLS, only_with, program
from test_wrong import line_of, rows_of

from sigc.call import compiler
from sigc.read import plain_kernels

HEAD = "process P = (? integer A; boolean B ! integer Y)\n"
DEAD = f"{HEAD}(| Y := (A when B) + (A when not B)\n | A ^= B\n |);\n"
MANY = HEAD + "(|" + "|".join(f" X{at} := A + {at} " for at in range(520)) + "| Y := A | A ^= B |)\nwhere " + "".join(f"integer X{at}; " for at in range(520)) + "end;\n"
LONG = f"%{' ' * 1048577}%"
# What is asked of each file: the first error of the list, and how many lines it has.
ASK = r"""
set nomore shortmess+=F
let g:found = []
for g:name in sort(glob('*.sig', 0, 1))
  execute 'edit' fnameescape(g:name)
  silent! make!
  let g:valid = filter(getqflist(), 'v:val.valid')
  let g:first = empty(g:valid) ? {'lnum': -1, 'col': 0, 'type': '', 'text': 'none'} : g:valid[0]
  call add(g:found, printf('%s %d:%d %s %s', g:name, g:first.lnum, g:first.col, g:first.type, g:first.text))
endfor
call writefile(g:found, 'out')
qa!
"""


def vim_over(files, sigc):
    """What `:make` finds in each of these programs: a map from their names to lines."""
    with tempfile.TemporaryDirectory() as room:
        for name, text in {**files, "rc.vim": f"set rtp^={TOOLS}/editors/vim\nfiletype plugin indent on\n", "ask.vim": ASK}.items():
            with open(f"{room}/{name}", "w", encoding="utf-8") as it:
                it.write(text)
        env = {**os.environ, "SIGC": sigc, "HOME": room, "TERM": "dumb", "PATH": f"{os.path.dirname(shutil.which('vim'))}:{os.environ['PATH']}"}
        subprocess.run(["vim", "-N", "-es", "-u", "rc.vim", "-i", "NONE", "-S", "ask.vim"], cwd=room, env=env, capture_output=True, stdin=subprocess.DEVNULL, timeout=120)
        with open(f"{room}/out", encoding="utf-8") as it:
            return dict(line.split(" ", 1) for line in it.read().splitlines())


def kind_of(said):
    """A refusal without its place and its names."""
    return re.sub(r"\b[A-Z0-9#:]+\b", "", said.split(": ", 1)[-1])


@NEEDS_SIGC
@only_with(shutil.which("vim"), "vim is not installed: its test is left out")
class Make(unittest.TestCase):
    def test_every_kind_of_refusal(self):
        """Of a program that may be no kernel the front end speaks."""
        sigc = compiler.Sigc(program())
        texts = {kind_of(fields["said"]): text for _, fields, text in rows_of("programs.txt")[1] if fields["said"] != "accepted" and plain_kernels.is_plainly_kernel(text)}
        texts |= {str(at): it for at, it in enumerate((DEAD, MANY, LONG))}
        files = {f"p{at:02}.sig": it for at, it in enumerate(texts.values())}
        wanted = {}
        for name, text in files.items():
            said = line_of(sigc.check(text))
            place, text = re.fullmatch(r"error(?: (\d+:\d+))?: (.*)", said).groups()
            wanted[name] = f"{place or '1:1'} e {text}"
        self.assertGreater(len(files), 11)
        self.assertEqual(vim_over(files, program()), wanted)

    def test_no_program_to_run(self):
        found = vim_over({"p.sig": DEAD}, "/nothing/at/all")
        self.assertRegex(found["p.sig"].lower(), "^0:0 e /nothing/at/all: no such file")


if __name__ == "__main__":
    unittest.main()
