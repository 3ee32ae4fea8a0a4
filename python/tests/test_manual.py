"""The manual page and the completion know every command and option of the command line."""

from __future__ import annotations

import os
import pty
import select
import shlex
import subprocess
import time
import unittest

from support import BLANKS, InFolder, sound_file

import manual
import packing
from palhavento import cli

COMPLETION = packing.HERE / "completion" / "palhavento.bash"


class Page(unittest.TestCase):
    def test_it_is_what_the_command_line_says_of_itself(self) -> None:
        self.assertEqual(manual.PAGE.read_text(encoding="utf-8"), manual.page(), "python3 python/manual.py writes it anew")

    def test_it_has_every_command_option_and_status(self) -> None:
        page = manual.page().replace("\\-", "-")
        top = cli.parser()
        for name, command in top.commands.items():
            self.assertIn(f".SS \\fB{name}\\fR \\fISTORE\\fR", page)
            for option in {*command.options(), *top.options()}:
                self.assertIn(f"\\fB{option}\\fR", page)
        self.assertIn("\n  254  another process has the file open for writing\n", page)

    def test_what_means_something_to_roff_is_meant(self) -> None:
        self.assertEqual(manual.plain(".b\n'c \\d -e"), "\\&.b\n\\&'c \\ed \\-e")
        for line in manual.page().splitlines():
            self.assertRegex(line, r"""^(\.(\\"|TH|SH|SS|TP|PP|nf|fi)( .*)?|[^.'].*|)$""")
            self.assertRegex(line.removeprefix('.\\"'), r"^([^\\]|\\(fB|fI|fR|&|e|-))*$")


class Completion(InFolder):
    def offered(self, line: str) -> list[str]:
        """What bash offers for a line, with the cursor at its end."""
        script = (f". {shlex.quote(str(COMPLETION))}; COMP_LINE={shlex.quote(line)}; COMP_POINT=${{#COMP_LINE}}; _palhavento; "
                  'printf "%s\\n" "${COMPREPLY[@]}"')
        path = f"{self.folder / 'bin'}:{packing.HERE / 'bin'}:{os.environ['PATH']}"
        ended = subprocess.run(["bash", "-u", "-c", script], capture_output=True, text=True, cwd=self.folder, timeout=60,
                               env={**os.environ, "PATH": path, "HOME": str(self.folder)})
        self.assertEqual((ended.returncode, ended.stderr), (0, ""))
        return ended.stdout.split("\n")[:-1]

    def test_commands_and_options(self) -> None:
        top = cli.parser()
        self.assertEqual(set(self.offered("palhavento ")), {*top.commands, *top.options()} - {"-h"})
        self.assertEqual(self.offered("palhavento re"), ["recover"])
        for name, command in top.commands.items():
            self.assertEqual(set(self.offered(f"palhavento {name} -")), {*command.options()} - {"-h"})

    def test_names_and_files(self) -> None:
        names = ["gdp.at", "gdp.de", "cpi:at", "cpi:de", "$x", "`id`", "GDP  real 1"]
        self.path.write_bytes(sound_file(names, b=4, slots=8))
        (self.folder / "two words.tkf").write_bytes(self.path.read_bytes())
        (self.folder / "old.svg").write_text("<svg/>")
        for line, offered in (
            ("get store.tkf gdp", ["gdp.at", "gdp.de"]),
            ("get --json store.tkf cpi:", ["at", "de"]),
            ("rm ~/store.tkf gdp.d", ["gdp.de"]),
            ("put two\\ words.tkf gdp.d", ["gdp.de"]),
            ("ls store.tkf gdp.at gdp.d", ["gdp.de"]),
            ("get -- store.tkf $", ["$x".replace("$", "\\$")]),
            ("get store.tkf `", ["\\`id\\`"]),
            ("get store.tkf G", ["GDP\\ \\ real\\ 1"]),
            ("rm 'two words.tkf' 'GDP", ["GDP  real 1"]),
            ("get none.tkf ", [""]),
            ("get st", ["store.tkf"]),
            ("check two", ["two words.tkf"]),
            ("check store.tkf st", ["store.tkf"]),
            ("compact --b 4 store.tkf o", ["old.svg"]),
            ("draw store.tkf ", ["old.svg"]),
            ("import store.tkf old", ["old.svg"]),
        ):
            self.assertEqual(sorted(self.offered(f"palhavento {line}")), offered, line)

    def listing(self, *names: str) -> None:
        """Have a program that lists these names, in no time, in place of palhavento."""
        program = self.folder / "bin" / "palhavento"
        program.parent.mkdir()
        program.write_text(shlex.join(["printf", "%s 42\n", *names]))
        program.chmod(0o755)

    def test_names_with_blanks(self) -> None:
        self.listing(*BLANKS, "it's so", '"so"', "cpi:at x", "a=b c")
        for line, offered in (
            ("get store.tkf GDP", ["GDP", "GDP\\ \\ real", "GDP\\ real", "GDP\\ real\\ 2"]),
            ("get store.tkf GDP\\ ", ["GDP\\ \\ real", "GDP\\ real", "GDP\\ real\\ 2"]),
            ("rm store.tkf 'GDP r", ["GDP real", "GDP real 2"]),
            ('ls store.tkf "GDP real" "a b', ["a b", "a b c d e f g h i j k l"]),
            ("ls 'store.tkf' GDP\\ real GDP' real ", [" real 2"]),
            ("get store.tkf 'it", ["it'\\''s so"]),
            ('get store.tkf "\\"', ['\\"so\\"']),
            ("get store.tkf cpi:at\\ ", ["at\\ x"]),
            ("get store.tkf 'cpi:at ", ["cpi:at x"]),
            ('get store.tkf "a=', ["a=b c"]),
        ):
            self.assertEqual(sorted(self.offered(f"palhavento {line}")), offered, line)

    def test_bash_itself_takes_what_is_offered(self) -> None:
        self.listing("GDP real", "CPI", "CPI  at 1", "it's so", "x:y = z")
        shell, terminal = pty.fork()
        if not shell:
            os.chdir(self.folder)
            os.environ.update(PATH=f"{self.folder / 'bin'}:{os.environ['PATH']}", TERM="dumb", PS1="> ")
            os.execlp("bash", "bash", "--norc", "--noprofile", "-i")
        self.addCleanup(os.waitpid, shell, 0)
        self.addCleanup(os.close, terminal)

        def until(end: bytes) -> str:
            said, late = b"", time.monotonic() + 30
            while end not in said and time.monotonic() < late and select.select([terminal], [], [], 30)[0]:
                said += os.read(terminal, 4096)
            return said.decode()

        # The words of a line are shown by a function that is put before it, when the tabulator has done its work.
        shown = "shown() { printf '<%s>' \"$@\"; echo; }"
        os.write(terminal, f". {shlex.quote(str(COMPLETION))}; {shown}; echo be\"\"gin\n".encode())
        self.assertIn("begin", until(b"begin"))
        for line, name in (("GDP", "GDP real"), ("GDP\\ r", "GDP real"), ("'GDP r", "GDP real"), ('"GDP r', "GDP real"),
                           ("CPI\\ ", "CPI  at 1"), ("'it", "it's so"), ("it", "it's so"), ("x:", "x:y = z"), ('"x:y =', "x:y = z")):
            os.write(terminal, f"palhavento get store.tkf {line}\t".encode() + b"\x01shown \x05\n")
            self.assertIn(f"<palhavento><get><store.tkf><{name}>", until(b">\r\n"), line)
        os.write(terminal, b"exit\n")


if __name__ == "__main__":
    unittest.main()
