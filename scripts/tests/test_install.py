"""Tests of the installation: what goes where, and that it runs from there."""

from __future__ import annotations

import os
import pty
import shutil
import subprocess
import unittest

from support import MEAT, OLD_TOWN, SCRIPTS, TOP, Case, content


# A program that prints its words and refuses them.
REFUSES = """#!/bin/sh
printf '<%s>' "$@"
echo 'meat: words refused' >&2
exit 2
"""


def shown_on(terminal: int) -> str:
    """What was written to a terminal whose other end is closed."""
    shown = b""
    try:
        while piece := os.read(terminal, 4096):
            shown += piece
    except OSError:
        pass
    os.close(terminal)
    return shown.decode().replace("\r\n", "\n")


class Install(Case):
    def make(self, *words: str) -> subprocess.CompletedProcess[bytes]:
        return subprocess.run(["make", "-s", "-C", self.top, *words], capture_output=True, timeout=60)

    def setUp(self) -> None:
        super().setUp()
        if shutil.which("make") is None:
            self.skipTest("there is no make")
        self.top = os.path.join(self.room, "top")
        os.makedirs(os.path.join(self.top, "out"))
        for name in ("scripts", "docs"):
            os.symlink(os.path.join(TOP, name), os.path.join(self.top, name))
        shutil.copyfile(os.path.join(TOP, "Makefile"), os.path.join(self.top, "Makefile"))
        # A program that stands in for the real one, and calls it.
        self.stands_in(f'#!/bin/sh\nexec {MEAT} "$@"\n')

    def stands_in(self, text: str) -> None:
        self.program = self.write("top/out/meat", text)
        os.chmod(self.program, 0o755)

    def test_install_and_uninstall(self) -> None:
        prefix = os.path.join(self.room, "prefix")
        ran = self.make("install", f"PREFIX={prefix}")
        self.assertEqual(ran.returncode, 0, ran.stderr)
        environment = {key: value for key, value in os.environ.items() if key != "MEAT"}
        words = [f"{OLD_TOWN}/feed", f"{OLD_TOWN}/delays.csv", "Mill", "Airport", "2024-06-03T08:00"]
        card = subprocess.run([os.path.join(prefix, "bin", "meat-ask"), *words], capture_output=True, env=environment, timeout=60)
        self.assertTrue(card.stdout.startswith(b"Mill to Airport\n"), card.stderr)
        self.assertIn(".TH MEAT 1", content(f"{prefix}/share/man/man1/meat.1"))
        self.assertIn(".TH MEAT\\-ASK 1", content(f"{prefix}/share/man/man1/meat-ask.1"))
        self.assertIn("meat-{ask,", content(f"{prefix}/share/bash-completion/completions/meat-ask"))
        for shell in ("bash-completion/completions/meat", "zsh/site-functions/_meat", "fish/vendor_completions.d/meat.fish"):
            self.assertIn("departures", content(f"{prefix}/share/{shell}"))
        self.assertEqual(self.make("uninstall", f"PREFIX={prefix}").returncode, 0)
        self.assertEqual([name for _, _, files in os.walk(prefix) for name in files], [])

    def test_any_name_of_a_folder(self) -> None:
        self.stands_in(REFUSES)
        for name in ("My Programs", "a'b\"c", "a$b$(c)`d`", "*#\\;"):
            prefix = os.path.join(self.room, "prefixes", name)
            os.makedirs(os.path.join(self.room, "prefixes", "My"), exist_ok=True)
            ran = self.make("install", f"PREFIX={prefix}")
            self.assertEqual(ran.returncode, 0, (name, ran.stderr))
            wrapped = subprocess.run([os.path.join(prefix, "bin", "meat"), "a b", "c"], capture_output=True, timeout=60)
            self.assertEqual((wrapped.returncode, wrapped.stdout, wrapped.stderr), (2, b"<a b><c>", b"meat: words refused\n"), name)
            self.assertEqual(self.make("uninstall", f"PREFIX={prefix}").returncode, 0, name)
            self.assertEqual([file for _, _, files in os.walk(prefix) for file in files], [], name)
            self.assertEqual(os.path.exists(os.path.join(prefix, "lib", "meat")), False, name)
        self.assertTrue(os.path.isdir(os.path.join(self.room, "prefixes", "My")))

    def test_an_empty_prefix_is_refused(self) -> None:
        for target in ("install", "uninstall"):
            for words in (("PREFIX=",), ("PREFIX=", f"DESTDIR={self.room}/image")):
                ran = self.make(target, *words)
                self.assertNotEqual(ran.returncode, 0)
                self.assertIn(b"PREFIX is empty", ran.stderr)
        self.assertFalse(os.path.exists(f"{self.room}/image"))

    def test_uninstall_leaves_what_is_not_its_own(self) -> None:
        prefix = os.path.join(self.room, "prefix")
        self.assertEqual(self.make("install", f"PREFIX={prefix}").returncode, 0)
        for name in ("lib/meat/mine.py", "bin/meat-mine", "share/man/man1/mine.1"):
            self.write(f"prefix/{name}", "mine")
        ran = self.make("uninstall", f"PREFIX={prefix}")
        self.assertEqual(ran.returncode, 0)
        self.assertIn(b"has other files, and stays", ran.stdout)
        left = [os.path.relpath(os.path.join(at, file), prefix) for at, _, files in os.walk(prefix) for file in files]
        self.assertEqual(sorted(left), ["bin/meat-mine", "lib/meat/mine.py", "share/man/man1/mine.1"])

    def test_uninstall_where_nothing_is_installed(self) -> None:
        ran = self.make("uninstall", f"PREFIX={self.room}/none")
        self.assertEqual((ran.returncode, ran.stdout, ran.stderr), (0, b"", b""))

    def test_the_installed_program_is_found_through_links(self) -> None:
        self.stands_in(REFUSES)
        prefix = os.path.join(self.room, "a prefix")
        self.assertEqual(self.make("install", f"PREFIX={prefix}").returncode, 0)
        os.symlink(f"{prefix}/bin/meat", f"{self.room}/linked")
        ran = subprocess.run([f"{self.room}/linked", "none"], capture_output=True, timeout=60)
        self.assertEqual((ran.returncode, ran.stderr), (2, b"meat: words refused\n"))

    def test_a_limit_on_the_size_of_files_is_a_failed_write(self) -> None:
        self.stands_in("#!/bin/sh\nprintf x >\"$1\" 2>/dev/null || exit 8\n")
        prefix = os.path.join(self.room, "prefix")
        self.assertEqual(self.make("install", f"PREFIX={prefix}").returncode, 0)
        ran = subprocess.run(["sh", "-c", 'ulimit -f 0; exec "$0" "$1"', f"{prefix}/bin/meat", f"{self.room}/full"],
                             capture_output=True, timeout=60)
        self.assertEqual(ran.returncode, 8)

    def test_a_word_that_is_no_command_on_a_terminal(self) -> None:
        self.stands_in(REFUSES.replace('<%s>', ''))
        prefix = os.path.join(self.room, "prefix")
        self.assertEqual(self.make("install", f"PREFIX={prefix}").returncode, 0)
        for words, lines in (((), 2), (("--help",), 2), (("help",), 2), (("plan",), 1)):
            terminal, other_end = pty.openpty()
            ran = subprocess.run([f"{prefix}/bin/meat", *words], stdin=subprocess.DEVNULL, stdout=subprocess.PIPE, stderr=other_end,
                                 timeout=60)
            os.close(other_end)
            told = shown_on(terminal).splitlines()
            self.assertEqual((ran.returncode, ran.stdout, len(told)), (2, b"", lines), told)
            self.assertTrue(told[-1].startswith("meat: "), told)
            self.assertEqual("latest reach sample; the manual page: man meat" in told[0], lines == 2, told)

    def test_a_folder_before_the_prefix(self) -> None:
        self.assertEqual(self.make("install", f"DESTDIR={self.room}/image", "PREFIX=/usr").returncode, 0)
        self.assertEqual(os.readlink(f"{self.room}/image/usr/bin/meat-card"), "../lib/meat/card")

    def test_without_a_program(self) -> None:
        os.remove(self.program)
        ran = self.make("install", f"PREFIX={self.room}/prefix")
        self.assertNotEqual(ran.returncode, 0)
        self.assertIn(b"run `make all` first", ran.stderr)

    def test_scripts_are_all_installed(self) -> None:
        commands = {name for name in os.listdir(SCRIPTS) if os.access(os.path.join(SCRIPTS, name), os.X_OK) and "." not in name
                    and os.path.isfile(os.path.join(SCRIPTS, name))}
        listed = next(line for line in content(os.path.join(TOP, "Makefile")).split("\n") if line.startswith("SCRIPTS"))
        self.assertEqual(commands - {"installed", "preview", "reading"}, set(listed.split("=")[1].split()))


if __name__ == "__main__":
    unittest.main()
