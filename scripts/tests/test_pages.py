"""Tests of the manual pages and completions: they have the commands, the options of each and the statuses of docs/FORMATS.md, and
the options of each script."""

from __future__ import annotations

import os
import re
import shutil
import subprocess
import unittest

from support import SCRIPTS, TOP, Case, call, content

PAGES = os.path.join(SCRIPTS, "pages")
FORMATS = content(os.path.join(TOP, "docs", "FORMATS.md"))
Options = dict[str, set[str]]


def rows_of(heading: str, first: str) -> list[list[str]]:
    """The rows of the tables below a heading of the document whose first field has this form, without backquotes."""
    part = FORMATS.partition(f"\n## {heading}\n")[2].partition("\n## ")[0].replace("`", "")
    rows = [[field.strip() for field in line.split("|")[1:-1]] for line in part.split("\n") if line.startswith("|")]
    return [row for row in rows if re.fullmatch(first, row[0])]


def numbers_of(text: str) -> set[int]:
    """The numbers of a field such as `one of 1 and 2; 3 to 6; 8 with 2`, where 2 is only a condition for 8."""
    text = re.sub(r" with \d+", "", text)
    spans = [range(int(first), int(last) + 1) for first, last in re.findall(r"(\d+) to (\d+)", text)]
    return {int(number) for number in re.findall(r"\d+", text)}.union(*spans)


def wanted() -> tuple[Options, Options]:
    """The options of each command, and those without which it is refused."""
    words = {int(number): word for number, word, *_ in rows_of("The words", r"\d+")}
    allowed: Options = {}
    required: Options = {}
    before = ""
    for command, needs, may, _ in rows_of("The words", "[a-z]+"):
        other = {"the same": before, "as of plan": "plan"}.get(needs)
        allowed[command] = allowed[other] if other else {words[number] for number in numbers_of(needs) | numbers_of(may)}
        required[command] = required[other] if other else {
            words[number] for number in numbers_of(re.sub(r"one of \d+ and \d+", "", needs))}
        before = command
    return allowed, required


ALLOWED, REQUIRED = wanted()


def options_in(text: str) -> set[str]:
    return set(re.findall(r"--[a-z]+", text))


def cases_of(text: str) -> Options:
    """The options of each command by the cases of a completion for bash or zsh."""
    names = dict(re.findall(r"(\w+)=['(]([-a-z ]+)[')]", text))
    found = {}
    for commands, options in re.findall(r"^ +([a-z |]+)\) options=[\"'(](.*)[\"')] ;;", text, re.M):
        whole = re.sub(r"\$(\w+)", lambda name: str(names[name[1]]), options)
        found.update({command: options_in(whole) for command in commands.split(" | ")})
    return found


class Page(Case):
    def test_the_options_of_each_command(self) -> None:
        page = re.sub(r"\\f.", "", content(f"{PAGES}/meat.1").replace("\\-", "-"))
        for name in ("PLACES", "JOURNEY"):
            meaning = next(line.partition(" is ")[2] for line in page.split("\n") if line.startswith(f"{name} is "))
            page = page.replace(name, meaning)
        synopsis = dict(re.findall(r"^\.B meat (\w+) (.*)$", page, re.M))
        self.assertEqual({command: options_in(words) for command, words in synopsis.items()}, ALLOWED)
        outside = {command: options_in(re.sub(r"\{[^}]*\}", "", re.sub(r"\[[^]]*\]", "", words))) for command, words in synopsis.items()}
        self.assertEqual(outside, REQUIRED)
        self.assertEqual(set(re.findall(r"^\.B (\w+)\n", page, re.M)) & set(ALLOWED), set(ALLOWED))
        self.assertEqual(set(re.findall(r"^\.BI (--[a-z]+)", page, re.M)), set().union(*ALLOWED.values()))

    def test_its_sections_and_statuses(self) -> None:
        page = content(f"{PAGES}/meat.1")
        for heading in ("FILES", "EXIT STATUS", "EXAMPLES"):
            self.assertIn(f".SH {heading}\n", page)
        self.assertEqual(re.findall(r"^\.TP(?: 4)?\n(\d+)\n", page, re.M), [row[0] for row in rows_of("Statuses", r"\d+")])
        if shutil.which("groff"):
            checked = subprocess.run(["groff", "-man", "-ww", "-z", f"{PAGES}/meat.1"], capture_output=True)
            self.assertEqual(checked.stderr, b"")


class Completions(Case):
    def complete(self, *words: str) -> set[str]:
        """What bash offers for the last of these words."""
        script = 'source "$0"; COMP_WORDS=("$@"); COMP_CWORD=$(($# - 1)); "_${1//-/_}"; printf "%s\\n" "${COMPREPLY[@]}"'
        ran = subprocess.run(["bash", "-c", script, f"{PAGES}/meat.bash", *words], capture_output=True, text=True)
        return set(ran.stdout.split())

    def test_bash(self) -> None:
        self.assertEqual(self.complete("meat", ""), set(ALLOWED))
        for command, options in ALLOWED.items():
            self.assertEqual(self.complete("meat", command, ""), options, command)
        self.assertEqual(self.complete("meat", "plan", "--at", ""), set())
        self.assertEqual(self.complete("meat", "plan", "--feed", f"{TOP}/crat"), {f"{TOP}/crates"})
        self.assertEqual(content(f"{PAGES}/meat.bash").count("compopt -o filenames"), 2)

    def test_zsh_and_fish(self) -> None:
        self.assertEqual(cases_of(content(f"{PAGES}/meat.bash")), ALLOWED)
        zsh, fish = content(f"{PAGES}/meat.zsh"), content(f"{PAGES}/meat.fish")
        self.assertEqual(cases_of(zsh), ALLOWED)
        self.assertEqual(set(re.findall(r"compadd ([a-z ]+)\n", zsh)[0].split()), set(ALLOWED))
        self.assertEqual(set(re.findall(r"-n __fish_use_subcommand -a (\w+) ", fish)), set(ALLOWED))
        journey = re.findall(r"^set -l journey (.*)$", fish, re.M)[0]
        found: Options = {command: set() for command in ALLOWED}
        for commands, option in re.findall(r"__fish_seen_subcommand_from ([^\"']*)[\"'] -l (\w+) ", fish):
            for command in commands.replace("$journey", journey).split():
                found[command].add(f"--{option}")
        self.assertEqual(found, ALLOWED)

    def test_each_shell_can_read_its_own(self) -> None:
        for shell in filter(shutil.which, ("bash", "zsh", "fish")):
            for name in ("meat", "scripts"):
                checked = subprocess.run([shell, "-n", f"{PAGES}/{name}.{shell}"], capture_output=True)
                self.assertEqual((checked.returncode, checked.stderr), (0, b""))

    def test_the_commands_of_the_hint(self) -> None:
        hint = re.findall(r"^commands='(.*)'$", content(os.path.join(SCRIPTS, "hint.sh")), re.M)[0]
        self.assertEqual(set(hint.split()), set(ALLOWED))


class Scripts(Case):
    def test_each_script_has_its_page_and_completions(self) -> None:
        names = re.findall(r"^SCRIPTS = (.*)$", content(os.path.join(TOP, "Makefile")), re.M)[0].split()
        self.assertIn(f"meat-{{{','.join(names)}}}\n", content(f"{PAGES}/scripts.bash"))
        self.assertIn(f"#compdef {' '.join(f'meat-{name}' for name in names)}\n", content(f"{PAGES}/scripts.zsh"))
        self.assertIn(f"for script in {' '.join(names)}\n", content(f"{PAGES}/scripts.fish"))
        for name in names:
            self.assertIn(f"\\fBmeat\\-{name}\\fR(1)", re.sub(r"\.BR (\S+) (\(1\))", r"\\fB\1\\fR\2", content(f"{PAGES}/meat.1")))
            page = call("pages/script_page", "", name)
            self.assertEqual(page.status, 0, page.errors)
            shown = options_in(call(name, "", "--help").printed)
            self.assertEqual(options_in(page.printed.replace("\\-", "-").partition(".SH OPTIONS\n")[2]), shown, name)


if __name__ == "__main__":
    unittest.main()
