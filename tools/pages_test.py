#!/usr/bin/env python3
"""Tests of what is made of a help, by a stand-in for the program, which has options with values too: the completions in bash, and
where these are installed in fish, and read by zsh; the man page; and what stands between marks in other pages."""
import os
import shutil
import subprocess
import tempfile
import unittest

import cited
import man_page
import pages
from helps import helps

HELP = {
    "": """A stand-in

Usage: sel4sim [FILE] [COMMAND]

Commands:
  check    Runs a set-up
  tree     Prints the forest; it's text
  help     Prints help

Arguments:
  [FILE]  The set-up

Options:
  -h, --help     Print help
  -V, --version  Print version

Without a command, standard input is read.

Examples:
  sel4sim check layout.toml     what its calls are answered
  sel4sim tree --after 3 --form text layout.toml
                                who was derived

Exit status:
  0  all is well, by
     --strict too
  4  the command line is refused
""",
    "check": """Runs a set-up

Usage: sel4sim check [OPTIONS] [FILE]...

Arguments:
  [FILE]...  The set-ups

Options:
      --strict  Refuses [what] is doubtful
  -h, --help    Print help
""",
    "tree": """Prints the forest

Usage: sel4sim tree [OPTIONS]

Options:
      --form <FORM>
          How it is drawn

          [possible values: text, dot]
      --after <N>  Behind call N
  -h, --help       Print help
""",
    "help": """Prints help

Usage: sel4sim help [COMMAND]...

Arguments:
  [COMMAND]...  Print help for the subcommand(s)
""",
}


class Completions(unittest.TestCase):
    @classmethod
    def setUpClass(cls):
        cls.folder = tempfile.mkdtemp(prefix="sel4sim completions ")
        program = os.path.join(cls.folder, "sel4sim")
        with open(program, "w", encoding="utf-8") as file:
            file.write("#!/bin/sh\ncase $1 in\n")
            for name in ("check", "tree", "help", ""):
                file.write(f"{name or '*'}) cat <<'END'\n{HELP[name]}END\n;;\n")
            file.write("esac\n")
        os.chmod(program, 0o755)
        for name, text in pages.completions(*helps(program)).items():
            with open(os.path.join(cls.folder, name), "w", encoding="utf-8") as file:
                file.write(text)
        os.mkdir(os.path.join(cls.folder, "work"))
        for name in ("my layout.toml", "t.toml"):
            with open(os.path.join(cls.folder, "work", name), "w", encoding="utf-8"):
                pass

    @classmethod
    def tearDownClass(cls):
        shutil.rmtree(cls.folder)

    def output(self, *words):
        env = {**os.environ, "HOME": self.folder, "TERM": "dumb"}
        done = subprocess.run(words, cwd=f"{self.folder}/work", env=env, capture_output=True, text=True, timeout=600)
        self.assertEqual(done.stderr, "")
        return done.stdout.splitlines()

    def in_bash(self, *words):
        """What bash completes the last of these words to."""
        script = ('source ../sel4sim.bash; COMP_WORDS=("$@"); COMP_CWORD=$(($# - 1)); _sel4sim; '
                  'printf "%s\\n" "${COMPREPLY[@]}"')
        return self.output("bash", "-c", script, "bash", "sel4sim", *words)

    def in_fish(self, line):
        return [it.split("\t")[0] for it in self.output("fish", "-c", f"source ../sel4sim.fish; complete -C 'sel4sim {line}'")]

    def test_reads_the_help(self):
        whole, commands = helps(f"{self.folder}/sel4sim")
        self.assertEqual([name for name, _, _ in commands], ["check", "tree", "help"])
        self.assertEqual([option.spellings for option in whole.options], [["-h", "--help"], ["-V", "--version"]])
        form, after, _ = commands[1][2].options
        self.assertEqual((form.values, form.about, after.value), (["text", "dot"], "How it is drawn", "N"))
        self.assertEqual([told.takes_files for told in (whole, *(it[2] for it in commands))], [True, True, False, False])

    def filled(self, words, old):
        """What a page has between two marks, where another text stood."""
        of_help = pages.OfHelp(f"{self.folder}/sel4sim")
        begin, end = f"<!-- {words} -->\n", "<!-- to here -->\n"
        made = pages.filled(f"Before.\n{begin}{old}{end}After.\n", {"options": of_help.options, "statuses": of_help.statuses})
        self.assertTrue(made.startswith(f"Before.\n{begin}") and made.endswith(f"{end}After.\n"))
        return made.removeprefix(f"Before.\n{begin}").removesuffix(f"{end}After.\n")

    def test_man_page_has_what_the_help_has(self):
        page = "".join(man_page.page(*helps(f"{self.folder}/sel4sim"), "2026-01-31"))
        statuses = '.SH "EXIT STATUS"\n.TP\n.B 0\nAll is well, by \\-\\-strict too.\n.TP\n.B 4\nThe command line is refused.\n.PP\n'
        tree = ".SS tree\n.B sel4sim tree [OPTIONS]\n.PP\nPrints the forest; it's text.\n.TP\n\\fB\\-\\-form\\fR \\fIFORM\\fR\n"
        examples = (".SH EXAMPLES\n.TP\n.B sel4sim check layout.toml\nWhat its calls are answered.\n"
                    ".TP\n.B sel4sim tree \\-\\-after 3 \\-\\-form text layout.toml\nWho was derived.\n.SH ")
        self.assertIn('.TH SEL4SIM 1 "2026-01-31" ', page)
        for made in (statuses, tree, examples, ".TP\n\\fB\\-\\-after\\fR \\fIN\\fR\nBehind call N.\n"):
            self.assertIn(made, page)

    def test_tables_of_options(self):
        head = "| option | what it does |\n|---|---|\n"
        self.assertEqual(self.filled("options of tree: after", ""), f"{head}| `--after N` | Behind call N |\n")
        self.assertEqual(self.filled("options of check", "old\n"), f"{head}| `--strict` | Refuses [what] is doubtful |\n")
        self.assertIn("there is no such option", self.filled("options of check: strikt", ""))

    def test_table_of_statuses(self):
        table = "| status | means |\n|---|---|\n| 0 | all is well, by --strict too |\n| 4 | the command line is refused |\n"
        self.assertEqual(self.filled("statuses", "old\n"), table)

    def test_no_mark_is_filled_without_a_maker(self):
        page = "<!-- options of tree -->\nold\n<!-- to here -->\n"
        self.assertEqual(pages.filled(page, {}), page)

    def test_in_bash(self):
        words = ["check", "tree", "help", "-h", "--help", "-V", "--version"]
        self.assertEqual((self.in_bash("")[:7], sorted(self.in_bash("")[7:])), (words, ["my layout.toml", "t.toml"]))
        self.assertEqual(self.in_bash("my"), ["my layout.toml"])
        self.assertEqual(self.in_bash("ch"), ["check"])
        self.assertEqual(self.in_bash("check", "my"), ["my layout.toml"])
        self.assertEqual(self.in_bash("check", "--s"), ["--strict"])
        self.assertEqual(self.in_bash("tree", "--form", ""), ["text", "dot"])
        self.assertEqual(self.in_bash("tree", "t"), [""])
        self.assertEqual(self.in_bash("help", "t"), ["tree"])

    @unittest.skipUnless(shutil.which("fish"), "there is no fish")
    def test_in_fish(self):
        self.assertEqual(self.in_fish("ch"), ["check"])
        self.assertEqual(self.in_fish("my"), ["my layout.toml"])
        self.assertEqual(self.in_fish("check my"), ["my layout.toml"])
        self.assertEqual(self.in_fish("check --s"), ["--strict"])
        self.assertEqual(sorted(self.in_fish("tree --form ")), ["dot", "text"])
        self.assertEqual(self.in_fish("tree t"), [])
        self.assertEqual(self.in_fish("help t"), ["tree"])

    @unittest.skipUnless(shutil.which("zsh"), "there is no zsh")
    def test_is_read_by_zsh(self):
        self.assertEqual(self.output("zsh", "-n", "../_sel4sim"), [])


class Cited(unittest.TestCase):
    def test_names_in_brackets_belong_to_the_crates_before_them(self):
        text = "`store`, `forest`: exact (`get`, `put`), and a law (`Tree::of`). `queue` sends (`send`). `why FILE` (no name)."
        found = list(cited.brackets(text, {"store", "forest", "queue"}))
        both = ["store", "forest"]
        self.assertEqual(found, [("get", both), ("put", both), ("Tree::of", both), ("send", ["queue"])])

    def test_what_a_crate_defines(self):
        found = cited.defined("slot_core")
        self.assertTrue(found.issuperset({"CapStore", "derive", "LinkedStore", "stands_for_its_forest"}))
        self.assertFalse(found & {"Waiters", "no_such_name"})


if __name__ == "__main__":
    unittest.main()
