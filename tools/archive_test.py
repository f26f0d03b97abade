#!/usr/bin/env python3
"""archive_test.py: tries what make dist puts into its packages, with the program that is built.

The same bytes come twice; the program gives each example's report in an empty root that has only the C library; the
page's script makes a page; the page for browsers is there, with what it links to; bash completes by the file that is
put where it looks; an installation has the same files, and is removed whole; the man page has no warnings. The Debian
package is installed below an empty root and removed from it, so that this machine stays as it is. The module for
WebAssembly gives each example's report by node, by Python with node, and by Rust if cargo has the crate wasmtime. The
empty root takes root, or a user that may make user namespaces; what is missing for a test is named, and the test is
left out."""
import io
import os
import re
import shutil
import subprocess
import sys
import tarfile
import tempfile
import unittest

import archive
from crates import TOP


def output(*words, **how):
    return subprocess.run(words, stdout=subprocess.PIPE, text=True, check=True, **how).stdout


class Unpacked(unittest.TestCase):
    """The archive, packed and unpacked."""

    @classmethod
    def setUpClass(cls):
        cls.commit, cls.changed = archive.state()
        cls.name, cls.bytes = archive.packed(cls.commit, cls.changed)
        cls.folder = tempfile.mkdtemp(prefix="sel4sim archive ")
        with tarfile.open(fileobj=io.BytesIO(cls.bytes)) as file:
            file.extractall(cls.folder)
        cls.root = os.path.join(cls.folder, cls.name.replace("-x86_64-linux.tar.gz", ""))
        cls.program = os.path.join(cls.root, "bin/sel4sim")

    @classmethod
    def tearDownClass(cls):
        shutil.rmtree(cls.folder)

    def below(self, path):
        return os.path.join(self.root, path)

    def files(self, folder):
        return {os.path.relpath(os.path.join(at, it), folder) for at, _, names in os.walk(folder) for it in names}

    def installed(self):
        return {it for it in self.files(self.root) if it.startswith(("bin/", "share/"))}


class Archive(Unpacked):
    def test_same_bytes_twice(self):
        self.assertTrue(archive.packed(self.commit, self.changed) == (self.name, self.bytes), "they differ")

    def test_says_what_it_is(self):
        with open(self.below("PROVED"), encoding="utf-8") as file:
            text = file.read()
        self.assertIn(f"commit {self.commit}", text)
        self.assertIn(output("rt", "version").strip(), text)
        self.assertEqual("changes that are not in the commit" in text, bool(self.changed))
        self.assertIn(output("sha256sum", self.program).split()[0], text)

    def test_runs_over_the_c_library_alone(self):
        for path in re.findall(r"(/\S+) \(0x", output("ldd", self.program)):
            os.makedirs(self.below(os.path.dirname(path)[1:]), exist_ok=True)
            shutil.copy(path, self.below(path[1:]))
        env = {"PATH": os.environ["PATH"]}
        enter = ["chroot"] if os.geteuid() == 0 else ["unshare", "--map-root-user", "chroot"]
        examples = sorted(it for it in os.listdir(self.below("share/sel4sim/examples")) if it.endswith(".toml"))
        self.assertTrue(examples)
        for it in examples:
            path = f"share/sel4sim/examples/{it[:-5]}"
            words = [*enter, self.root, "/bin/sel4sim", "check", f"/{path}.toml"]
            ran = subprocess.run(words, stdout=subprocess.PIPE, stderr=subprocess.PIPE, env=env, check=False)
            wanted = 0
            if os.path.exists(self.below(f"{path}.status")):
                with open(self.below(f"{path}.status"), encoding="utf-8") as file:
                    wanted = int(file.read())
            with open(self.below(f"{path}.report"), "rb") as file:
                self.assertEqual((ran.returncode, ran.stdout), (wanted, file.read()), it)

    def test_bash_completes(self):
        script = 'source "$1"; COMP_WORDS=(sel4sim mig); COMP_CWORD=1; _sel4sim; echo "${COMPREPLY[@]}"'
        told = output("bash", "-c", script, "bash", self.below("share/bash-completion/completions/sel4sim"))
        self.assertEqual(told, "migrate\n")

    def test_makes_a_page(self):
        words = [self.below("share/sel4sim/page/page.sh"), self.program]
        page = output(*words, self.below("share/sel4sim/examples/send_then_receive.toml"))
        self.assertTrue(page.rstrip().endswith("</html>"))

    def test_has_the_page_for_browsers(self):
        page = self.below("share/doc/sel4sim/web/site/sel4sim.html")
        with open(page, encoding="utf-8") as file:
            text = file.read()
        # It names this page of the package, and links to nothing that is not there.
        self.assertIn("docs/browser.md", text)
        for it in ("../../docs/browser.md", *re.findall(r'href="([^"#]+)"', text)):
            self.assertTrue(os.path.isfile(os.path.join(os.path.dirname(page), it)), it)

    def test_installs_the_same(self):
        to = os.path.join(self.folder, "a place")
        env = {**os.environ, "DESTDIR": to, "PREFIX": "/opt/seL4 tools", "MAKEFLAGS": ""}
        for _ in range(2):
            output("make", "--no-print-directory", "-C", TOP, "install", env=env)
        there = os.path.join(to, "opt/seL4 tools")
        self.assertEqual(self.files(there), self.installed())
        self.assertEqual(os.stat(os.path.join(there, "bin/sel4sim")).st_mode & 0o777, 0o755)
        with open(os.path.join(there, "share/another"), "w", encoding="utf-8"):
            pass
        output("make", "--no-print-directory", "-C", TOP, "uninstall", env=env)
        self.assertEqual(self.files(there), {"share/another"})
        self.assertEqual(os.listdir(there), ["share"])


@unittest.skipUnless(shutil.which("dpkg-deb") and shutil.which("dpkg"), "there is no dpkg-deb, or no dpkg")
class DebianPackage(Unpacked):
    @classmethod
    def setUpClass(cls):
        super().setUpClass()
        cls.deb, cls.package = archive.debian(cls.commit, cls.changed)
        cls.path = os.path.join(cls.folder, cls.deb)
        with open(cls.path, "wb") as file:
            file.write(cls.package)

    def test_same_bytes_twice(self):
        self.assertTrue(archive.debian(self.commit, self.changed) == (self.deb, self.package), "they differ")

    def test_names_its_version(self):
        told = output("dpkg-deb", "--field", self.path, "Version", "Architecture").splitlines()
        self.assertEqual(told[0].split()[1].split("+")[0], archive.version().replace("-", "."))
        self.assertEqual(told[1], "Architecture: amd64")

    @unittest.skipUnless(os.geteuid() == 0 or shutil.which("fakeroot"), "it takes root, or fakeroot")
    def test_is_installed_and_removed(self):
        root = os.path.join(self.folder, "an empty root")
        for it in ("info", "updates"):
            os.makedirs(os.path.join(root, "var/lib/dpkg", it))
        for it in ("status", "available"):
            with open(os.path.join(root, "var/lib/dpkg", it), "w", encoding="utf-8"):
                pass
        # Nothing of this machine is changed: not its list of packages, and not its log. There is no C library in the root.
        dpkg = [*([] if os.geteuid() == 0 else ["fakeroot"]), "dpkg", f"--root={root}", f"--log={root}/log", "--no-triggers",
                "--force-depends", "--force-not-root", "--path-include=*"]
        output(*dpkg, "--install", self.path, stderr=subprocess.DEVNULL)
        beside = {"share/doc/sel4sim/PROVED", "share/doc/sel4sim/copyright"}
        self.assertEqual(self.files(os.path.join(root, "usr")), self.installed() | beside)
        said = output(os.path.join(root, "usr/bin/sel4sim"), "--version")
        self.assertIn(archive.version(), said)
        output(*dpkg, "--remove", "sel4sim", stderr=subprocess.DEVNULL)
        self.assertFalse(os.path.exists(os.path.join(root, "usr")) and self.files(os.path.join(root, "usr")))


class WebAssemblyModule(Unpacked):
    """Each example's report, as from the native program."""

    def gives_each_report(self, *runner):
        examples = self.below("share/sel4sim/examples")
        for it in sorted(it for it in os.listdir(examples) if it.endswith(".toml")):
            words = [*runner, self.below("share/sel4sim/sel4sim.wasm"), "check", os.path.join(examples, it)]
            wanted = subprocess.run([self.program, *words[-2:]], stdout=subprocess.PIPE, stderr=subprocess.DEVNULL, check=False)
            ran = subprocess.run(words, stdout=subprocess.PIPE, stderr=subprocess.DEVNULL, check=False)
            self.assertEqual((ran.returncode, ran.stdout), (wanted.returncode, wanted.stdout), it)

    @unittest.skipUnless(shutil.which("node"), "there is no node")
    def test_by_node(self):
        self.gives_each_report("node", self.below("share/sel4sim/wasm/run.mjs"))

    @unittest.skipUnless(shutil.which("node"), "there is no node")
    def test_of_what_is_missing_or_fails(self):
        words = ["node", self.below("share/sel4sim/wasm/run.mjs"), self.below("share/sel4sim/sel4sim.wasm"), "check"]
        with open("/dev/full", "w", encoding="utf-8") as full:
            ended = [subprocess.run([*words, name], stdout=to, stderr=subprocess.DEVNULL, check=False).returncode
                     for name, to in (("there_is_no_such_file.toml", subprocess.DEVNULL), (self.below("share/sel4sim/examples/send_then_receive.toml"), full))]
        self.assertEqual(ended, [3, 3])

    @unittest.skipUnless(shutil.which("node"), "there is no node")
    def test_by_python(self):
        self.gives_each_report(sys.executable, self.below("share/sel4sim/wasm/run.py"))

    @unittest.skipUnless(shutil.which("node"), "there is no node")
    def test_from_a_python_program(self):
        script = """from run import sel4sim
for text in ("format = 1\\n", "format = 3\\n"):
    print(*sel4sim("../sel4sim.wasm", "check", "-", given=text.encode()), sep="|")
"""
        told = output(sys.executable, "-c", script, cwd=self.below("share/sel4sim/wasm"), env={**os.environ, "PYTHONDONTWRITEBYTECODE": "1"})
        first, second = told.splitlines()
        self.assertTrue(first.startswith("2|b'set-up refused 202 at top key memory_bits\\n'|['sel4sim: top, key memory_bits: "), first)
        self.assertTrue(second.startswith("2|b'set-up refused 204 at top key format\\n'|["), second)

    @unittest.skipUnless(shutil.which("cargo"), "there is no cargo")
    def test_by_rust(self):
        crate = os.path.join(self.folder, "run")
        output("cargo", "init", "--quiet", "--vcs", "none", "--name", "run", crate)
        shutil.copy(self.below("share/sel4sim/wasm/run.rs"), os.path.join(crate, "src/main.rs"))
        if subprocess.run(["cargo", "add", "--quiet", "--offline", "wasmtime"], cwd=crate, stderr=subprocess.DEVNULL, check=False).returncode:
            self.skipTest("cargo has no crate wasmtime here")
        output("cargo", "build", "--quiet", "--offline", "--release", cwd=crate)
        self.gives_each_report(os.path.join(crate, "target/release/run"))


class ManPage(unittest.TestCase):
    page = os.path.join(TOP, "tools", "sel4sim.1")

    def test_has_no_warnings(self):
        ran = subprocess.run(["groff", "-man", "-ww", "-z", self.page], capture_output=True, text=True, check=True)
        self.assertEqual(ran.stderr, "")


if __name__ == "__main__":
    if not os.path.isfile(os.path.join(TOP, archive.PROGRAM)):
        sys.exit("archive_test.py: there is no proved program: make prove builds it")
    unittest.main()
