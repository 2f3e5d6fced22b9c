"""tools/package and tools/c-library: what they hold, README's lines after the package is unpacked, lintian, and bad input."""
import os
import pty
import re
import select
import subprocess
import tempfile
import time
import unittest
import unittest.mock

import support
from lib import manual, program, proved

with open(os.path.join(program.TOP, "README.md"), encoding="utf-8") as file:
    README = file.read()


def call(words, **more):
    return subprocess.run(words, stdout=subprocess.PIPE, stderr=subprocess.PIPE, encoding="utf-8", **more)


@support.needs_program
@support.needs("dpkg-deb", "strip", "objdump")
class Package(unittest.TestCase):
    @classmethod
    def setUpClass(cls):
        cls.room = tempfile.TemporaryDirectory()
        done = support.run("package", os.path.join(cls.room.name, "made"), "--version", "1.2")
        if done.returncode:
            raise AssertionError(done.stderr)
        cls.package, cls.packed = done.stdout.splitlines()
        cls.root, cls.trial = os.path.join(cls.room.name, "root"), os.path.join(cls.room.name, "try")
        subprocess.run(["dpkg-deb", "-x", cls.package, cls.root], check=True)
        os.mkdir(cls.trial)
        own = os.path.join(cls.root, "usr/lib/tagymelur")
        for name in os.listdir(own):
            os.symlink(os.path.join(own, name), os.path.join(cls.trial, name))

    @classmethod
    def tearDownClass(cls):
        cls.room.cleanup()

    def line(self, text):
        """A line of a shell in the folder of the trial, with no kit on the path."""
        plain = {name: value for name, value in os.environ.items() if name != "TAGYMELUR"}
        return call(["bash", "-c", text], cwd=self.trial, env={**plain, "PATH": "/usr/bin:/bin"})

    def test_what_it_holds(self):
        names = set(call(["bash", "-c", f"cd {self.root} && find . -type f -o -type l"]).stdout.splitlines())
        tools = [name for name in os.listdir(os.path.join(self.root, "usr/lib/tagymelur/tools")) if name not in ("lib", "gdb")]
        self.assertGreater(len(tools), 8)
        wanted = ["usr/bin/tagymelur", "usr/share/man/man1/tagymelur.1.gz", "usr/share/doc/tagymelur/copyright", "usr/share/doc/tagymelur/PROVED", "usr/lib/python3/dist-packages/tagymelur/__init__.py",
                  "usr/share/bash-completion/completions/tagymelur", "usr/share/zsh/vendor-completions/_tagymelur"]
        wanted += ["usr/lib/tagymelur/tools/gdb/tagymelur.py"] + [f"usr/bin/tagymelur-{name}" for name in tools] + [f"usr/share/man/man1/tagymelur-{name}.1.gz" for name in tools]
        self.assertEqual([name for name in wanted if f"./{name}" not in names], [])
        self.assertEqual([name for name in names if "__pycache__" in name or "/tests/" in name], [])
        self.assertIn("Version: 1.2\n", call(["dpkg-deb", "-f", self.package]).stdout)

    def test_the_lines_of_the_readme(self):
        tried = re.findall(r"^    (\./tagymelur (\w+) +< examples/\S+) +# prints (\w+)", README, re.M)
        self.assertEqual(len(tried), 4)
        for words, command, said in tried:
            done = self.line(words)
            self.assertEqual((done.returncode, done.stderr), (0, ""))
            self.assertTrue(done.stdout.startswith("class E" if command == "layout" else said), done.stdout)
        self.assertIn("'- B1 ---------''- B2 ---------'", self.line("tools/draw --text D < examples/diamond.cpp").stdout)
        self.assertIn("two final overriders", self.line("tools/explain check < examples/overriders.cpp").stderr)
        self.assertIn("The run of main", self.line("tools/page examples/construction.cpp").stdout)
        self.assertEqual(self.line("ls examples/first.cpp | while read one; do crates/tagymelur/out/tagymelur run < $one; done").stdout, "5\n")

    def test_a_tool_that_begins_with_the_worked_cases(self):
        done = self.line("tools/fuzz --inputs 20")
        self.assertEqual((done.returncode, done.stderr), (0, ""))
        self.assertIn("20 inputs", done.stdout)

    def test_what_python_compiled_goes_with_the_package(self):
        """The scripts of the package, with commands in place of Debian's that tell how they were called."""
        folder, told = os.path.join(self.room.name, "scripts"), os.path.join(self.room.name, "told")
        subprocess.run(["dpkg-deb", "-e", self.package, folder], check=True)
        os.makedirs(os.path.join(folder, "bin"))
        for name in ("py3compile", "py3clean"):
            with open(os.path.join(folder, "bin", name), "w", encoding="utf-8") as file:
                file.write(f'#!/bin/sh\necho {name} "$@" >> {told}\n')
            os.chmod(file.name, 0o755)
        for words in (["postinst", "configure", ""], ["prerm", "remove"], ["postinst", "abort-remove"]):
            done = call([os.path.join(folder, words[0]), *words[1:]], env={"PATH": f"{folder}/bin:/usr/bin:/bin"})
            self.assertEqual((done.returncode, done.stdout, done.stderr), (0, "", ""))
        with open(told, encoding="utf-8") as file:
            self.assertEqual(file.read().splitlines(), ["py3compile -p tagymelur", "py3compile -p tagymelur /usr/lib/tagymelur", "py3clean -p tagymelur"])

    def test_the_launcher(self):
        """At a terminal it lists the commands; it answers by a link from elsewhere, and builds nothing, also where there is a command rt."""
        os.makedirs(os.path.join(self.room.name, "bin"))
        for name, text in (("rt", f"#!/bin/sh\ntouch {self.room.name}/called\n"),):
            with open(os.path.join(self.room.name, "bin", name), "w", encoding="utf-8") as file:
                file.write(text)
            os.chmod(file.name, 0o755)
        done = self.line(f"PATH={self.room.name}/bin:$PATH; script -qec ./tagymelur /dev/null < /dev/null; {self.root}/usr/bin/tagymelur check < examples/diamond.cpp")
        self.assertIn("usage", done.stdout)
        self.assertIn("memptr C::M[@D]", done.stdout)
        self.assertTrue(done.stdout.endswith("4 classes\n"), done.stdout)
        self.assertFalse(os.path.exists(os.path.join(self.room.name, "called")))

    def test_the_questions_of_the_readme(self):
        """Each command says in the folder of the trial what it says in the repository."""
        asked = re.findall(r"^\| [^|]*\? \| `([^`]*)` \|", README, re.M)
        self.assertEqual(len(asked), 10)
        for command in asked:
            here = call(["bash", "-c", command.replace("./tagymelur", f'"{program.path()}"')], cwd=program.TOP, env={**os.environ, "TAGYMELUR": program.path()})
            done = self.line(command)
            self.assertEqual((done.returncode, done.stdout, done.stderr), (here.returncode, here.stdout, here.stderr), command)
            self.assertTrue(done.stdout)

    def test_a_command_of_the_path(self):
        """It names places of the installed package; here it is called with those of the unpacked one."""
        with open(os.path.join(self.root, "usr/bin/tagymelur-draw"), encoding="utf-8") as file:
            script = file.read().replace("/usr/lib/", f"{self.root}/usr/lib/")
        done = self.line(f"sh -c '{script}' draw --text D < examples/diamond.cpp")
        self.assertEqual((done.returncode, done.stderr), (0, ""))
        self.assertIn("'- B1 ---------''- B2 ---------'", done.stdout)

    def test_the_module(self):
        done = self.line(f"PYTHONPATH={self.root}/usr/lib/python3/dist-packages python3 -c \"import tagymelur; print(tagymelur.layout(open('examples/diamond.cpp').read(), 'D').size)\"")
        self.assertEqual((done.stdout, done.stderr), ("56\n", ""))

    def test_the_completion(self):
        done = self.line(f"cd /; source {self.root}/usr/share/bash-completion/completions/tagymelur; _tagymelur tagymelur la; echo ${{COMPREPLY[0]}}; _tagymelur tagymelur-draw --tab; echo ${{COMPREPLY[0]}}")
        self.assertEqual(done.stdout, "layout\n--tables\n")

    def test_each_command_has_its_completion(self):
        """bash looks for a file of the command's name, zsh at the first line of the files in its folder."""
        commands = sorted(os.listdir(os.path.join(self.root, "usr/bin")))
        folder = os.path.join(self.root, "usr/share/bash-completion/completions")
        self.assertEqual(sorted(os.listdir(folder)), commands)
        for name in commands:
            done = self.line(f"cd /; source {folder}/{name}; complete -p {name}; _tagymelur {name} --; echo ${{COMPREPLY[@]}}")
            self.assertIn(f"-F _tagymelur {name}\n", done.stdout)
            self.assertIn("--help" if name != "tagymelur" else "--steps", done.stdout)
        with open(os.path.join(self.root, "usr/share/zsh/vendor-completions/_tagymelur"), encoding="utf-8") as file:
            self.assertEqual(sorted(file.readline().split()[1:]), commands)

    def test_what_was_proved(self):
        with open(os.path.join(self.root, "usr/share/doc/tagymelur/PROVED"), encoding="utf-8") as file:
            lines = file.read().splitlines()
        self.assertTrue(lines[0].startswith("kit: "))
        sums = dict(reversed(line.split("  ")[:2]) for line in lines if re.match(r"[0-9a-f]{64}  ", line))
        self.assertEqual(list(sums), proved.needed())
        self.assertEqual(sums["cxx_text"], proved.sum_of("cxx_text"))
        self.assertNotIn("worked_cases", sums)
        told = proved.said(program.binary())
        self.assertEqual(any(line.startswith("NOT KNOWN TO BE PROVED") for line in lines), any(name not in told for name in sums))

    def test_the_tar_file(self):
        subprocess.run(["tar", "-C", self.room.name, "-xf", self.packed], check=True)
        folder = os.path.join(self.room.name, "tagymelur-1.2")
        self.assertEqual({"tagymelur", "tools", "docs", "examples", "python", "man", "completions", "LICENSE", "README.md", "PROVED", "crates"}, set(os.listdir(folder)))
        with open(os.path.join(folder, "examples", "diamond.cpp"), encoding="utf-8") as file:
            self.assertEqual(call([os.path.join(folder, "tagymelur"), "check"], stdin=file).stdout, "4 classes\n")

    @support.needs("cc", "ar", "lintian")
    def test_with_the_library(self):
        """The lines of docs/DATA.md on a package with a library: here one that answers a word alone, since the kit makes the other."""
        room = os.path.join(self.room.name, "built")
        os.mkdir(room)
        with open(os.path.join(room, "answer.c"), "w", encoding="utf-8") as file:
            file.write('#include "tagymelur.h"\n#include <string.h>\nuint8_t tagymelur_answer(const uint8_t *words, size_t words_length, const uint8_t *source, size_t source_length,\n'
                       "    uint8_t *text, size_t text_length, size_t *written) { (void)source; (void)source_length; (void)text_length; *written = words_length - 1; memcpy(text, words, *written); return 3; }\n")
        header = f"-I{os.path.join(program.TOP, 'library')}"
        for words in (["cc", "-fPIC", "-c", "answer.c", header], ["ar", "rcs", "libtagymelur.a", "answer.o"], ["cc", "-shared", "-Wl,-soname,libtagymelur.so", "answer.o", "-o", "libtagymelur.so"]):
            subprocess.run(words, cwd=room, check=True)
        done = support.run("package", os.path.join(room, "made"), "--library", room)
        self.assertEqual((done.returncode, done.stderr), (0, ""))
        package, packed = done.stdout.splitlines()
        subprocess.run(["dpkg-deb", "-x", package, os.path.join(room, "root")], check=True)
        subprocess.run(["tar", "-C", room, "-xf", packed], check=True)
        with open(os.path.join(program.TOP, "docs", "DATA.md"), encoding="utf-8") as file:
            shown = re.findall(r"^    (cc library/example\.c .*|python3 library/example\.py .*)$", file.read(), re.M)
        self.assertEqual(len(shown), 2)
        for folder in (os.path.join(room, "root/usr/lib/tagymelur"), os.path.join(room, "tagymelur-0.1")):
            for line in shown:
                done = call(["bash", "-c", line.replace("build/", "library/").replace("-o example", f"-o {room}/example").replace("./example", f"{room}/example")], cwd=folder)
                self.assertEqual((done.returncode, done.stdout, done.stderr), (3, "layout", ""), line)
        done = call(["lintian", "--allow-root", "--fail-on", "error", package])
        self.assertEqual(done.returncode, 0, done.stdout)

    @support.needs("lintian")
    def test_lintian(self):
        done = call(["lintian", "--allow-root", "--fail-on", "error", self.package])
        self.assertEqual(done.returncode, 0, done.stdout)


class Shell:
    """zsh at a terminal, in which a test writes as a hand does."""

    def __init__(self, folder):
        self.process, self.terminal = pty.fork()
        if self.process == 0:
            os.execvpe("zsh", ["zsh", "-f", "-i"], {**os.environ, "TERM": "dumb", "HOME": folder, "PS1": "> "})

    def write(self, text, awaited=None):
        """Writes, and reads until what is awaited comes, or for half a minute."""
        os.write(self.terminal, text.encode())
        told, end = "", time.monotonic() + 30
        while awaited and not re.search(awaited, told):
            if not select.select([self.terminal], [], [], max(0, end - time.monotonic()))[0]:
                raise AssertionError(f"{awaited} did not come: {told!r}")
            told += os.read(self.terminal, 4096).decode(errors="replace")
        if awaited is None:
            os.waitpid(self.process, 0)
            os.close(self.terminal)


class Words(unittest.TestCase):
    def test_bad_input(self):
        for tool, words, variable, status, said in [
                ("package", (), None, 2, "usage: "), ("package", ("/tmp/x", "--version", "new"), None, 2, "digits and dots"), ("package", ("/tmp/x",), "/nowhere/program", 2, "cannot be run"),
                ("package", ("/tmp/x",), os.path.join(program.TOP, "README.md"), 2, "is no binary"), ("package", ("/dev/null/x",), "/bin/true", 2, "cannot be made"),
                ("package", ("/tmp/x", "--library", "/nowhere"), "/bin/true", 2, "has no libtagymelur.a"), ("package", ("/tmp/x", "--log", "/nowhere"), "/bin/true", 2, "is no file"), ("c-library", (), None, 2, "usage: "), ("c-library", ("/tmp/x", "--built", "/nowhere/file"), None, 2, "is not there")]:
            done = support.run(tool, *words, environment={**os.environ, **({"TAGYMELUR": variable} if variable else {})})
            self.assertEqual((done.returncode, done.stdout), (status, ""), (tool, words))
            self.assertIn(said, done.stderr)
            self.assertNotIn("Traceback", done.stderr)

    @support.needs("zsh")
    def test_the_completion_of_zsh(self):
        """What zsh itself writes behind the front of a word, at the key Tab."""
        with tempfile.TemporaryDirectory() as room:
            with open(os.path.join(room, "_tagymelur"), "w", encoding="utf-8") as file:
                file.write(manual.for_zsh({name: manual.help_of(name) for name in ("draw", "as-json")}))
            shell = Shell(room)
            shell.write(f"bindkey -e; fpath=({room} $fpath); autoload -U compinit; compinit -u -D; tell() {{ print to''ld $@ }}; cd {room}; print re''ady\n", r"ready")
            for line, wanted in (("tagymelur lay", "tagymelur layout"), ("tagymelur run --tr", "tagymelur run --trace"), ("tagymelur layout D --st", "tagymelur layout D --steps"), ("tagymelur-draw --tab", "tagymelur-draw --tables"), ("tagymelur-as-json mem", "tagymelur-as-json memptr"),
                                 ("tagymelur-as-json --so", "tagymelur-as-json --source")):
                shell.write(f"{line}\t\x01tell \n", rf"told {wanted} *\r?\n")
            shell.write("exit\n")

    def test_words_that_are_completed(self):
        self.assertEqual(manual.options("usage: x [-h] [--steps N]\n   {layout,run}\n\n  --steps N  in --well-known words {no,words}\n"), ["--steps", "--well-known", "layout", "run"])

    def test_what_a_log_says(self):
        """The log of a build counts for the built program alone."""
        with tempfile.TemporaryDirectory() as room:
            log = os.path.join(room, "log")
            with open(log, "w", encoding="utf-8") as file:
                file.write("rt: foundation proved\n")
            self.assertEqual(proved.said("/bin/true", log), {})
            with unittest.mock.patch.object(proved, "TOP", room), unittest.mock.patch.object(proved, "needed", lambda: ["foundation"]):
                built = os.path.join(room, "crates", "tagymelur", "out", "tagymelur")
                os.makedirs(os.path.dirname(built))
                os.makedirs(os.path.join(room, "crates", "foundation", "src"))
                with open(built, "w", encoding="utf-8"), open(os.path.join(room, "crates", "foundation", "src", "lib.rt"), "w", encoding="utf-8") as source:
                    pass
                os.utime(source.name, (1e9, 1e9))
                self.assertEqual(proved.said(built, log), {"foundation": "proved"})
                os.utime(source.name, (4e9, 4e9))
                self.assertEqual(proved.said(built, log), {})

    def test_a_manual_page(self):
        page = manual.of_tool("none", "1", "usage: tools/none [-h]\n\nDoes nothing.\n\n.TH is no request here\n")
        self.assertIn("tagymelur\\-none \\- does nothing\n", page)
        self.assertIn("\\&.TH is no request", page)
        program_page = manual.of_program("1")
        self.assertIn(".B check\n", program_page)
        self.assertIn("the elements of new C[N] lie", program_page)
        self.assertIn("in which delete[] ends them; N is 1 to 4,096 (ARRAYS.md)\n", program_page)
        self.assertNotIn("docs/ARRAYS.md", program_page)


if __name__ == "__main__":
    unittest.main()
