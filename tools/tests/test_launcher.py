"""The launcher at the top of the repository, with a toolchain that only notes what it is asked for."""
import os
import shutil
import signal
import subprocess
import time

from support import TOP, Folder

# A command rt that notes its words; the files beside it say what it is to do.
RT = r"""#!/usr/bin/env bash
here=$(dirname "$(readlink -f "$0")")
[ "$1" = version ] || echo "$PWD $*" >>"$here/calls"
case $1 in
  version) echo "rattle-kit-1 logic $(cat "$here/logic")" ;;
  all)
    echo "== low"; echo "logic=proved low"
    if [ -e "$here/slow" ]; then echo $$ >"$here/pid"; sleep 60 & wait; fi
    [ ! -e "$here/fails" ] || exit 1
    echo "== bookfmt"; echo "logic=proved bookfmt"; echo "== summary"; echo "2 of 2 crates ok" ;;
  run)
    printf '#!/bin/sh\necho "words: $*"\necho "in: $(cat)"\nexit 3\n' >"out/${PWD##*/}"
    chmod +x "out/${PWD##*/}"; echo "logic=proved"; exit 2 ;;
  try)
    [ ! -e "$here/large" ] || { echo "out of room" >&2; echo "run=none proved=no" >&2; exit 6; }
    while [ "$1" != -- ]; do [ "$1" != --data ] || { echo "data ${2%%=*}: $(cat "${2#*=}")"; }; shift; done
    shift
    echo "words: $*"; echo "bookfmt: 1 pages, 1 passes" >&2; echo "checked: ended status=4" >&2
    echo "run=ended status=4 runners=1 proved=no" >&2; exit 4 ;;
esac
"""


PATIENCE = 120


def soon(holds):
    """Waits until something holds."""
    limit = time.monotonic() + PATIENCE
    while not holds():
        if time.monotonic() > limit:
            raise AssertionError("it didn't come in time")
        time.sleep(0.05)


def has_ended(process):
    """Whether a process is no more, or waits for nothing but that its end is noted."""
    try:
        with open(f"/proc/{process}/stat", encoding="utf-8") as file:
            return file.read().rpartition(")")[2].split()[0] == "Z"
    except FileNotFoundError:
        return True


class Launcher(Folder):
    def setUp(self):
        super().setUp()
        shutil.copy(os.path.join(TOP, "bookfmt"), self.path("bookfmt"))
        for folder in ("bin", "crates/bookfmt/src", "crates/low/src", "crates/low/specs", "crates/other/src"):
            os.makedirs(self.path(folder))
        self.write("bin/rt", RT)
        os.chmod(self.path("bin/rt"), 0o755)
        self.write("bin/logic", "abc")
        self.write("crates.txt", "# all crates\nlow:\nother: low\nbookfmt: low std\n")
        for name in (
            "crates/bookfmt/src/main.rt",
            "crates/low/src/lib.rt",
            "crates/low/specs/Lib.antt",
            "crates/other/src/lib.rt",
        ):
            self.write(name, "1")

    def start(self, *words, path=None, stdin="x"):
        environment = {**os.environ, "PATH": f"{path or self.path('bin')}:/usr/bin:/bin"}
        ran = subprocess.run(
            [self.path("bookfmt"), *words],
            input=stdin,
            capture_output=True,
            text=True,
            cwd=self.folder,
            env=environment,
            timeout=600,
            check=False,
        )
        return ran.returncode, ran.stdout, ran.stderr

    def calls(self):
        """What the toolchain was asked for since the last look."""
        try:
            lines = self.read("bin/calls").splitlines()
            os.remove(self.path("bin/calls"))
        except FileNotFoundError:
            return []
        return [line.removeprefix(os.path.realpath(self.folder) + "/") for line in lines]

    def is_built_by_next_start(self):
        self.calls()
        self.assertEqual(self.start()[0], 3)
        return [line.split()[1] for line in self.calls()] == ["all", "run"]

    def test_first_start_builds_and_runs(self):
        status, out, err = self.start("format", "a b")
        self.assertEqual((status, out), (3, "words: format a b\nin: x\n"))
        self.assertIn("2 crates", err)
        first, second = self.calls()
        self.assertRegex(first, "^crates/bookfmt all check --jobs [1-9][0-9]*$")
        self.assertEqual(second, "crates/bookfmt run")

    def test_unread_is_a_program_of_its_own(self):
        os.makedirs(self.path("crates/unread/src"))
        self.write("crates/unread/src/main.rt", "1")
        self.write("crates.txt", "low:\nbookfmt: low std\nunread: low std\n")
        status, out, err = self.start("--unread", "format", "a b")
        self.assertEqual((status, out), (3, "words: format a b\nin: x\n"))
        self.assertIn("2 crates", err)
        first, second = self.calls()
        self.assertRegex(first, "^crates/unread all check --jobs [1-9][0-9]*$")
        self.assertEqual(second, "crates/unread run")
        self.assertEqual(self.start("--unread"), (3, "words: \nin: x\n", ""))
        self.start()
        self.assertEqual(self.calls()[-1], "crates/bookfmt run")

    def test_a_start_over_the_same_sources_asks_for_nothing(self):
        self.start()
        self.calls()
        self.assertEqual(self.start("sample", "3"), (3, "words: sample 3\nin: x\n", ""))
        self.assertEqual(self.calls(), [])
        self.assertEqual(self.start(path="/nonexistent")[0], 3)

    def test_what_builds_anew(self):
        self.assertTrue(self.is_built_by_next_start())
        self.write("crates/low/src/lib.rt", "2")
        self.assertTrue(self.is_built_by_next_start())
        self.assertFalse(self.is_built_by_next_start())
        self.write("crates/low/src/more.rt", "1")
        self.assertTrue(self.is_built_by_next_start())
        os.remove(self.path("crates/low/specs/Lib.antt"))
        self.assertTrue(self.is_built_by_next_start())
        self.write("crates.txt", "low:\nbookfmt: low\n")
        self.assertTrue(self.is_built_by_next_start())
        self.write("bin/logic", "def")
        self.write("bin/rt", RT + "\n")
        self.assertTrue(self.is_built_by_next_start())
        os.remove(self.path("crates/bookfmt/out/bookfmt"))
        self.assertTrue(self.is_built_by_next_start())
        self.assertFalse(self.is_built_by_next_start())

    def test_what_does_not(self):
        self.start()
        os.utime(self.path("crates/low/src/lib.rt"))
        self.assertFalse(self.is_built_by_next_start())
        self.write("crates/low/src/lib.rt", "1")
        self.assertFalse(self.is_built_by_next_start())
        self.write("crates/other/src/lib.rt", "2")
        self.write("crates.txt", "low:\nother: low more\nbookfmt: low std\n# words\n")
        self.assertFalse(self.is_built_by_next_start())
        self.write("bin/rt", RT.replace("kit-1", "kit-2"))
        self.assertFalse(self.is_built_by_next_start())

    def test_an_edit_that_keeps_the_time_is_seen(self):
        self.start()
        file = self.path("crates/low/src/lib.rt")
        was = os.stat(file)
        self.write("crates/low/src/lib.rt", "2")
        os.utime(file, ns=(was.st_atime_ns, was.st_mtime_ns))
        self.assertTrue(self.is_built_by_next_start())

    def test_a_build_that_fails(self):
        self.write("bin/fails", "")
        status, out, err = self.start()
        self.assertEqual((status, out), (125, ""))
        self.assertIn("crates/bookfmt/out/build.log says why", err)
        os.remove(self.path("bin/fails"))
        self.assertTrue(self.is_built_by_next_start())

    def test_without_a_toolchain(self):
        status, _, err = self.start(path="/nonexistent")
        self.assertEqual(status, 125)
        self.assertIn("the command rt is missing", err)

    def test_a_signal_ends_the_build_too(self):
        for number, wanted in ((signal.SIGTERM, 143), (signal.SIGHUP, 129)):
            self.write("bin/slow", "")
            environment = {**os.environ, "PATH": f"{self.path('bin')}:/usr/bin:/bin"}
            with open(self.path("told"), "wb") as told:
                # under nohup a hangup is ignored, which the launcher would inherit
                running = subprocess.Popen(
                    [self.path("bookfmt")], env=environment, stderr=told, stdin=subprocess.DEVNULL,
                    preexec_fn=lambda number=number: signal.signal(number, signal.SIG_DFL)
                )
            soon(lambda: os.path.exists(self.path("bin/pid")) and self.read("bin/pid").endswith("\n"))
            started = int(self.read("bin/pid"))
            running.send_signal(number)
            self.assertEqual(running.wait(PATIENCE), wanted)
            soon(lambda process=started: has_ended(process))
            told_then = self.read("told")
            time.sleep(1.5)
            self.assertEqual(self.read("told"), told_then)
            os.remove(self.path("bin/pid"))
            os.remove(self.path("bin/slow"))
            self.assertTrue(self.is_built_by_next_start())
            self.write("crates/low/src/lib.rt", str(number))

    def test_unproved(self):
        self.write("b.html", "html")
        self.write("-c", "css")
        options = "--passes", "3", "--gap=8", "--columns", "2"
        status, out, err = self.start("--unproved", "format", *options, "nosuch", "b.html", "--", "-c")
        self.assertEqual(status, 4)
        words = f"format {' '.join(options)} file-1 file-2 -- file-3"
        self.assertEqual(out, f"data file-2: html\ndata file-3: css\nwords: {words}\n")
        self.assertEqual(
            err,
            "bookfmt: unproved: nothing that README.md says is proved holds of this run\n"
            "bookfmt: 1 pages, 1 passes\n",
        )
        self.assertEqual([line.split()[1] for line in self.calls()], ["try"])
        self.assertEqual(self.start("--unproved", "sample", "3")[1], "words: sample 3\n")

    def test_unproved_without_an_answer(self):
        self.write("bin/large", "")
        status, out, err = self.start("--unproved", "sample", "3")
        self.assertEqual((status, out), (124, ""))
        self.assertIn("unproved: no answer", err)


if __name__ == "__main__":
    import unittest

    unittest.main()
