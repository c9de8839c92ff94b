"""How far rt is, when a program is built, and what ./bench and ./check leave when they are interrupted. rt is a stand-in here."""

import os
import pathlib
import pty
import re
import shutil
import signal
import subprocess
import tempfile
import time
import unittest

import made

# The lines of rt for the rooms one, two and three, two edits and a program: of `rt ci`, and of `rt run` in the folder of room two.
RT = """#!/bin/sh
room() {
    sleep ${PAUSE:-0}
    printf '== %s\\nfn %s::f: proved\\nrt: %s %s\\n' $1 $1 $1 "$2"
}
library() {
    echo "rt: chose --jobs 2 for $1"
    sleep ${PAUSE:-0}
    printf 'fn %s::f: proved\\ncrate %s: modules loaded=0 checked=3\\nlogic=proved functions=1\\n' $1 $1
}
echo $$ > began
[ -z "$STUCK" ] || { sleep 300 & mktemp -d; : > stuck; sleep 300; }
if [ "$1" = run ]; then
    echo run >> ran
    library one
    library two
    [ -z "$STATUS" ] || { echo 'rt: the library two did not build, so nothing above it was checked'; exit $STATUS; }
    mkdir -p out
    printf '#!/bin/sh\\nsed s/^/read:/\\n' > out/two
    chmod +x out/two
    echo 'rt: running out/two; to give it other input, run that file yourself'
    exit 0
fi
room one "${FIRST:-proved}"
room two "${VERDICT:-proved}"
room three proved
echo 'rt: two: trying its must-fail edits (2)'
sleep ${PAUSE:-0}
echo 'rt: must-fail two/first.edit: refused, as it must be: why'
echo 'rt: must-fail two/second.edit: refused, as it must be: why'
sleep ${PAUSE:-0}
echo 'rt: two ran, and wrote what its file stdout has'
[ -n "$STATUS" ] || echo "rt: ok; handles allowed: none; must-fail edits: 2 refused$BAD; every proof and must-fail edit was done in this run"
echo "7 passed, ${FAILED:-0} failed"
exit ${STATUS:-0}
"""
ASKED = {"PAUSE", "STUCK", "FIRST", "VERDICT", "BAD", "FAILED", "STATUS"}  # what a test asks of it
PATIENCE = 20
PAUSE = "0.4"  # long enough for a look


def gone(process):
    """Whether the process has ended, or is a husk that nobody has looked at yet."""
    try:
        return pathlib.Path(f"/proc/{process}/stat").read_text().rpartition(")")[2].split()[0] == "Z"
    except OSError:
        return True


class Case(unittest.TestCase):
    def setUp(self):
        folder = tempfile.TemporaryDirectory()
        self.addCleanup(folder.cleanup)
        self.place = pathlib.Path(folder.name)
        (self.place / "bin").mkdir()
        (self.place / "scratches").mkdir()
        (self.place / "bin/rt").write_text(RT)
        (self.place / "bin/rt").chmod(0o755)
        (self.place / "crates.txt").write_text("# rooms\none:\ntwo: one io\nthree staticlib: one\n")
        (self.place / "crates/two/src").mkdir(parents=True)
        (self.place / "crates/two/src/main.rt").write_text("")
        path = f"{self.place / 'bin'}:{os.environ['PATH']}"
        ours = {name: word for name, word in os.environ.items() if name not in ASKED}
        self.environment = ours | {"PATH": path, "TMPDIR": str(self.place / "scratches"), "COLUMNS": "100"}

    def progress(self, *words, **more):
        return subprocess.run([made.ROOT / "tools/progress", *words], cwd=self.place, env=self.environment | more,
                              text=True, capture_output=True)


class Progress(Case):
    def test_plain_lines_and_times(self):
        words = ("--took", "second program=12", "--took", "tools' tests=3", "check", "rt", "ci")
        ran = self.progress(*words, PAUSE=PAUSE)
        self.assertEqual(ran.returncode, 0)
        said = [re.fullmatch("(.*), [0-9]+:[0-9]{2}", line)[1] for line in ran.stderr.splitlines()]
        rooms = ["check: 0 of 3 rooms proved", *(f"check: {at} of 3 rooms proved ({name})" for at, name in enumerate(("one", "two"), 1))]
        every = [*rooms, "check: trying must-fail edits", "check: running the tests and programs"]
        self.assertEqual(said, [line for line in every if line in said])
        self.assertGreater(len(said), len(every) // 2)  # a busy machine may pass over some
        *lines, last = ran.stdout.splitlines()
        self.assertEqual(last, "7 passed, 0 failed")
        self.assertEqual(lines[-5:-3], ["second program: 12 s", "tools' tests: 3 s"])
        self.assertRegex("\n".join(lines[-3:]), "^proving of rooms: [0-9]+ s\nmust-fail edits: [0-9]+ s\ntests and programs: [0-9]+ s$")
        self.assertEqual(lines[:3], ["== one", "fn one::f: proved", "rt: one proved"])

    def test_rooms_that_an_earlier_run_proved_count(self):
        ran = self.progress("check", "rt", "ci", FIRST="is kept: an earlier run on this machine proved the same", PAUSE=PAUSE)
        self.assertIn("check: 1 of 3 rooms proved (one), 0:0", ran.stderr)
        self.assertIn("check: running the tests and programs", ran.stderr)

    def test_status_and_last_line_of_a_failure(self):
        ran = self.progress("--took", "x=1", "check", "rt", "ci", VERDICT="NOT PROVED", STATUS="3", FAILED="1")
        self.assertEqual(ran.returncode, 3)
        self.assertEqual(ran.stdout.splitlines()[-1], "7 passed, 1 failed")
        self.assertIn("rt: two NOT PROVED", ran.stdout)
        ran = self.progress("--took", "x=1", "check", "rt", "ci", STATUS="3")
        self.assertEqual(ran.returncode, 3)
        self.assertEqual(ran.stdout.splitlines()[-1], "check: failed with status 3")

    def test_bad_edits_fail(self):
        for said in (", 12 bad", ", 1 of them only by a limit, 12 bad"):
            ran = self.progress("--took", "x=1", "--then", "y=echo never", "check", "rt", "ci", BAD=said)
            self.assertEqual(ran.returncode, 1)
            self.assertEqual(ran.stdout.splitlines()[-1], "check: must-fail edits that are bad: 12")
            self.assertNotIn("never", ran.stdout)
        ran = self.progress("check", "rt", "ci", BAD=", 2 of them only by a limit")
        self.assertEqual((ran.returncode, ran.stdout.splitlines()[-1]), (0, "7 passed, 0 failed"))

    def test_one_more_part(self):
        ran = self.progress("--took", "x=1", "--then", "library for C=echo as it must be", "check", "rt", "ci")
        self.assertEqual(ran.returncode, 0)
        *lines, last = ran.stdout.splitlines()
        self.assertEqual(last, "7 passed, 0 failed")
        self.assertIn("as it must be", lines)
        self.assertRegex(lines[-1], "^library for C: [0-9]+ s$")

    def test_one_more_part_that_fails(self):
        ran = self.progress("--took", "x=1", "--then", "library for C=echo why; exit 4", "check", "rt", "ci")
        self.assertEqual(ran.returncode, 4)
        self.assertIn("why", ran.stdout.splitlines())
        self.assertEqual(ran.stdout.splitlines()[-1], "check: library for C failed")
        ran = self.progress("--took", "x=1", "--then", "y=echo why", "check", "rt", "ci", VERDICT="NOT PROVED", STATUS="3", FAILED="1")
        self.assertEqual(ran.returncode, 3)
        self.assertNotIn("why", ran.stdout.splitlines())

    def test_one_part_after_the_other(self):
        ran = self.progress("--took", "x=1", "--then", "archives=touch made", "--then", "library=ls made", "check", "rt", "ci")
        self.assertEqual(ran.returncode, 0)
        *lines, last = ran.stdout.splitlines()
        self.assertEqual(last, "7 passed, 0 failed")
        self.assertIn("made", lines)
        self.assertRegex("\n".join(lines[-2:]), "^archives: [0-9]+ s\nlibrary: [0-9]+ s$")

    def test_no_part_after_one_that_fails(self):
        ran = self.progress("--took", "x=1", "--then", "archives=echo why; exit 4", "--then", "y=echo never", "check", "rt", "ci")
        self.assertEqual(ran.returncode, 4)
        self.assertIn("why", ran.stdout.splitlines())
        self.assertNotIn("never", ran.stdout)
        self.assertEqual(ran.stdout.splitlines()[-1], "check: archives failed")

    def test_quiet(self):
        words = ("--quiet", "--in", "crates/two", "--rooms", "two", "bench", "rt", "run")
        ran = self.progress(*words, PAUSE=PAUSE)
        self.assertEqual((ran.returncode, ran.stdout), (0, ""))
        self.assertRegex(ran.stderr, r"(?m)^bench: [01] of up to 2 rooms proved, now (one|two), [0-9]+:[0-9]{2}$")
        self.assertNotIn("rt: ", ran.stderr)
        failed = self.progress(*words, STATUS="1")
        self.assertEqual((failed.returncode, failed.stdout), (1, ""))
        self.assertNotIn("modules loaded", failed.stderr)  # what is counted says nothing of the error
        self.assertTrue(failed.stderr.endswith("logic=proved functions=1\nrt: the library two did not build, so nothing above it was checked\n"))

    def test_one_line_on_a_terminal(self):
        ours, theirs = pty.openpty()
        command = [made.ROOT / "tools/progress", "--took", "x=1", "check", "rt", "ci"]
        environment = self.environment | {"PAUSE": PAUSE, "VERDICT": "NOT PROVED"}
        with subprocess.Popen(command, cwd=self.place, env=environment, stdout=theirs, stderr=theirs) as ran:
            os.close(theirs)
            seen = b""
            while True:
                try:
                    seen += os.read(ours, 65536)
                except OSError:
                    break
        os.close(ours)
        self.assertEqual(ran.returncode, 0)
        lines = [line.rpartition("\x1b[K")[2] for line in seen.decode().replace("\r\n", "\n").split("\n")]
        self.assertEqual(lines[:2], ["== two", "fn two::f: proved"])
        self.assertRegex(lines[3], "^rt: ok; ")  # the lines of what went well are left out
        self.assertEqual(lines[4], "x: 1 s")
        self.assertEqual(lines[-2:], ["7 passed, 0 failed", ""])
        self.assertRegex(seen.decode(), "\r\x1b\\[Kcheck: [012] of 3 rooms proved")


class Programs(Case):
    """./layers, with the program of room two in the place of its own."""

    def setUp(self):
        super().setUp()
        (self.place / "tools").mkdir()
        for name in ("layers", "tools/apart.sh", "tools/proved.sh", "tools/progress"):
            shutil.copy(made.ROOT / name, self.place / name)
        script = (self.place / "layers").read_text()
        (self.place / "layers").write_text(script.replace("proved layers layers", "proved layers two"))
        (self.place / "day").write_text("one\n")

    def layers(self, **more):
        ran = subprocess.run(["./layers", "day"], cwd=self.place, env=self.environment | more, text=True, capture_output=True)
        return ran.returncode, ran.stdout

    def built(self):
        """How often rt was asked."""
        try:
            return len((self.place / "crates/two/ran").read_text().split())
        except OSError:
            return 0

    def test_only_the_first_run_builds(self):
        for _ in range(2):
            self.assertEqual(self.layers(), (0, "read:one\n"))
            self.assertEqual(self.built(), 1)
        self.assertEqual(list((self.place / "scratches").iterdir()), [])

    def test_a_changed_source_builds_again(self):
        self.layers()
        later = time.time() + 5
        os.utime(self.place / "crates/two/src/main.rt", (later, later))
        self.layers()
        self.assertEqual(self.built(), 2)

    def test_nothing_is_started_that_is_not_proved(self):
        self.assertEqual(self.layers(STATUS="1"), (1, ""))


def heeds_the_keyboard():
    """What a shell starts in the background ignores SIGINT, and so would all that it starts."""
    signal.signal(signal.SIGINT, signal.SIG_DFL)


class Interrupted(Case):
    """./bench, told to end while rt is at work."""

    def setUp(self):
        super().setUp()
        (self.place / "tools").mkdir()
        (self.place / "crates/bench").mkdir()
        for name in ("bench", "tools/apart.sh", "tools/proved.sh", "tools/progress"):
            shutil.copy(made.ROOT / name, self.place / name)

    def wait_for(self, done):
        end = time.monotonic() + PATIENCE
        while not done():
            self.assertLess(time.monotonic(), end, "it took too long")
            time.sleep(0.05)

    def interrupt(self, number):
        ran = subprocess.Popen(["./bench"], cwd=self.place, env=self.environment | {"STUCK": "1"},
                               stdin=subprocess.DEVNULL, stdout=subprocess.PIPE, stderr=subprocess.STDOUT,
                               preexec_fn=heeds_the_keyboard)
        self.addCleanup(ran.kill)
        self.wait_for((self.place / "crates/bench/stuck").exists)
        group = os.getpgid(int((self.place / "crates/bench/began").read_text()))
        found = subprocess.run(["pgrep", "-g", str(group)], capture_output=True, text=True).stdout.split()
        self.assertGreater(len(found), 2)  # the tool, rt, and what rt started
        ran.send_signal(number)
        said = ran.communicate(timeout=PATIENCE)[0].decode()
        self.assertEqual(ran.returncode, 128 + number, said)
        self.wait_for(lambda: all(map(gone, found)))

    def left(self, number):
        before = set(self.place.rglob("*"))
        self.interrupt(number)
        self.assertEqual(list((self.place / "scratches").iterdir()), [])
        return {path.name for path in set(self.place.rglob("*")) - before}

    def test_by_the_keyboard(self):
        self.assertEqual(self.left(signal.SIGINT), {"began", "stuck"})

    def test_by_another_program(self):
        self.assertEqual(self.left(signal.SIGTERM), {"began", "stuck"})


if __name__ == "__main__":
    unittest.main()
