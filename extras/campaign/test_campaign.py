"""The tool with a program that stands in for a429: what a recording's first line says is what it answers."""

import csv
import io
import json
import os
import random
import re
import shutil
import signal
import subprocess
import tempfile
import time
import unittest
import xml.etree.ElementTree as ET
from pathlib import Path

HERE = Path(__file__).resolve().parent
CAMPAIGN = HERE / "campaign"
# What a shell starts in the background ignores SIGINT, and so would all that is started here.
signal.signal(signal.SIGINT, signal.default_int_handler)
# `yes 1:AB 2:C`, `no impossible 5 NoForm`, `status 4 device`, `wait` and then yes. Its version is the file `version`.
STAND_IN = """\
#!/bin/sh
here=$(dirname "$0")
case $1 in
version) cat "$here/version"; exit ;;
keep) cat "$3"; exit ;;
cut) cp "$3" "$4/000001.csv"; echo part 1 entries 1 from 0; echo part 1 entries 1 from 0 >"$4/parts.txt"; exit ;;
series) cat "$3/parts.txt" "$3/000001.cert"; exit ;;
esac
read -r kind rest <"$3" || { echo device >&2; exit 4; }
case $kind in
status) echo "${rest#* }" >&2; exit "${rest%% *}" ;;
killed) kill -9 $$ ;;
no) >"$4"; echo "$rest"; case $rest in IMP*) exit 1 ;; *) exit 2 ;; esac ;;
wait) echo >>began; while [ -e hold ]; do sleep 0.02; done ;;
slow) sleep 0.0$(($$ % 10)) ;;
change) echo >>"$3" ;;
esac
if [ "$1" = decide ]; then
    echo "certificate of $rest" >"$4"
    echo "YES files $(echo "$rest" | wc -w)"
    for it in $rest; do echo "file ${it%:*} $(printf %s "${it#*:}" | wc -c)"; done
else
    place=0
    for it in $rest; do place=$((place + 1)); printf %s "${it#*:}" >"$5/$(printf %06d $place).bin"; done
fi
"""


class Folder(unittest.TestCase):
    """A campaign in a folder of its own."""

    def setUp(self):
        room = tempfile.TemporaryDirectory()
        self.addCleanup(room.cleanup)
        self.room = Path(room.name)
        self.program, self.folder = self.room / "a429", self.room / "bench"
        self.program.write_text(STAND_IN)
        self.program.chmod(0o755)
        (self.room / "version").write_text("a429 1\ncertificates 1 2\n")
        (self.folder / "recordings").mkdir(parents=True)
        (self.folder / "bench.toml").write_text("profile\n")
        self.env = {**os.environ, "A429": str(self.program)}

    def put(self, recordings, sent={}):
        """Recordings by name, and what was sent."""
        for name, says in recordings.items():
            (self.folder / "recordings" / f"{name}.csv").write_text(f"{says}\n")
        for name, files in sent.items():
            (self.folder / "sent" / name).mkdir(parents=True)
            for number, text in files.items():
                (self.folder / "sent" / name / number).write_text(text)

    def start(self, *words):
        return subprocess.Popen(
            [CAMPAIGN, *words], cwd=self.folder, env=self.env, stdout=subprocess.PIPE, stderr=subprocess.PIPE, text=True
        )

    def run_it(self, *words, status=0):
        """What a command writes, to standard output and to standard error. It ends with this status."""
        process = self.start(*words)
        output, error = process.communicate()
        self.assertEqual(process.returncode, status, error)
        return output, error

    def out(self, *words, status=0):
        return self.run_it(*words, status=status)[0]

    def result(self, name):
        return json.loads((self.folder / "results" / name / "result.json").read_text())

    def outcomes(self):
        return {row["id"]: row["outcome"] for row in csv.DictReader(io.StringIO(self.out("table", "csv")))}


class Judging(Folder):
    CASES = {
        # recording, what was sent, outcome, message, status of judge
        "good": ("yes 1:AB 2:C", {"1": "AB", "2": "C"}, "as-sent", "", 0),
        "hidden files do not count": ("yes 1:A", {"1": "A", ".note": "x"}, "as-sent", "", 0),
        "nothing sent": ("yes", {}, "as-sent", "", 0),
        "nothing": ("yes", {"1": "A"}, "no-file", "no file crossed", 0),
        "nothing known": ("yes", None, "no-file", "no file crossed", 0),
        "not known": ("yes 1:A", None, "not-compared", "not known what was sent", 0),
        "other bytes": ("yes 1:A", {"1": "B"}, "other-files", "other bytes 1", 0),
        "other number": ("yes 2:A", {"1": "A"}, "other-files", "missing 1; not sent 2", 0),
        "one too few": ("yes 1:A", {"1": "A", "2": "B"}, "other-files", "missing 2", 0),
        "number twice": ("yes 1:A 2:B 1:C", {"1": "A", "2": "B", "1-3": "C"}, "as-sent", "", 0),
        "number twice, one sent": ("yes 1:A 1:A", {"1": "A"}, "other-files", "not sent 1-2", 0),
        "impossible": ("no IMPOSSIBLE 5 NoForm", {"1": "A"}, "impossible", "5 NoForm", 0),
        "unexplained": ("no UNEXPLAINED 0 NeverWhole", None, "unexplained", "0 NeverWhole", 0),
        "refused": ("status 3 recording: header", None, "refused", "recording: header", 0),
        "device": ("status 4 device", None, "failed", "status 4 device", 75),
        "usage": ("status 5 usage", None, "failed", "status 5 usage", 75),
        "killed": ("killed", None, "failed", "status -9", 75),
        "changed": ("change 1:A", None, "failed", "a file changed while it was judged", 75),
    }

    def test_each_outcome(self):
        sent = {name: it[1] for name, it in self.CASES.items() if it[1] is not None}
        self.put({name: it[0] for name, it in self.CASES.items()}, sent)
        self.out("init", "recordings")
        for status in (0, 75):
            some = {name: it[3] for name, it in self.CASES.items() if it[4] == status}
            output, error = self.run_it("judge", "-j", "4", *some, status=status)
            self.assertEqual(output, "")
            said = [f"campaign: {name}: {message}" for name, message in some.items() if status]
            self.assertEqual(sorted(error.splitlines()), sorted(said))
        for name, (_, _, outcome, message, _) in self.CASES.items():
            with self.subTest(name):
                found = self.result(name)
                self.assertEqual((found["outcome"], found["message"]), (outcome, message))
                self.assertEqual((self.folder / "results" / name / "certificate").exists(), found.get("verdict") == "YES")
        names = sorted(self.CASES, key="{}.csv".format)
        kinds = {name: "error" if it[2] in ("refused", "failed") else "failure" for name, it in self.CASES.items() if it[2] != "as-sent"}
        with self.subTest("list"):
            listed = self.out("list", status=2).splitlines()
            self.assertEqual(listed[:-1], [f"{it}: {self.CASES[it][2]}, {self.CASES[it][3]}" for it in names if it in kinds])
        with self.subTest("todo"):
            self.assertEqual(self.out("todo").splitlines(), [it for it in names if self.CASES[it][2] == "failed"])
        with self.subTest("csv, ndjson"):
            wanted = {name: self.CASES[name][2] for name in names}
            self.assertEqual(self.outcomes(), wanted)
            self.assertEqual({it["id"]: it["outcome"] for it in map(json.loads, self.out("table", "ndjson").splitlines())}, wanted)
        with self.subTest("junit"):
            suite = ET.fromstring(self.out("table", "junit"))
            found = {case.get("name"): [(it.tag, it.get("type")) for it in case] for case in suite}
            self.assertEqual(found, {it: [(kinds[it], self.CASES[it][2])] if it in kinds else [] for it in names})
            totals = [int(suite.get(it)) for it in ("tests", "failures", "errors")]
            self.assertEqual(totals, [len(names), *([*kinds.values()].count(it) for it in ("failure", "error"))])
            for case in suite:
                self.assertEqual(case.get("file"), f"recordings/{case.get('name')}.csv")
                self.assertRegex(case.get("time"), r"^\d+\.\d+$")
                self.assertRegex(case.get("timestamp"), r"^\d{4}-\d\d-\d\dT\d\d:\d\d:\d\dZ$")

    def test_the_sums_are_those_of_sha256sum(self):
        self.put({"a": "yes 1:AB 2:C"}, {"a": {"1": "AB", "2": "C"}})
        self.out("init", "recordings")
        self.out("judge")
        found = self.result("a")

        def sum_of(command):
            return subprocess.run(command, shell=True, cwd=self.folder, check=True, capture_output=True, text=True).stdout.split()[0]

        for key, command in {
            "recording_sha256": "sha256sum recordings/a.csv",
            "profile_sha256": "sha256sum bench.toml",
            "sent_sha256": "cd sent/a && sha256sum * | sha256sum",
            "certificate_sha256": "sha256sum results/a/certificate",
        }.items():
            self.assertEqual(found[key], sum_of(command), key)
        self.assertEqual(found["program"], "a429 1")
        self.assertEqual([it["sha256"] for it in found["files"]], [sum_of(f"sha256sum results/a/files/{it}") for it in (1, 2)])

    def test_no_program(self):
        self.put({"a": "yes"})
        self.out("init", "recordings")
        self.program.unlink()
        for words in (["judge", "a"], ["judge"], ["todo"], ["list"], ["table", "csv"]):
            self.assertRegex(self.run_it(*words, status=75)[1], "^campaign: no program ", words)
        self.assertFalse((self.folder / "results/a").exists())


class Todo(Folder):
    def setUp(self):
        super().setUp()
        self.put({f"r{it}": "yes 1:A" for it in range(1, 6)}, {f"r{it}": {"1": "A"} for it in range(1, 6)})
        self.out("init", "recordings")
        self.out("judge", "-j", "3")

    def todo(self):
        return self.out("todo").split()

    def test_nothing(self):
        self.assertEqual(self.out("todo"), "")
        self.assertEqual(self.out("todo", "--array", "2"), "")
        self.assertEqual(self.out("list"), "5 as-sent\n")

    def test_each_change(self):
        (self.folder / "recordings/r1.csv").write_text("yes 1:B\n")
        (self.folder / "recordings/r2.csv").unlink()
        (self.folder / "sent/r3/2").write_text("B")
        shutil.rmtree(self.folder / "results/r4")
        self.assertEqual(self.todo(), ["r1", "r2", "r3", "r4"])
        self.assertEqual(self.outcomes(), {"r1": "changed", "r2": "changed", "r3": "changed", "r4": "missing", "r5": "as-sent"})
        self.assertEqual(self.run_it("judge", status=75)[1], "campaign: r2: recordings/r2.csv: No such file or directory\n")
        self.assertEqual(self.outcomes(), {"r1": "other-files", "r2": "failed", "r3": "other-files", "r4": "as-sent", "r5": "as-sent"})

    def test_profile_and_program(self):
        (self.folder / "bench.toml").write_text("other\n")
        self.assertEqual(len(self.todo()), 5)
        (self.folder / "bench.toml").write_text("profile\n")
        self.assertEqual(self.todo(), [])
        (self.room / "version").write_text("a429 2\n")
        self.assertEqual(len(self.todo()), 5)

    def test_what_only_looks_changed(self):
        (self.folder / "recordings/r1.csv").touch()
        (self.folder / "recordings/r2.csv").rename(self.folder / "r2")
        shutil.copy(self.folder / "r2", self.folder / "recordings/r2.csv")
        self.assertEqual(self.todo(), [])

    def test_a_result_that_is_not_whole(self):
        (self.folder / "results/r1/certificate").write_text("")
        (self.folder / "results/r2/files/1").unlink()
        (self.folder / "results/r3/result.json").write_text("{")
        self.assertEqual(self.todo(), ["r1", "r2", "r3"])
        self.out("judge")
        self.assertEqual(self.todo(), [])

    def test_arrays(self):
        for it in (1, 2, 3, 5):
            shutil.rmtree(self.folder / f"results/r{it}")
        self.assertEqual(self.out("todo", "--array", "1"), "1-3,5\n")
        self.assertEqual(self.out("todo", "--array", "2"), "1-3\n")
        self.assertEqual(self.out("todo", "--array", "3"), "1-2\n")
        self.assertEqual(self.out("todo", "--array", "4"), "1-2\n")
        self.out("judge", "--array", "2", "2")
        self.assertEqual(self.todo(), ["r1", "r2", "r5"])
        # (a chunk that is done, and one past the end)
        self.out("judge", "--array", "2", "2", "9")
        self.out("judge", "--array", "2", "1", "3")
        self.assertEqual(self.todo(), [])

    def test_rows_by_number_and_id(self):
        shutil.rmtree(self.folder / "results")
        self.out("judge", "2", "r4")
        self.assertEqual(self.todo(), ["r1", "r3", "r5"])
        self.assertEqual(self.run_it("judge", "6", status=5)[1], "campaign: no row 6\n")

    def test_a_failure_does_not_replace_a_verdict_on_the_same_files(self):
        self.program.write_text(STAND_IN.replace("case $kind in", "exit 4\ncase $kind in"))
        self.run_it("judge", "r1", status=75)
        self.assertEqual(self.result("r1")["outcome"], "as-sent")
        (self.folder / "recordings/r1.csv").write_text("yes 1:B\n")
        self.run_it("judge", "r1", status=75)
        self.assertEqual(self.result("r1")["outcome"], "failed")


class Stops(Folder):
    def wait_for(self, count):
        began = self.folder / "began"
        end = time.monotonic() + 30
        while not (began.exists() and began.read_text().count("\n") >= count):
            self.assertLess(time.monotonic(), end, "no call began")
            time.sleep(0.02)

    def left(self):
        return os.listdir(self.folder / "results/.judging")

    def test_two_judges_of_one_row_at_once(self):
        self.put({"a": "wait 1:A"}, {"a": {"1": "A"}})
        self.out("init", "recordings")
        (self.folder / "hold").touch()
        judges = [self.start("judge", "a") for _ in range(4)]
        self.wait_for(4)
        (self.folder / "hold").unlink()
        self.assertEqual([it.communicate()[1] + str(it.returncode) for it in judges], ["0"] * 4)
        self.assertEqual(self.out("list"), "1 as-sent\n")
        self.assertEqual(sorted(os.listdir(self.folder / "results")), [".judging", "a"])
        self.assertEqual(self.left(), [])

    def test_two_judges_of_one_row_that_changed(self):
        self.put({"a": "yes 1:B"}, {"a": {"1": "A"}})
        self.out("init", "recordings")
        for text in ("A", "B", "A"):
            self.put({"a": f"yes 1:{text}"})
            judges = [self.start("judge", "a") for _ in range(6)]
            self.assertEqual([it.communicate()[1] + str(it.returncode) for it in judges], ["0"] * 6)
            self.assertEqual(self.result("a")["outcome"], "as-sent" if text == "A" else "other-files")
            self.assertEqual((self.folder / "results/a/files/1").read_text(), text)
        self.assertEqual(self.left(), [])

    def test_a_stop_leaves_nothing_and_is_no_failure(self):
        for number in (signal.SIGINT, signal.SIGTERM):
            with self.subTest(number):
                self.put({it: "wait 1:A" for it in "abcd"})
                (self.folder / "manifest.csv").unlink(missing_ok=True)
                self.out("init", "recordings")
                (self.folder / "hold").touch()
                process = subprocess.Popen(
                    [CAMPAIGN, "judge", "-j", "2"], cwd=self.folder, env=self.env, stderr=subprocess.PIPE, start_new_session=True
                )
                self.wait_for(2)
                os.killpg(process.pid, number)
                self.assertEqual((process.communicate()[1], process.returncode), (b"", 128 + number))
                self.assertEqual((self.left(), self.out("todo").split()), ([], [*"abcd"]))
                (self.folder / "began").unlink()

    def test_killed_at_any_moment(self):
        names = [f"r{it:02}" for it in range(24)]
        self.put({it: "slow 1:A" for it in names}, {it: {"1": "A"} for it in names})
        self.out("init", "recordings")
        done, chance = set(), random.Random(429)
        for _ in range(8):
            process = subprocess.Popen([CAMPAIGN, "judge", "-j", "3"], cwd=self.folder, env=self.env, start_new_session=True)
            try:
                process.wait(0.1 + chance.random() * 0.5)
            except subprocess.TimeoutExpired:
                os.killpg(process.pid, signal.SIGKILL)
                process.wait()
            found = {it for it in names if (self.folder / "results" / it).exists()}
            # (what was there is there, and what is there is whole)
            self.assertLessEqual(done, found)
            for it in found:
                self.assertEqual((self.folder / "results" / it / "files/1").read_text(), self.result(it)["outcome"] and "A", it)
            done = found
        self.assertEqual(self.out("todo").split(), sorted({*names} - done))
        self.out("judge", "-j", "3")
        self.assertEqual(self.out("list"), f"{len(names)} as-sent\n")
        self.assertEqual(self.left(), [])

    def test_a_result_that_was_being_replaced_is_put_back(self):
        self.put({"a": "yes 1:A", "b": "yes"}, {"a": {"1": "A"}})
        self.out("init", "recordings")
        self.out("judge", "a")
        room = self.folder / "results/.judging" / f"{os.uname().nodename}.x"
        (room / "tmp").mkdir(parents=True)
        room.with_name(f"{room.name}.lock").touch()
        (self.folder / "results/a").rename(room / "tmp/old")
        self.out("judge", "b")
        self.assertEqual(self.out("todo"), "")
        self.assertEqual(self.left(), [])

    def test_a_room_in_use_or_of_another_machine_stays(self):
        self.put({"a": "wait", "b": "yes"})
        self.out("init", "recordings")
        other = self.folder / "results/.judging/elsewhere.x.lock"
        other.parent.mkdir(parents=True)
        other.touch()
        (self.folder / "hold").touch()
        process = self.start("judge", "a")
        self.wait_for(1)
        self.out("judge", "b")
        self.assertEqual(len(self.left()), 3)
        (self.folder / "hold").unlink()
        self.assertEqual(process.communicate(), ("", ""))
        self.assertEqual(self.left(), ["elsewhere.x.lock"])

    def test_progress_on_a_terminal(self):
        self.put({it: "yes" for it in "abc"})
        self.out("init", "recordings")
        ours, theirs = os.openpty()
        subprocess.run([CAMPAIGN, "judge"], cwd=self.folder, env=self.env, stderr=theirs, check=True)
        self.assertRegex(os.read(ours, 1000).decode(), r"^\r1 of 3, \d+:\d\d left .*\r3 of 3, 0:00 left \r\n$")


class Manifest(Folder):
    def test_init(self):
        self.put({"b": "yes", "a b": "yes"}, {"a b": {"1": "A"}})
        (self.folder / "recordings/packed.bin").write_text("yes\n")
        (self.folder / "recordings/.hidden").write_text("")
        self.assertEqual(self.out("init", "--profile", "p.toml", "recordings"), "3 recordings in manifest.csv\n")
        wanted = (
            "id,recording,profile,sent\na b,recordings/a b.csv,p.toml,sent/a b\nb,recordings/b.csv,p.toml,\n"
            "packed,recordings/packed.bin,p.toml,\n"
        )
        self.assertEqual((self.folder / "manifest.csv").read_text(), wanted)
        self.assertIn("is there", self.run_it("init", "recordings", status=3)[1])

    def test_two_recordings_of_one_name(self):
        self.put({"a": "yes"})
        (self.folder / "recordings/a.bin").write_text("yes\n")
        self.assertIn("would have one id", self.run_it("init", "recordings", status=3)[1])
        self.assertFalse((self.folder / "manifest.csv").exists())

    def test_faults(self):
        head = "id,recording,profile,sent\n"
        for rows in ("a,b\n", ",b,c,\n", "a,b,c,\na,b,c,\n", "a/b,b,c,\n", ".a,b,c,\n", '"a\nb",b,c,\n'):
            (self.folder / "manifest.csv").write_text(head + rows)
            self.assertRegex(self.run_it("todo", status=3)[1], "^campaign: manifest.csv, row [12]", rows)
        for text in ("", "id,recording\n"):
            (self.folder / "manifest.csv").write_text(text)
            self.assertEqual(self.run_it("todo", status=3)[1], f"campaign: manifest.csv: its first line is not {head}", text)
        (self.folder / "manifest.csv").unlink()
        self.assertEqual(self.run_it("list", status=3)[1], "campaign: manifest.csv: No such file or directory\n")

    def test_usage(self):
        (self.folder / "manifest.csv").write_text("id,recording,profile,sent\n")
        for words in ("", "judges", "todo --array 0", "todo --array x", "table", "table xml", "judge --array 2", "judge -j 0"):
            self.assertTrue(self.run_it(*words.split(), status=5)[1].startswith("campaign: "), words)

    def test_names_with_any_bytes(self):
        names = [b"a&b \"c'>", b"]]>", b"bell\x07", "\u00e9\U0001f6e9".encode(), b"\xff", b"-dash", b"quote\",x"]
        for it in names:
            Path(os.fsdecode(os.fsencode(self.folder) + b"/recordings/" + it + b".csv")).write_text("no IMPOSSIBLE 1 NoForm\n")
        self.out("init", "recordings")
        self.out("judge", "-j", "4")
        todo = subprocess.run([CAMPAIGN, "todo"], cwd=self.folder, env=self.env, capture_output=True)
        self.assertEqual((todo.returncode, todo.stdout), (0, b""))
        self.assertEqual(sorted(os.listdir(os.fsencode(self.folder / "results"))), sorted([b".judging", *names]))
        report = subprocess.run([CAMPAIGN, "table", "junit"], cwd=self.folder, env=self.env, capture_output=True, check=True).stdout
        shown = {"a&b \"c'>", "]]>", "bell\\x07", "\u00e9\U0001f6e9", "\\xff", "-dash", 'quote",x'}
        self.assertEqual({it.get("name") for it in ET.fromstring(report)}, shown)
        table = subprocess.run([CAMPAIGN, "table", "csv"], cwd=self.folder, env=self.env, capture_output=True, check=True).stdout
        self.assertIn(b"\n\xff,impossible,", table)

    def test_a_pipe_that_is_closed(self):
        self.put({f"r{it}": "yes" for it in range(9)})
        self.out("init", "recordings")
        for words in ("list", "todo", "table csv", "table ndjson", "table junit"):
            done = subprocess.run(
                ["bash", "-c", f"'{CAMPAIGN}' {words} | :"], cwd=self.folder, env=self.env, capture_output=True, text=True
            )
            self.assertEqual(done.stderr, "", words)


class Long(Folder):
    def long(self, says):
        (self.folder / "rec").write_text(f"{says}\n")
        self.out("long", "rec", "parts of it")
        self.folder = self.folder / "parts of it"

    def test_a_yes(self):
        self.long("yes 1:A")
        self.assertEqual(sorted(os.listdir(self.folder)), ["kept.csv", "manifest.csv", "parts", "profile.toml"])
        self.assertEqual(self.run_it("series", status=75)[1], "campaign: part 000001: missing, not judged\n")
        self.out("judge")
        self.assertEqual(self.out("series"), "part 1 entries 1 from 0\ncertificate of 1:A\n")

    def test_parts_without_a_yes(self):
        for says, wanted, status in (
            ("no IMPOSSIBLE 5 NoForm", "part 1: IMPOSSIBLE 5 NoForm, entry 5 of kept.csv\n", 1),
            ("no UNEXPLAINED 3 NeverWhole", "part 1: UNEXPLAINED 3 NeverWhole, entry 3 of kept.csv\n", 2),
        ):
            self.folder = self.room / "bench"
            shutil.rmtree(self.folder / "parts of it", ignore_errors=True)
            self.long(says)
            self.out("judge")
            self.assertEqual(self.out("series", status=status), wanted)

    def test_a_folder_that_is_there(self):
        self.long("yes")
        self.folder = self.room / "bench"
        self.assertIn("is there", self.run_it("long", "rec", "parts of it", status=3)[1])
        missing = "campaign: none: No such file or directory\n"
        self.assertEqual(self.run_it("long", "--profile", "none", "rec", "x", status=75)[1], missing)
        self.program.write_text(STAND_IN.replace('keep) cat "$3"', "keep) echo profile: not toml >&2; exit 3"))
        self.assertEqual(self.run_it("long", "rec", "x", status=3)[1], "campaign: keep: profile: not toml\n")
        self.assertEqual(sorted(os.listdir(self.folder)), ["bench.toml", "parts of it", "rec", "recordings"])


class Many(Folder):
    def test_ten_thousand_rows(self):
        self.put({"a": "yes 1:A"})
        self.out("init", "recordings")
        self.out("judge")
        found, target = self.result("a"), self.folder / "results"
        with open(self.folder / "manifest.csv", "a") as manifest:
            for it in (f"r{number:05}" for number in range(10_000)):
                manifest.write(f"{it},recordings/a.csv,bench.toml,\n")
                os.makedirs(target / it / "files")
                for name in ("certificate", "files/1"):
                    os.link(target / "a" / name, target / it / name)
                (target / it / "result.json").write_text(json.dumps({**found, "id": it}))
        for words in (["todo"], ["table", "csv"], ["table", "junit"]):
            said = self.out(*words)
            self.assertEqual(len(re.findall(r"r\d{5}[^/]", said)), 0 if words[0] == "todo" else 10_000, words)


if __name__ == "__main__":
    unittest.main()
