"""The page on examples and on transfers by chance: its numbers are those of the program, nothing in it is markup of somebody else's, and
in a browser it loads nothing, has no fault and fits."""

import contextlib
import csv
import functools
import hashlib
import json
import os
import random
import re
import select
import shutil
import subprocess
import sys
import tempfile
import time
import unittest
from base64 import b64encode
from collections import Counter
from html.parser import HTMLParser
from pathlib import Path

HERE = Path(__file__).resolve().parent
ROOT = HERE.parent.parent
sys.path.insert(0, str(ROOT / "scripts"))
from transfers import Habits, Profile, Run, unit_by_chance

REPORT, A429 = HERE / "report", os.environ.get("A429", "a429")
SAMPLE = ROOT / "examples/sample.toml"
EXAMPLES = sorted(it for it in (ROOT / "examples").glob("*.csv"))
# All elements and attributes that a page may have. None can load, run or send anything.
ELEMENTS = set(
    "html head meta title style body header main section p h1 h2 h3 dl dt dd div span b i code pre details summary table caption "
    "thead tbody tr th td svg path rect line text g".split()
)
ATTRIBUTES = set(
    "lang charset http-equiv content name class scope role aria-label height width viewbox preserveaspectratio x y x1 x2 y2 dx d".split()
)
# How long the browser may take to answer.
SECONDS = 60
# What is put where a name or a text from outside may stand.
HOSTILE = """<img src=x onerror="alert('1')">&lt;"'><script>x</script>"""


class Page(HTMLParser):
    """What a page has: its elements, its attributes, its tables and its facts."""

    def __init__(self, text):
        super().__init__()
        self.text, self.elements, self.attributes = text, set(), set()
        self.tables, self.words, self.kind, self.bars = {}, [], "", Counter()
        self.feed(text)

    def handle_starttag(self, tag, attrs):
        attributes = dict(attrs)
        self.elements.add(tag)
        self.attributes.update(attributes)
        if tag == "table":
            self.kind = attributes["class"].split()[-1]
            self.tables[self.kind] = []
        elif tag == "tr":
            self.tables[self.kind].append([])
        elif tag in ("td", "th"):
            self.tables[self.kind][-1].append("")
        elif tag == "g":
            self.kind = attributes["class"]
        elif tag == "rect":
            self.bars[self.kind] += 1

    def handle_data(self, data):
        self.words.append(data)
        if self.kind in self.tables and self.tables[self.kind] and self.tables[self.kind][-1]:
            self.tables[self.kind][-1][-1] += data

    def handle_endtag(self, tag):
        if tag in ("table", "g"):
            self.kind = ""

    def rows(self, name):
        return self.tables.get(name, [])[1:]

    def facts(self):
        """The numbers below the verdict, without blanks between their digits."""
        found = re.findall(r"<dt>(.*?)</dt><dd>(.*?)</dd></div>", self.text)
        return {name: value.replace("\u202f", "") for name, value in found}

    def title(self):
        return re.search(r"<section .*?<h2>(.*?)</h2>", self.text)[1]


def said_by(*words):
    """What the program says."""
    return subprocess.run([A429, *words], stdin=subprocess.DEVNULL, capture_output=True, text=True).stdout


@functools.cache
def profile_and_entries(seed, count):
    """A transfer by chance, with losses: its profile, the entries that it records, and the files that cross."""
    dice = random.Random(seed)
    profile = Profile()
    run = Run(dice, profile, Habits(lost=0.01, silent=0.05, unheard=0.05, refused=0.05, free=0.1, late=0.0, idle=0.01))
    while len(run.transfer.entries) < count:
        blocks = dice.choice([1, 2, 5])
        run.send_file([unit_by_chance(profile, dice, dice.choice([1, 4, 30]), n == blocks - 1) for n in range(blocks)])
    return profile, run.transfer.entries[:count]


def recording_of(entries, start=0, step=500):
    rows = (f"{start + n * step},{bus},{word:08X}\n" for n, (bus, word) in enumerate(entries))
    return "time,bus,word\n" + "".join(rows)


@unittest.skipUnless(shutil.which(A429), "no program a429")
class Reports(unittest.TestCase):
    """A folder for recordings and pages."""

    def setUp(self):
        room = tempfile.TemporaryDirectory()
        self.addCleanup(room.cleanup)
        self.room = Path(room.name)
        self.out = self.room / "out.html"

    def run_report(self, *words, env=None):
        return subprocess.run([sys.executable, REPORT, *words], capture_output=True, text=True, env={**os.environ, **(env or {})})

    def page(self, recording, *more, profile=SAMPLE):
        """The page on a recording, which is no page of somebody else's."""
        done = self.run_report(profile, recording, *more, self.out)
        self.assertEqual((done.returncode, done.stdout, done.stderr), (0, "", ""), recording)
        page = Page(self.out.read_text(encoding="utf-8"))
        self.assertLessEqual(page.elements, ELEMENTS, recording)
        self.assertLessEqual(page.attributes, ATTRIBUTES, recording)
        return page

    def put(self, name, text):
        path = self.room / name
        path.write_text(text)
        return path

    def assert_numbers(self, page, recording, profile=SAMPLE):
        """The numbers on a page are those that the program gives."""
        certificate, folder = self.room / "cert", Path(tempfile.mkdtemp(dir=self.room))
        verdict, *files = said_by("decide", profile, recording, certificate).splitlines()
        rows = [it for it in csv.DictReader(said_by("blocks", profile, recording).splitlines()) if it["outcome"] != "not-allowed"]
        survey = said_by("survey", profile, recording)
        outcomes, facts = Counter(it["outcome"] for it in rows), page.facts()
        self.assertIn(f"<code>{verdict}</code>", page.text)
        for it in said_by("why", profile, recording).splitlines()[1:] if verdict.startswith("IMPOSSIBLE") else ():
            self.assertIn(f"<code>{it}</code>", page.text)
        damaged = sum(map(int, re.findall(r"^[AB] free parity (\d+) ", survey, re.MULTILINE)))
        wanted = {
            "words": survey.split()[1], "attempts": len(rows), "refused": outcomes["refused"],
            "without an answer": outcomes["unanswered"] + outcomes["ungranted"], "damaged words": damaged,
        }  # fmt: skip
        self.assertEqual({it: facts[it] for it in wanted}, {it: str(value) for it, value in wanted.items()}, recording)
        refused = [[it["first"], it["file"], it["ldu"], it["asked"], it["got"], it["damaged"]] for it in rows if it["outcome"] == "refused"]
        self.assertEqual([[it[0], *it[2:7]] for it in page.rows("refusals")], refused, recording)
        silent = [it["first"] for it in rows if it["outcome"] in ("unanswered", "ungranted", "open")]
        self.assertEqual([it[0] for it in page.rows("silences")], silent, recording)
        if len(rows) <= 40:
            self.assertEqual({it: page.bars[it] for it in outcomes}, dict(outcomes), recording)
        if verdict.startswith("YES"):
            said_by("extract", profile, recording, certificate, folder)
            sums = [hashlib.sha256(it.read_bytes()).hexdigest() for it in sorted(folder.iterdir())]
            wanted = [[*it.split()[1:], sum_of] for it, sum_of in zip(files, sums)]
            found = [[it[0], it[1].replace("\u202f", ""), it[-1]] for it in page.rows("files")]
            self.assertEqual(found, wanted, recording)
            self.assertEqual(facts["files crossed"], str(len(files)), recording)


class Numbers(Reports):
    def test_examples(self):
        for it in EXAMPLES:
            with self.subTest(it.name):
                self.assert_numbers(self.page(it), it)

    def test_transfers_by_chance(self):
        for seed in range(4):
            profile, entries = profile_and_entries(seed, 400)
            name = self.put(f"{seed}.csv", recording_of(entries))
            numbers = self.put(f"{seed}.toml", profile.text())
            with self.subTest(seed=seed):
                self.assert_numbers(self.page(name, profile=numbers), name, numbers)

    def test_impossible_by_chance(self):
        _, entries = profile_and_entries(1, 400)
        name = self.put("twice.csv", recording_of(entries[:200] + entries[:200]))
        page = self.page(name)
        self.assertRegex(page.title(), r"^Impossible at entry \d+$")
        self.assert_numbers(page, name)

    def test_packed_and_times_of_now(self):
        _, entries = profile_and_entries(1, 200)
        text = self.put("now.csv", recording_of(entries, start=1_700_000_000_000_000))
        packed = self.room / "now.bin"
        packed.write_bytes(subprocess.run([A429, "pack", text], stdout=subprocess.PIPE).stdout)
        one, two = self.page(text), self.page(packed)
        self.assertEqual((one.tables["files"], one.facts()), (two.tables["files"], two.facts()))
        self.assertEqual(one.rows("files")[0][2], "0.000000")

    def test_no_entries(self):
        page = self.page(self.put("empty.csv", "time,bus,word\n"))
        self.assertEqual((page.title(), page.facts()["words"]), ("No file crossed", "0"))

    def test_one_time_for_all_entries(self):
        name = self.put("flat.csv", recording_of(profile_and_entries(1, 60)[1], step=0))
        self.assert_numbers(self.page(name), name)

    def test_the_chart_has_the_words_around_the_first_trouble(self):
        rows = [it[:4] for it in self.page(ROOT / "examples/damaged-word.csv").rows("chart")]
        self.assertEqual([it[0] for it in rows], [str(entry) for entry in range(12)])
        self.assertEqual(rows[3], ["3", "0.003000", "92004123", "to the sink: damaged word"])
        self.assertEqual(rows[5], ["5", "0.005000", "460000A3", "to the source: NAK 0000"])

    def test_the_chart_says_where_a_file_has_crossed(self):
        rows = self.page(ROOT / "examples/given-up.csv").rows("chart")
        self.assertEqual([it[0] for it in rows if it[4] == "file 2 has crossed"], ["9"])

    def test_the_reason_is_in_the_chart_and_in_the_picture(self):
        page = self.page(ROOT / "examples/impossible.csv")
        self.assertEqual([it[4] for it in page.rows("chart") if "NotGranted" in it[4]], ["NotGranted"])
        self.assertIn(">entry 1: NotGranted</text>", page.text)

    def test_times_units_and_tries_of_files(self):
        for example, wanted in (
            ("damaged-word", ["1", "1", "0.000000", "0.011000", "1", "2"]),
            ("lost-acknowledgement", ["1", "1", "0.000000", "0.011000", "1", "2"]),
            ("given-up", ["2", "1", "0.004000", "0.009000", "1", "1"]),
        ):
            self.assertEqual([it[:6] for it in self.page(ROOT / f"examples/{example}.csv").rows("files")], [wanted], example)

    def test_without_a_yes_files_are_under_way_and_have_no_sums(self):
        _, entries = profile_and_entries(1, 400)
        page = self.page(self.put("twice.csv", recording_of(entries[:200] + entries[:200])))
        self.assertEqual({len(it) for it in page.rows("files")}, {5})
        self.assertIn("<b>No file counts as crossed</b>", page.text)


class Sent(Reports):
    def sent(self, **files):
        folder = Path(tempfile.mkdtemp(dir=self.room))
        for name, text in files.items():
            (folder / name[1:]).write_text(text)
        return folder

    def test_what_was_sent(self):
        for case, example, files, title in (
            ("as sent", "one-byte", {"_1": "A"}, "1 file crossed, as sent"),
            ("a hidden file does not count", "one-byte", {"_1": "A", "_.x": ""}, "1 file crossed, as sent"),
            ("other bytes", "one-byte", {"_1": "B"}, "1 file crossed, not as sent"),
            ("other length", "one-byte", {"_1": "AA"}, "1 file crossed, not as sent"),
            ("one is missing", "given-up", {"_1": "A", "_2": "A"}, "1 file crossed, not as sent"),
            ("one was not sent", "one-byte", {}, "1 file crossed, not as sent"),
            ("none crossed", "broken-off", {"_1": "A"}, "No file crossed, of 1 sent"),
            ("none was sent", "broken-off", {}, "No file crossed, and none was sent"),
        ):
            with self.subTest(case):
                self.assertEqual(self.page(ROOT / f"examples/{example}.csv", "--sent", self.sent(**files)).title(), title)

    def test_which_are_missing(self):
        page = self.page(ROOT / "examples/given-up.csv", "--sent", self.sent(_1="A", _2="A"))
        self.assertIn("sent, and did not cross: 1.", page.text)

    def test_no_file_is_no_pass(self):
        for it in ("broken-off", "unexplained", "words"):
            page = self.page(ROOT / f"examples/{it}.csv")
            self.assertEqual(page.title(), "No file crossed", it)
            self.assertIn("This does not mean that it passed.", page.text, it)

    def test_a_file_crosses_and_nothing_is_compared(self):
        self.assertIn("Compare them with what you sent", self.page(ROOT / "examples/one-byte.csv").text)


class Strangers(Reports):
    """Names and texts from outside."""

    def test_names_of_recordings(self):
        for case, name, wanted in (
            ("markup", HOSTILE.replace("/", ""), "&lt;img src=x"),
            ("quotes", """a"b'c&d""", "a&quot;b&#x27;c&amp;d"),
            ("control characters", "a\x1b[31m\x07\nb", r"a\x1b[31m\x07\nb"),
            ("the other way round", "a\u202efdp.csv", r"a\u202efdp.csv"),
            ("no UTF-8", os.fsdecode(b"a\xff\xfeb"), r"a\udcff\udcfeb"),
            ("an option", "--sent", "--sent"),
            ("letters of the world", "Prüfung 試験.csv", "Prüfung 試験.csv"),
        ):
            with self.subTest(case):
                folder = Path(tempfile.mkdtemp(dir=self.room))
                shutil.copy(ROOT / "examples/one-byte.csv", folder / name)
                page = self.page(f"{folder}/{name}")
                self.assertIn(f"<h1>{wanted}", page.text)
                self.assertNotIn("script", page.elements)

    def test_names_of_labels(self):
        name = """<b onclick='x'>&"</style>"""
        text = SAMPLE.read_text().replace('name = "Altitude"', f"name = {json.dumps(name)}")
        page = self.page(ROOT / "examples/words.csv", profile=self.put("bench.toml", text))
        self.assertEqual([it[0] for it in page.rows("labels") if it[0].startswith("203")], [f"203 {name}"])

    def test_names_of_files_that_were_sent(self):
        folder = Path(tempfile.mkdtemp(dir=self.room))
        (folder / HOSTILE.replace("/", "")).write_text("A")
        self.assertIn("did not cross: &lt;img src=x", self.page(ROOT / "examples/one-byte.csv", "--sent", folder).text)

    def test_the_policy_lets_in_the_style_alone(self):
        text = self.page(ROOT / "examples/damaged-word.csv").text
        policy = re.search(r'http-equiv=Content-Security-Policy content="(.*?)"', text)[1]
        style = re.search(r"<style>(.*?)</style>", text, re.DOTALL)[1]
        wanted = b64encode(hashlib.sha256(style.encode()).digest()).decode()
        self.assertEqual(policy, f"default-src 'none'; style-src 'sha256-{wanted}'; base-uri 'none'; form-action 'none'")
        self.assertNotRegex(style, r"url\(|@import|expression")


class Long(Reports):
    """Recordings of 100,000 entries: a page has at most a million bytes. How long it takes is printed."""

    def assert_short(self, name, entries):
        recording = self.put(f"{name}.csv", recording_of(entries))
        began = time.monotonic()
        page = self.page(recording)
        size = len(page.text.encode())
        print(f"report on {len(entries)} entries, {name}: {time.monotonic() - began:.1f} s, {size} bytes")
        self.assertLessEqual(size, 1_000_000, name)
        return page

    def test_with_losses(self):
        page = self.assert_short("with losses", profile_and_entries(5, 100_000)[1])
        self.assertIn("are in this table; <code>a429 units</code> lists all.", page.text)
        self.assertIn("and not each by itself.", page.text)

    def test_requests_alone(self):
        page = self.assert_short("requests alone", [("A", 0x41410323)] * 100_000)
        self.assertEqual((page.facts()["attempts"], len(page.rows("silences"))), ("100000", 500))


class Faults(Reports):
    def test_faults(self):
        good, bad = ROOT / "examples/one-byte.csv", self.put("bad.csv", "time,bus,word\n0,C,41410323\n")
        for case, words, status, line in (
            ("a fault of the recording", (SAMPLE, bad), 3, "report: a429 decide: recording: row 0\n"),
            ("a fault of the profile", (good, good), 3, "report: a429 decide: profile: not toml\n"),
            ("no recording", (SAMPLE, self.room / "none.csv"), 4, None),
            ("too few words", (SAMPLE,), 5, None),
            ("no folder", (SAMPLE, good, "--sent", self.room / "none"), 5, None),
        ):
            with self.subTest(case):
                done = self.run_report(*words, self.out)
                self.assertEqual((done.returncode, self.out.exists(), done.stderr.count("\n")), (status, False, 1), done.stderr)
                self.assertIn(line or "report: ", done.stderr)

    def test_the_recording_is_never_written_over(self):
        name = self.room / "one.csv"
        shutil.copy(ROOT / "examples/one-byte.csv", name)
        self.assertEqual(self.run_report(SAMPLE, name, name).returncode, 5)
        self.assertEqual(name.read_bytes(), (ROOT / "examples/one-byte.csv").read_bytes())

    def test_a_page_stays_where_the_next_one_fails(self):
        self.page(ROOT / "examples/one-byte.csv")
        before = self.out.read_bytes()
        self.assertEqual(self.run_report(SAMPLE, self.put("bad.csv", "x\n"), self.out).returncode, 3)
        self.assertEqual((self.out.read_bytes(), sorted(os.listdir(self.room))), (before, ["bad.csv", "out.html"]))

    def test_no_program(self):
        done = self.run_report(SAMPLE, ROOT / "examples/one-byte.csv", self.out, env={"A429": "/none"})
        self.assertEqual((done.returncode, self.out.exists()), (4, False))


# ---- in a browser


class Browser:
    """Chromium without a window, spoken to over pipes: each message is JSON and ends with a zero byte."""

    def __init__(self, room):
        self.events, self.number = [], 0
        here, to_it = os.pipe()
        self.from_it, there = os.pipe()
        script = f'exec chromium "$@" 3<&{here} 4>&{there}'
        options = "--headless --no-sandbox --disable-gpu --disable-dev-shm-usage --no-first-run --remote-debugging-pipe".split()
        options.append(f"--user-data-dir={room}")
        self.process = subprocess.Popen(
            ["bash", "-c", script, "bash", *options, "about:blank"], pass_fds=(here, there), stdin=subprocess.DEVNULL,
            stdout=subprocess.DEVNULL, stderr=subprocess.DEVNULL,
        )  # fmt: skip
        os.close(here), os.close(there)
        self.to_it, self.rest, self.session = to_it, b"", None

    def start(self):
        """Takes the first page."""
        page = next(it for it in self.ask("Target.getTargets")["targetInfos"] if it["type"] == "page")
        self.session = self.ask("Target.attachToTarget", targetId=page["targetId"], flatten=True)["sessionId"]
        for it in ("Page", "Network", "Log", "Runtime"):
            self.ask(f"{it}.enable")

    def close(self):
        with contextlib.suppress(OSError):
            os.close(self.to_it)
        self.process.kill()
        self.process.wait()
        os.close(self.from_it)

    def message(self):
        while b"\0" not in self.rest:
            is_here = select.select([self.from_it], [], [], SECONDS)[0]
            more = os.read(self.from_it, 1 << 20) if is_here else b""
            if not more:
                raise AssertionError("the browser has ended" if is_here else "the browser does not answer")
            self.rest += more
        text, _, self.rest = self.rest.partition(b"\0")
        return json.loads(text)

    def ask(self, method, **words):
        """Calls a method, and keeps what happens meanwhile."""
        self.number += 1
        session = {"sessionId": self.session} if self.session else {}
        os.write(self.to_it, json.dumps({"id": self.number, "method": method, "params": words, **session}).encode() + b"\0")
        while True:
            it = self.message()
            if it.get("id") == self.number:
                return it["result"]
            self.events.append(it)

    def value(self, expression):
        return self.ask("Runtime.evaluate", expression=expression, returnByValue=True)["result"].get("value")

    def open(self, path):
        """Opens a file, and waits until it is loaded."""
        self.events.clear()
        self.ask("Page.navigate", url=path.as_uri())
        while not any(it["method"] == "Page.loadEventFired" for it in self.events):
            self.events.append(self.message())

    def happened(self, *methods):
        return [it["params"] for it in self.events if it["method"] in methods]


@unittest.skipUnless(shutil.which("chromium"), "no chromium")
class InBrowser(Reports):
    @classmethod
    def setUpClass(cls):
        room = tempfile.mkdtemp()
        # (what the browser has started may still write there)
        cls.addClassCleanup(shutil.rmtree, room, ignore_errors=True)
        cls.browser = Browser(room)
        cls.addClassCleanup(cls.browser.close)
        try:
            cls.browser.start()
        except (AssertionError, OSError) as fault:
            raise unittest.SkipTest(f"chromium does not start: {fault}") from fault

    def opened(self, recording, *more):
        page = self.page(recording, *more)
        self.browser.open(self.out)
        return page

    def test_nothing_is_loaded_and_nothing_fails(self):
        for it in EXAMPLES:
            with self.subTest(it.name):
                self.opened(it)
                faults = self.browser.happened("Log.entryAdded", "Runtime.consoleAPICalled", "Runtime.exceptionThrown")
                self.assertEqual(faults, [])
                self.assertEqual([it["request"]["url"] for it in self.browser.happened("Network.requestWillBeSent")], [self.out.as_uri()])

    def test_the_style_is_let_in(self):
        self.opened(ROOT / "examples/damaged-word.csv")
        self.assertEqual(self.browser.value("getComputedStyle(document.querySelector('.facts')).display"), "grid")

    def test_it_fits_at_each_width(self):
        name = self.put("chance.csv", recording_of(profile_and_entries(2, 2000)[1], start=1_700_000_000_000_000))
        for recording in (name, *EXAMPLES):
            self.opened(recording)
            for width in (400, 800, 1400):
                self.browser.ask("Emulation.setDeviceMetricsOverride", width=width, height=900, deviceScaleFactor=1, mobile=width < 500)
                room, wide = self.browser.value("[document.documentElement.clientWidth, document.documentElement.scrollWidth]")
                self.assertEqual((wide, room > width - 20), (room, True), f"{recording.name}, {width}")

    def test_what_is_seen_has_the_numbers(self):
        for it in EXAMPLES:
            page = self.opened(it)
            pairs = "[...document.querySelectorAll('.facts div')].map(it => [it.firstChild.innerText, it.lastChild.innerText])"
            seen = self.browser.value(pairs)
            self.assertEqual({name: value.replace("\u202f", "") for name, value in seen}, page.facts(), it.name)

    def test_headings_are_in_order_and_pictures_have_words(self):
        self.opened(self.put("chance.csv", recording_of(profile_and_entries(2, 2000)[1])))
        levels = self.browser.value("[...document.querySelectorAll('h1,h2,h3')].map(it => Number(it.tagName[1]))")
        self.assertEqual((levels[0], levels.count(1)), (1, 1))
        self.assertTrue(all(after <= before + 1 for before, after in zip(levels, levels[1:])), levels)
        labels = self.browser.value("[...document.querySelectorAll('[role=img]')].map(it => it.getAttribute('aria-label'))")
        self.assertTrue(labels and all(labels), labels)

    def test_texts_can_be_read_in_light_in_dark_and_in_print(self):
        """The contrast of each text with its ground is 4.5 at least (WCAG 2, AA)."""
        self.opened(ROOT / "examples/damaged-word.csv")
        for media, scheme in (("screen", "light"), ("screen", "dark"), ("print", "light")):
            self.browser.ask("Emulation.setEmulatedMedia", media=media, features=[{"name": "prefers-color-scheme", "value": scheme}])
            self.assertEqual(self.browser.value(FAINT), [], (media, scheme))
        self.browser.ask("Emulation.setEmulatedMedia", media="", features=[])


# The texts of a page whose contrast is too low, those in a band aside, which are drawn over a colour.
FAINT = """
(() => {
  const linear = v => v <= .03928 ? v / 12.92 : ((v + .055) / 1.055) ** 2.4
  const light = colour => {
    const [r, g, b] = colour.match(/[\\d.]+/g).slice(0, 3).map(v => linear(v / 255))
    return .2126 * r + .7152 * g + .0722 * b
  }
  const ground = it => {
    const colour = it ? getComputedStyle(it).backgroundColor : 'rgb(255, 255, 255)'
    return /, 0\\)$/.test(colour) ? ground(it.parentElement) : colour
  }
  const has_text = it => [...it.childNodes].some(node => node.nodeType == 3 && node.data.trim())
  const is_text = it => it instanceof SVGElement ? it.tagName == 'text' && !it.classList.contains('mid') : has_text(it)
  const contrast = it => {
    const style = getComputedStyle(it)
    const [a, b] = [light(it instanceof SVGElement ? style.fill : style.color), light(ground(it))].sort((x, y) => y - x)
    return (a + .05) / (b + .05)
  }
  return [...document.querySelectorAll('body *')].filter(it => is_text(it) && it.getClientRects().length)
    .filter(it => contrast(it) < 4.5).map(it => it.outerHTML.slice(0, 80))
})()
"""

if __name__ == "__main__":
    unittest.main()
