"""Pages in a browser, with real clicks and keys: nothing is asked for, refused or thrown, and hostile words are
inert."""
from __future__ import annotations

import contextlib
import copy
import os
import sys
import tempfile
import unittest
from pathlib import Path
from typing import Any

from lte_sec.pages import page as pages, trace_page

from .browser import Browser, Fails, browser, found
from .long_pages import many
from .test_pages import HOSTILE, made, trace

ROWS = "document.querySelectorAll('.row').length"
PANEL = "document.getElementById('panel')"
SIDEWAYS = "document.documentElement.scrollWidth > innerWidth || document.body.scrollWidth > innerWidth"
LITTLE = 1200  # elements of a page, whatever it has
TEXT_OF = "document.querySelector('{}').textContent"
SPOILT = {
    "the list not bounded": (
        "first = Math.floor(this.list.scrollTop / ROW) - SPARE",
        "first = 0, all_ = 1",
        "last = Math.ceil((this.list.scrollTop + this.list.clientHeight) / ROW) + SPARE",
        "last = 1e9",
    ),
    "surrogates": ("text.toWellFormed ? text.toWellFormed() : text", "text"),
    "quadratic keys": (
        "const it = events[place], said = [",
        "keys.filter(key => key.at.includes(place)); const it = events[place], said = [",
    ),
}
MANY = 50_000 if os.environ.get("EVERY_PLACE") else 10_000  # frames of a long page
SECONDS = 20  # that it may take for anything, on a busy machine


def setUpModule() -> None:
    if found() is None:
        print("the pages are not tried in a browser: there is no chromium here", file=sys.stderr)
        raise unittest.SkipTest("there is no chromium here")


class InBrowser(unittest.TestCase):
    room: str
    browser: Browser

    @classmethod
    def setUpClass(cls) -> None:
        with contextlib.ExitStack() as stack:
            cls.room = stack.enter_context(tempfile.TemporaryDirectory())
            cls.browser = stack.enter_context(browser())
            cls.addClassCleanup(stack.pop_all().close)

    def tearDown(self) -> None:
        self.assertEqual(self.browser.faults(), [])

    def file(self, text: str, name: str = "page") -> Path:
        file = Path(self.room) / f"{name}.html"
        file.write_text(text, encoding="utf-8")
        return file

    def text(self, where: str) -> str:
        return str(self.browser.ask(TEXT_OF.format(where)))


class TracePage(InBrowser):
    def opened(self, fragment: str = "", **given: Any) -> Browser:
        self.browser.open(self.file(made()), fragment, **given)
        return self.browser

    def test_a_click_shows_what_was_judged(self) -> None:
        one = self.opened()
        self.assertEqual(
            one.ask("document.querySelectorAll('#list .row').length > 10 && document.getElementById('panel').hidden"),
            True,
        )
        one.click("[...document.querySelectorAll('.row')].find(it => it.textContent.includes('KeNB* differs'))")
        self.assertEqual(one.ask("location.hash"), "#f=13")
        said = self.text("#panel")
        for word in (
            "frame 13 X2 HandoverRequest",
            "KeNB* differs",
            "star(kenb(0),301,6300)",
            "as it was wanted",
            "TS 33.401 A.5",
            "PCI 301",
            "the first step that differs",
        ):
            self.assertIn(word, said)
        self.assertEqual(one.ask("document.querySelectorAll('.key.differs').length > 0"), True)
        one.key("Escape")
        self.assertEqual(one.ask(f"{PANEL}.hidden && location.hash"), "")

    def test_the_keyboard_does_all(self) -> None:
        one = self.opened()
        one.key("n")
        self.assertIn("frame 13", self.text("#panel"))
        one.key("N")
        self.assertIn("no earlier one", self.text("[role=status]"))
        for key, frame in (("j", 14), ("ArrowDown", 15), ("k", 14), ("ArrowUp", 13), ("Home", 1), ("ArrowDown", 2)):
            one.key(key, key if len(key) == 1 else "")
            self.assertEqual(
                (
                    one.ask("location.hash"),
                    one.ask(
                        "document.querySelector('.row.chosen').id === "
                        "document.getElementById('list').getAttribute('aria-activedescendant')"
                    ),
                ),
                (f"#f={frame}", True),
                key,
            )
        one.key("End")
        self.assertEqual(one.ask("location.hash"), "#f=29")
        one.key("/")
        one.types("k1 kenb")
        self.assertEqual((one.ask("document.activeElement.type"), one.ask(ROWS)), ("search", 1))
        one.key("Escape")
        one.key("Escape")
        one.key("n")
        for _ in range(30):
            one.key("Tab")
            if one.ask("document.activeElement.classList.contains('key')"):
                break
        one.key("Enter")
        self.assertIn("stands in", self.text("#app > .bar"))
        self.assertEqual(
            one.ask("document.activeElement.classList.contains('key') && location.hash.includes('k=')"), True
        )

    def test_filters_phones_and_search(self) -> None:
        one = self.opened()
        every = one.ask("document.querySelector('.row').getAttribute('aria-setsize')")
        self.assertEqual(every, "29")
        one.click("document.querySelector('button[data-v=bad]')")
        self.assertEqual(
            (one.ask(ROWS), one.ask("document.querySelector('button[data-v=bad]').getAttribute('aria-pressed')")),
            (1, "true"),
        )
        one.click("document.querySelector('button[data-v=bad]')")
        one.ask(
            "(() => { const it = document.querySelector('select'); it.value = '2'; it.dispatchEvent(new "
            "Event('change')); })()"
        )
        lanes = self.text("#lanes")
        self.assertTrue("enb3" in lanes and "enb2" not in lanes, lanes)
        key = one.ask("JSON.parse(document.getElementById('document').textContent).keys[2].hex")
        one.open(self.file(made()), f"#q={key[8:20]}")
        self.assertGreater(one.ask(ROWS), 0)
        one.open(self.file(made()), "#q=zzzz")
        self.assertEqual((one.ask(ROWS), self.text("[role=status]")), (0, "0 frames found."))

    def test_what_is_of_no_note_is_folded(self) -> None:
        one = self.browser
        page = many(2_000)
        one.open(self.file(pages.html(page, ["many"], [], True)))
        folds = one.ask("document.querySelectorAll('.row.fold').length")
        self.assertGreater(folds, 0)
        self.assertLess(one.ask("Number(document.querySelector('.row').getAttribute('aria-setsize'))"), 100)
        one.click("document.querySelector('.row.fold')")
        self.assertGreater(one.ask("Number(document.querySelector('.row').getAttribute('aria-setsize'))"), 100)
        one.key("a")
        self.assertEqual(
            (one.ask("Number(document.querySelector('.row').getAttribute('aria-setsize'))"), one.ask("location.hash")),
            (len(page["events"]), "#all=1"),
        )
        one.open(self.file(pages.html(page, ["many"], [], True)))
        one.key("Home")
        for _ in range(40):
            if one.ask("document.querySelector('.row.fold.chosen') !== null"):
                break
            one.key("j", "j")
        before = one.ask("Number(document.querySelector('.row').getAttribute('aria-setsize'))")
        one.key("Enter")
        self.assertGreater(one.ask("Number(document.querySelector('.row').getAttribute('aria-setsize'))"), before)
        few = {
            **page,
            "events": [{**event, "v": "ok", "w": None, "l": []} for event in page["events"][:77]],
            "keys": [],
        }
        one.open(self.file(pages.html(few, ["few"], [], True)))
        self.assertEqual(one.ask("document.querySelectorAll('.row.fold').length"), 0)

    def test_pointing_at_a_key_marks_its_frames(self) -> None:
        one = self.opened("#f=13")
        key = "[...document.querySelectorAll('#panel .key')].find(it => it.textContent.startsWith('KeNB kenb(0)'))"
        one.point(key)
        self.assertEqual(
            (one.ask("document.querySelectorAll('.row.marked').length"), one.ask("location.hash")), (1, "#f=13")
        )
        one.point("document.querySelector('h1')")
        self.assertEqual(one.ask("document.querySelectorAll('.row.marked').length"), 0)
        one.click(key)
        self.assertEqual(
            (one.ask("document.querySelectorAll('.row.marked').length"), one.ask("location.hash")), (1, "#f=13&k=2")
        )
        one.click("[...document.querySelectorAll('#app > .bar button')].find(it => it.textContent === 'let it go')")
        self.assertEqual(one.ask("location.hash"), "#f=13")

    def test_fragments(self) -> None:
        one = self.opened("#f=13&k=2")
        self.assertIn("frame 13", self.text("#panel"))
        self.assertEqual(
            one.ask(
                "document.querySelectorAll('.row.marked').length > 0 && "
                "document.querySelectorAll('.row.derived').length > 0"
            ),
            True,
        )
        for nonsense in (
            "#",
            "#f=999&v=none2&p=77&k=99999&all=2",
            "#%%%&=&f",
            "#k=-1&k=1e3",
            "#f=__proto__&v=constructor",
            "#k=2.5",
            "#" + "q=%F0%9F" * 50,
        ):
            one.open(self.file(made()), nonsense)
            self.assertEqual(one.ask(f"{PANEL}.hidden && document.querySelectorAll('#list').length"), 1, nonsense)

    def test_no_sideways_scroll_wide_and_narrow(self) -> None:
        for width in (1280, 1000, 759, 400, 320):
            for fragment in ("", "#f=13&k=2", "#v=bad"):
                one = self.opened(fragment, width=width)
                self.assertEqual(one.ask(SIDEWAYS), False, (width, fragment))
                if fragment:
                    at = one.ask(
                        "(() => { const it = document.getElementById('list').getBoundingClientRect(); return "
                        "it.height; })()"
                    )
                    self.assertGreater(at, 60, (width, fragment))

    def test_hostile_words_are_inert(self) -> None:
        for word in HOSTILE:
            with self.subTest(word=word[:30]):
                self.browser.open(self.file(made(word=word)))
                self.browser.key("n")
                self.assertEqual(self.browser.ask(f"{PANEL}.hidden"), False)
                self.assertEqual(
                    self.browser.ask(
                        "document.querySelectorAll('img, iframe, object, svg [onload], [onerror], #forged, "
                        "a').length + (window.forged ? 1 : 0)"
                    ),
                    0,
                )
                self.assertEqual(self.browser.faults(), [])

    def test_a_script_that_is_put_in_does_not_run(self) -> None:
        text = made().replace(
            "</body>", "<script>window.forged = 1</script><img src=x onerror='window.forged = 1'></body>"
        )
        self.browser.open(self.file(text))
        self.assertEqual(self.browser.ask("window.forged === undefined"), True)
        self.assertTrue(any("Content Security Policy" in fault for fault in self.browser.faults()))
        self.browser.events.clear()

    def test_it_prints(self) -> None:
        one = self.opened("#f=13")
        self.assertGreater(len(one.call("Page.printToPDF")["data"]), 10_000)
        one.ask("window.dispatchEvent(new Event('beforeprint'))")
        self.assertEqual(one.ask(ROWS), 29)
        one.ask("window.dispatchEvent(new Event('afterprint'))")
        one.open(self.file(pages.html(many(5_000), ["many"], [], True)), "#all=1")
        one.ask("window.dispatchEvent(new Event('beforeprint'))")
        self.assertEqual((one.ask(ROWS), one.ask("document.getElementById('space').offsetHeight")), (3_000, 3_000 * 44))

    def test_without_scripts_there_are_summary_and_lines(self) -> None:
        one = self.browser
        one.call("Emulation.setScriptExecutionDisabled", value=True)
        try:
            one.call("Page.navigate", url=self.file(made(), "bare").as_uri())
            one.until("location.href.endsWith('bare.html') && document.readyState === 'complete'")
            said = one.ask("document.body.innerText")
        finally:
            one.call("Emulation.setScriptExecutionDisabled", value=False)
        self.assertIn("KeNB* differs: is none", said)
        self.assertIn("Scripts do not run here", said)

    def test_many_frames(self) -> None:
        page = many(MANY)
        self.assertEqual(self.bounds(self.browser, pages.html(page, ["many"], [], True)), [])

    def bounds(self, one: Browser, text: str) -> list[str]:
        """What takes too long or too much of a page, in words."""
        wrong = []
        took = {"ready": one.open(self.file(text, "many"), "#all=1")}
        for name, script in (
            (
                "search",
                (
                    "document.querySelector('input').value = 'k1 kenb(0)'; "
                    "document.querySelector('input').dispatchEvent(new Event('input'))"
                ),
            ),
            (
                "no search",
                (
                    "document.querySelector('input').value = ''; document.querySelector('input').dispatchEvent(new "
                    "Event('input'))"
                ),
            ),
            ("mark", "location.hash = '#all=1&k=40002'"),
            ("end", "document.getElementById('list').scrollTop = 1e9"),
        ):
            took[name] = (
                one.ask(
                    f"new Promise(done => {{ const begun = performance.now(); {script}; requestAnimationFrame(() => "
                    f"setTimeout(() => done(performance.now() - begun))); }})"
                )
                / 1000
            )
            drawn = one.ask("document.querySelectorAll('*').length")
            if drawn > LITTLE:
                wrong.append(f"{drawn} elements after {name}")
        wrong += [f"{name} takes {seconds:.1f} s" for name, seconds in took.items() if seconds > SECONDS]
        return wrong

    def test_spoilt_scripts_are_seen(self) -> None:
        script = (pages.HERE / "page.js").read_text()
        for name, pieces in SPOILT.items():
            if name == "quadratic keys" and MANY < 50_000:
                continue  # it shows there
            spoilt = script
            for piece, other in zip(pieces[::2], pieces[1::2]):
                self.assertEqual(spoilt.count(piece), 1, piece)
                spoilt = spoilt.replace(piece, other)
            with self.subTest(name=name):
                self.assertNotEqual(self.seen_of(spoilt, name), [])

    def seen_of(self, script: str, name: str) -> list[str]:
        """What the tests see of a page with another script."""

        def text(page: dict[str, Any]) -> str:
            old = (pages.HERE / "page.js").read_text()
            return (
                pages.html(page, ["spoilt"], [], True)
                .replace(old, script)
                .replace(pages.digest(old), pages.digest(script))
            )

        with browser() as one:
            if name == "surrogates":
                return self.kept(one, text(self.with_surrogates()))
            try:
                return self.bounds(one, text(many(MANY if name == "quadratic keys" else 5_000)))
            except Fails as fault:
                return [str(fault)]

    def with_surrogates(self) -> dict[str, Any]:
        page = copy.deepcopy(trace_page.page(trace()))
        for event in page["events"]:
            event["f"] += "\ud800"
        return page

    def kept(self, one: Browser, text: str) -> list[str]:
        """Whether a frame that is chosen is still chosen after the page is loaded again."""
        one.open(self.file(text))
        one.key("n")
        fragment = one.ask("location.hash")
        one.open(self.file(text), fragment)
        return ["the frame is lost"] if one.ask(f"{PANEL}.hidden") else []

    def test_a_lone_surrogate_in_a_name_is_kept(self) -> None:
        self.assertEqual(self.kept(self.browser, pages.html(self.with_surrogates(), ["one"], [], True)), [])


if __name__ == "__main__":
    unittest.main()
