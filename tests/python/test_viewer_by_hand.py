"""Tests of what is done by hand with a page of the viewer."""

from __future__ import annotations

import collections
import json
import pathlib
import re
import unittest
import xml.etree.ElementTree

import viewer_runs as runs
from viewer_browser import Tab
from viewer_pages import TOP, Pages, browser, lines_of, needs_browser, viewed

__all__ = ["viewed"]  # a fixture
EXAMPLE = TOP / "examples" / "two_users.json"
LENGTHS = (300, 5000)
ACTIVE = "document.getElementById('active')?.dataset.line"
CHOSEN = "document.querySelector('#list [aria-selected=true]')?.dataset.line"
MOST_MILLISECONDS = 10000  # of a page of 5,000 steps on a machine with much other work


@needs_browser
class ByHand(unittest.TestCase):
    """Keys, the pointer, fields, buttons, links."""

    pages: Pages
    lines: bytes
    page: pathlib.Path
    random: dict[int, pathlib.Path]
    replies: dict[int, list[runs.Step]]

    @classmethod
    def setUpClass(cls) -> None:
        cls.pages = Pages()
        cls.addClassCleanup(cls.pages.folder.cleanup)
        cls.lines = lines_of(EXAMPLE)
        cls.page = cls.pages.page("two_users", cls.lines, EXAMPLE)
        cls.random, cls.replies = {}, {}
        for count in LENGTHS:
            scenario = cls.pages.file(f"random{count}.json", json.dumps(runs.random_scenario(count, count)).encode())
            lines = lines_of(scenario)
            cls.replies[count] = [json.loads(line) for line in lines.splitlines()]
            cls.random[count] = cls.pages.page(f"random{count}", lines, scenario)

    def open(self, page: pathlib.Path, address: str = "", **size: int) -> Tab:
        tab = Tab(browser(), page, address, **size)
        self.addCleanup(tab.close)
        return tab

    def numbers(self, count: int, *words: str) -> list[int]:
        """The numbers of the steps with these replies."""
        return [number for number, reply in enumerate(self.replies[count], 1) if reply["reply"] in words]

    def test_arrows(self) -> None:
        tab = self.open(self.page)
        seen = []
        while tab.value("document.activeElement.id") != "picture":
            tab.press("Tab", 9)
        for key in ["Home"] + ["ArrowRight"] * 4 + ["ArrowUp", "End", "ArrowLeft"]:
            tab.press(key)
            seen.append(tab.value(ACTIVE))
            self.assertIn(f"step {seen[-1]}", tab.value("card.hidden || card.textContent.replace(/step \\d+ \\(/, '')"))
            self.assertEqual(tab.value(CHOSEN), seen[-1])
        self.assertEqual(seen, ["1", "2", "3", "4", "5", "5", "16", "15"])
        wide = "picture.clientWidth"
        before = tab.value(wide)
        tab.press("+")
        self.assertGreater(tab.value(wide), before)
        tab.press("Escape")
        self.assertTrue(tab.value("card.hidden"))

    def test_the_pointer(self) -> None:
        tab = self.open(self.page)
        tab.point("[data-mark=attach]")
        shown = tab.value("card.hidden || card.textContent")
        for words in ("user 1001, step 3", "process 1000: PT_ATTACH of 1001", "→ ok", '"request":"PT_ATTACH"'):
            self.assertIn(words, shown)
        tab.point("#users button:nth-child(3)", click=True)
        users = "[...new Set([...document.querySelectorAll('[data-mark]')].map(mark => mark.dataset.user))].join()"
        tab.settle()
        self.assertEqual(tab.value(f"[location.hash, {users}]"), ["#user=1002", "1002"])
        tab.point("#users button", click=True)
        tab.settle()
        self.assertEqual(tab.value(f"[location.hash, {users}]"), ["", "1001,1002"])

    def test_the_card_stays_and_can_be_selected(self) -> None:
        tab = self.open(self.page)
        tab.point("[data-mark=attach]", click=True)
        x, y = tab.middle("#card p.raw")
        tab.mouse("mouseMoved", x, y)
        for count in (1, 2, 3):
            for kind, buttons in (("mousePressed", 1), ("mouseReleased", 0)):
                tab.ask("Input.dispatchMouseEvent", type=kind, x=x, y=y, button="left", buttons=buttons, clickCount=count)
        self.assertEqual(tab.value("getSelection().toString().trim()"), "→ ok")
        self.assertFalse(tab.value("card.hidden"))
        tab.point("[data-mark=wait]")
        self.assertIn("PT_ATTACH", tab.value("card.textContent"))

    def test_the_mouse_drags(self) -> None:
        tab = self.open(self.random[300])
        place = "[scroller.scrollLeft, scroller.scrollTop]"
        self.assertEqual(tab.value(place), [0, 0])
        tab.drag(900, 300, -400, -90)
        self.assertEqual(tab.value(place), [400, 90])
        self.assertTrue(tab.value("card.hidden"))
        tab.drag(900, 300, 150, 0)
        self.assertEqual(tab.value(place), [250, 90])

    def test_next_stop_and_error_by_key(self) -> None:
        tab = self.open(self.random[300])
        for key, word in (("s", "stopped"), ("e", "error")):
            wanted = [str(number) for number in self.numbers(300, word)]
            found = []
            for _ in wanted:
                tab.press(key)
                found.append(tab.value(ACTIVE))
            self.assertEqual(found, wanted)
            tab.press(key)
            self.assertRegex(tab.value("said.textContent"), "^no later")
            tab.press(key.upper())
            self.assertEqual(tab.value(ACTIVE), wanted[-2])
            tab.value("page.picture.current = null")
        tab.point("#next-stop", click=True)
        self.assertEqual(tab.value(ACTIVE), str(self.numbers(300, "stopped")[0]))

    def test_go_to_a_step(self) -> None:
        tab = self.open(self.random[5000])
        tab.press("g")
        tab.write("3210")
        tab.press("Enter", 13)
        self.assertEqual((tab.value(ACTIVE), tab.value(CHOSEN)), ("3210", "3210"))
        self.assertIn("step 3210 of all", tab.value("card.textContent"))
        tab.settle(0.6)
        self.assertEqual(tab.value("location.hash"), "#step=3210")
        tab.value("number.value = '9999', number.focus()")
        tab.press("Enter", 13)
        self.assertEqual(tab.value("said.textContent"), "there is no step 9999")

    def test_a_link_to_a_step(self) -> None:
        tab = self.open(self.random[5000], "step=4040")
        self.assertEqual((tab.value(ACTIVE), tab.value(CHOSEN)), ("4040", "4040"))
        box = tab.value("(box => [box.left, box.right, box.top, box.bottom])(active.getBoundingClientRect())")
        self.assertTrue(136 < box[0] and box[1] < 1400 and 60 < box[2] and box[3] < 800, box)
        tab.value("location.hash = 'step=17'")
        tab.settle(0.3)
        self.assertEqual((tab.value(ACTIVE), tab.value(CHOSEN)), ("17", "17"))
        user = self.replies[5000][16]["user"]
        own = self.open(self.random[5000], f"user={user}&step=20")
        wanted = [number for number, reply in enumerate(self.replies[5000], 1) if reply["user"] == user][19]
        self.assertEqual(own.value(ACTIVE), str(wanted))

    def test_search(self) -> None:
        tab = self.open(self.page)
        tab.press("/")
        tab.write("pt_")
        steps = json.loads(EXAMPLE.read_text())["steps"]
        wanted = [str(number) for number, step in enumerate(steps, 1) if step["op"] == "ptrace"]
        self.assertEqual(tab.value("found.textContent"), f"{len(wanted)} steps")
        seen = []
        for _ in [*wanted, wanted[0]]:
            tab.press("Enter", 13)
            seen.append(tab.value(ACTIVE))
        self.assertEqual(seen, [*wanted, wanted[0]])
        self.assertEqual(tab.value("found.textContent"), f"1 of {len(wanted)}")
        tab.press("Escape")
        tab.press("N")
        self.assertEqual(tab.value(ACTIVE), wanted[-1])
        tab.press("/")
        tab.write("nowhere")
        self.assertEqual(tab.value("found.textContent"), "not found")

    def test_the_list(self) -> None:
        tab = self.open(self.page)
        rows = tab.value(
            "[...document.querySelectorAll('.row')].map(row =>" "[row.dataset.line, row.querySelector('.reply').textContent])"
        )
        self.assertEqual([number for number, _ in rows], [str(number) for number in range(1, 17)])
        plain = EXAMPLE.with_suffix(".out").read_text().splitlines()
        self.assertEqual([text for _, text in rows], [line.split(" ", 2)[2] for line in plain])
        tab.point(".row[data-line='7'] .reply", click=True)
        self.assertEqual((tab.value(ACTIVE), tab.value(CHOSEN)), ("7", "7"))
        tab.point("[data-mark=attach]", click=True)
        attached = tab.value("document.querySelector('[data-mark=attach]').dataset.line")
        self.assertEqual(tab.value(CHOSEN), attached)
        tab.value("list.focus()")
        tab.press("ArrowDown")
        self.assertEqual(tab.value(CHOSEN), str(int(attached) + 1))
        tab.press("l")
        self.assertTrue(tab.value("list.hidden"))

    def test_a_long_list_has_the_rows_of_its_window(self) -> None:
        tab = self.open(self.random[5000])
        tab.value("list.scrollTop = 40000")
        tab.settle()
        lines = [int(line) for line in tab.value("[...document.querySelectorAll('.row')].map(row => row.dataset.line)")]
        self.assertLess(len(lines), 100)
        self.assertIn(2001, lines)
        self.assertEqual(lines, list(range(lines[0], lines[-1] + 1)))

    def test_held_and_errors_can_be_left_out(self) -> None:
        for words, replies in (("held", ["held"]), ("held,error", ["held", "error"])):
            tab = self.open(self.random[300], f"draw=all&hide={words}")
            left_out = self.numbers(300, *replies)
            lines = [int(mark["data-line"]) for mark in tab.document().primary()]
            self.assertEqual(lines, [number for number in range(1, 301) if number not in left_out])
        tab.point("#view summary", click=True)
        tab.point("#errors", click=True)
        tab.settle()
        self.assertEqual(tab.value("location.hash"), "#draw=all&hide=held")
        self.assertEqual(tab.value("errors.textContent"), f"errors {len(self.numbers(300, 'error'))}")

    def test_fit(self) -> None:
        for page, count in ((self.page, 16), (self.random[300], 300), (self.random[5000], 5000)):
            with self.subTest(count):
                tab = self.open(page, "width=fit")
                self.assertLessEqual(tab.value("scroller.scrollWidth - scroller.clientWidth"), 0)
                last = tab.value(f"page.picture.plan.x({count - 1}) / page.picture.room")
                self.assertTrue(0.93 < last <= 1, last)
                for _ in range(5):
                    tab.press("+")
                self.assertGreater(tab.value("scroller.scrollWidth - scroller.clientWidth"), 0)
                tab.press("0")
                self.assertLessEqual(tab.value("scroller.scrollWidth - scroller.clientWidth"), 0)

    def test_bars_where_marks_would_overlap(self) -> None:
        tab = self.open(self.random[5000], "width=fit")
        self.assertGreater(tab.value("document.querySelectorAll('.bars').length"), 10)
        labels = tab.value("[...document.querySelectorAll('.density')].map(bars => bars.getAttribute('aria-label'))")
        self.assertTrue(all(re.match(r"(user|process|LWP) \d+: \d+ marks", label) for label in labels), labels[:3])
        tab.press("s")
        self.assertEqual(tab.value(ACTIVE), str(self.numbers(5000, "stopped")[0]))

    def test_lanes_in_view(self) -> None:
        tab = self.open(self.random[300], "lwps=all")
        tab.value("page.picture.hidesOthers || page.toggleOthers()")
        exact = """(() => {
            const { plan } = page.picture, { left, right } = page.picture.window();
            const meets = (begin, end) => end > left && begin < right;
            const isSeen = ({ column }) => meets(column * plan.step, (column + 1) * plan.step);
            const hasMark = ({ marks }) => marks.some(isSeen);
            const end = ({ to, seenTo }) => to === null ? Infinity : plan.columnOf[Math.max(to, seenTo ?? 0)] + 1;
            const lives = (lane) => (lane.kind === "process" || lane.kind === "lwp")
                && meets(plan.columnOf[lane.from] * plan.step, end(lane) * plan.step);
            const names = (lanes) => lanes.filter(({ kind }) => kind !== "user").map(({ name }) => name);
            return [names(plan.order.filter((lane) => hasMark(lane) || lives(lane))), names(plan.lanes)];
        })()"""
        most = tab.value("page.picture.plan.order.length")
        for left in range(0, 6000, 777):
            tab.value(f"scroller.scrollLeft = {left}")
            tab.settle(0.05)
            wanted, shown = tab.value(exact)
            self.assertEqual(shown, wanted, left)
            self.assertLess(len(shown), most)

    def test_a_phone(self) -> None:
        tab = self.open(self.random[300], width=390, height=844)
        self.assertLessEqual(tab.value("corner.offsetWidth"), 390 / 4)  # the names have all their digits
        self.assertLessEqual(tab.value("document.documentElement.scrollWidth"), 390)
        self.assertGreater(tab.value("scroller.clientHeight"), 300)

    def test_a_file_of_svg_and_printing(self) -> None:
        tab = self.open(self.page, "theme=dark&lwps=all")
        tab.value("dispatchEvent(new Event('beforeprint'))")
        ground = tab.value("document.querySelector('#print > svg > rect').getAttribute('fill')")
        self.assertEqual(ground, "rgb(255, 255, 255)")
        self.assertEqual(tab.value("document.documentElement.dataset.theme"), "dark")
        text = tab.value("new XMLSerializer().serializeToString(document.querySelector('#print > svg'))")
        root = xml.etree.ElementTree.fromstring(text)
        self.assertEqual(root.tag, "{http://www.w3.org/2000/svg}svg")
        for word in ("var(", "light-dark(", "class=", "style="):
            self.assertNotIn(word, text)
        names = [element.text for element in root.iter("{http://www.w3.org/2000/svg}text")]
        for name in ("user 1001", "process 2001", "LWP 104001", "PT_ATTACH", "traced by 1000"):
            self.assertIn(name, names)
        marks = tab.value("document.querySelectorAll('#picture [data-mark]').length")
        self.assertEqual(marks, text.count("data-mark="))
        tab.value("dispatchEvent(new Event('afterprint'))")
        self.assertEqual(tab.value("print.children?.length ?? document.getElementById('print').children.length"), 0)

    def test_forced_colors(self) -> None:
        tab = self.open(self.page)
        fill = "getComputedStyle(document.querySelector('[data-mark=birth] .shape')).fill"
        before = tab.value(fill)
        tab.ask("Emulation.setEmulatedMedia", features=[{"name": "forced-colors", "value": "active"}])
        self.assertEqual(tab.value("matchMedia('(forced-colors: active)').matches"), True)
        self.assertNotEqual(tab.value(fill), before)

    def test_drop_and_paste(self) -> None:
        tab = self.open(self.pages.empty())
        texts = json.dumps([EXAMPLE.read_text(), self.lines.decode()])
        count = "document.querySelectorAll('[data-mark]').length"
        dropped = f"""(async () => {{
            const data = new DataTransfer();
            for (const text of {texts}) data.items.add(new File([text], "a file"));
            dispatchEvent(Object.assign(new Event("drop"), {{ dataTransfer: data }}));
            while (!{count}) await new Promise((done) => setTimeout(done, 10));
            return document.querySelectorAll("[data-trace]").length;
        }})()"""
        self.assertEqual(tab.value(dropped), 2)
        self.assertEqual(len([mark for mark in tab.document().marks if "data-more" not in mark]), 16)
        tab.value(
            """(() => {
            const data = new DataTransfer();
            data.setData("text/plain", '{"user":1007,"step":1,"reply":"new","pid":7000,"lwp":124000}');
            document.body.dispatchEvent(new ClipboardEvent("paste", { clipboardData: data, bubbles: true }));
        })()"""
        )
        self.assertEqual([mark["data-user"] for mark in tab.document().marks], ["1007"])

    def test_each_line_of_a_random_run_has_its_mark(self) -> None:
        for count in LENGTHS:
            with self.subTest(count):
                tab = self.open(self.random[count], "draw=all")
                marks = tab.value(
                    "[...document.querySelectorAll('[data-mark]:not([data-more])')].map(({ dataset }) =>"
                    "[Number(dataset.line), Number(dataset.user), Number(dataset.step), dataset.mark])"
                )
                wanted = [(line, reply["user"], reply["step"]) for line, reply in enumerate(self.replies[count], 1)]
                self.assertEqual(sorted(tuple(mark[:3]) for mark in marks), wanted)
                words = collections.Counter(reply["reply"] for reply in self.replies[count])
                kinds = collections.Counter(kind for *_, kind in marks)
                self.assertEqual(kinds["birth"] + kinds["lwp-birth"], words["new"])
                for kind, word in (
                    ("stop", "stopped"),
                    ("wait", "status"),
                    ("end", "ended"),
                    ("error", "error"),
                    ("held", "held"),
                    ("nothing", "nothing"),
                    ("caught", "caught"),
                ):
                    self.assertEqual(kinds[kind], words[word], kind)
                self.assertEqual(tab.value("document.querySelectorAll('[data-mark]:not([aria-label])').length"), 0)
                self.assertEqual(tab.value("faults.children.length"), 0)

    def test_a_long_session_is_drawn_in_part(self) -> None:
        tab = self.open(self.random[5000])
        part = tab.document()
        tab.value("scroller.scrollTo(60000, 0)")
        tab.settle(0.3)
        lines = [int(mark["data-line"]) for mark in tab.document().primary()]
        self.assertTrue(2200 < min(lines) and max(lines) < 2500, lines)
        self.assertLess(len(part.marks), 1000)
        print(f"5000 lines are read and drawn in {part.body['data-milliseconds']} ms, {len(part.marks)} marks in view")
        self.assertLess(int(part.body["data-milliseconds"]), MOST_MILLISECONDS)
