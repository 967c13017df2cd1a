"""sigc-view: the page's text and values, its scripts under Node, and the page as a browser shows it. What is not
installed is left out."""
import html
import os
import re
import resource
import tempfile
import unittest

from calling import EXAMPLES, TUTORIAL, needs_sigc, pairs, ran, sigc, written
from paging import BROWSER, NODE, asked, opened, page_of, parts_of, rows_of, text_of
from programs import Program

needs_node = unittest.skipUnless(NODE, "node is not installed: the page's scripts are not run")
needs_browser = unittest.skipUnless(BROWSER, "chromium is not installed: the page is not opened")
FAULT = "process P = (? integer A ! integer Y)\n(| Y := F(A) |);\nprocess F = (? integer X ! integer Z)\n(| Z := 10 / (X - 1) |);\n"
# Integers of more digits than a number of a page's script has, and delays, copies and clocks.
WIDE = (
    "process P = (? integer A; boolean B ! integer Y, V, Z, W, ONE)\n"
    "(| A ^= B | Y := A $ init 7 | V := F(Y) | Z := V when B | W := A default Z | ONE := 1 when (A > 5) |);\n"
    "process F = (? integer X ! integer R) (| R := X |);\n"
)
WIDE_FLOWS = "A 9223372036854775807 -9223372036854775808 5 6 -1 4503599627370497 0 300 -40000\nB true false true true false false true true true\n"
COUNTING = "process P = (? boolean B ! integer N) (| N := F(B) |);\nprocess F = (? boolean T ! integer K) (| K := (K $ init 0) + 1 | K ^= T |);\n"
RECORDER = """
  const texts = [], filled = [], stroked = [];
  globalThis.Path2D = class {
    constructor() { this.points = []; }
    moveTo(x, y) { this.points.push(["M", x, y]); }
    lineTo(x, y) { this.points.push(["L", x, y]); }
    rect(x, y, width, height) { this.points.push(["R", x, y, width, height]); }
    closePath() { this.points.push(["Z"]); }
  };
  const context = { save() {}, restore() {}, beginPath() {}, rect() {}, clip() {}, setLineDash() {}, fillRect() {},
    stroke(path) { stroked.push([this.strokeStyle, path.points]); }, fill(path) { filled.push([this.fillStyle, path.points]); }, fillText(text) { texts.push(text); } };
  const colours = new Proxy({}, { get: (_, name) => name });
  const values = new Values(given0, await inflated(bytesOf(given1)));
  const pen = (width, start, span) => ({ context, values, colours, width, gutter: 54, start, span, letter: 7 });
  const number = (name) => given0.signals.findIndex((it) => it.name === name);
"""


class InRoom(unittest.TestCase):
    def setUp(self):
        room = tempfile.TemporaryDirectory()
        self.addCleanup(room.cleanup)
        self.room = room.name

    def thermostat(self, *words):
        return page_of(self.room, f"{EXAMPLES}/thermostat.sig", f"{EXAMPLES}/thermostat.flows", *words)

    def boiler(self, *words):
        return page_of(self.room, f"{TUTORIAL}/boiler.sig", f"{TUTORIAL}/boiler.flows", *words)

    def page(self, program, flows, *words):
        return page_of(self.room, written(self.room, "p.sig", program), written(self.room, "p.flows", flows), *words)


def marked(text):
    """What is marked as the place of the end."""
    return re.search(r'<[^<>]*id="place">[^<>]*<[^<>]*>', text)[0]


@needs_sigc
class Texts(InRoom):
    def test_nothing_from_the_network(self):
        found = re.findall(r"(?:https?:)?//(?!www\.w3\.org/2000/svg)[a-z]+\.|\bsrc=|\burl\((?!#)|<link", text_of(self.thermostat()))
        self.assertEqual(found, [])

    def test_the_end_of_an_input_is_marked_at_its_declaration(self):
        self.assertEqual(marked(text_of(self.thermostat())), '<span data-at="3:33" data-signals="0" class="place" id="place">TEMPERATURE</span>')

    def test_the_place_of_a_fault_in_a_copy(self):
        text = text_of(self.page(FAULT, "A 3 1\n"))
        self.assertEqual(marked(text), '<span data-at="4:12" class="place" id="place">/</span>')
        self.assertIn("end: division by zero at 4:12 after 1 instants (in the copy F#1)", text)
        self.assertIn('id="end" class="fault"', text)

    def test_the_text_of_the_program_is_whole(self):
        shown = re.search(r"<pre>(.*?)</pre>", text_of(self.thermostat()), flags=re.S)[1]
        with open(f"{EXAMPLES}/thermostat.sig", encoding="latin-1") as it:
            self.assertEqual(html.unescape(re.sub(r"<[^>]*>", "", shown)), it.read())

    def test_clocks_are_told_in_words(self):
        page = self.boiler()
        self.assertEqual([it for it in parts_of(page)[0]["clocks"] if it], ["at every instant", "when MEASURE", "when FULL and ON"])
        self.assertIn('<em>when MEASURE: 4 of 10</em> <span data-signals="1">T</span>', text_of(page))

    def test_states_have_their_names(self):
        self.assertEqual(text_of(self.boiler()).count('"states":["REST","HEAT","BROKEN"]'), 3)


@needs_sigc
class Values(InRoom):
    """What a page has, beside what sigc-trace tells of the same run."""

    def compared(self, program, flows, *words):
        page = page_of(self.room, program, flows, *words)
        self.assertEqual(rows_of(page), [it.split() for it in ran("sigc-trace", program, flows, *words).stdout.splitlines()])
        return page

    def test_examples(self):
        for program, flows in [*pairs(EXAMPLES), *pairs(TUTORIAL)]:
            if sigc("check", program).returncode == 0:
                with self.subTest(program):
                    self.compared(program, flows)

    def test_programs_at_random(self):
        for seed in range(8):
            it = Program(seed)
            program, flows = written(self.room, "p.sig", it.text()), written(self.room, "p.flows", it.flows())
            if sigc("check", program).returncode == 0:
                with self.subTest(seed):
                    self.compared(program, flows)

    def test_integers_of_all_sizes(self):
        program, flows = written(self.room, "p.sig", WIDE), written(self.room, "p.flows", WIDE_FLOWS)
        for words in ((), ("--from", "3"), ("--from", "6", "--to", "8"), ("--from", "20")):
            with self.subTest(words):
                self.compared(program, flows, *words)

    def test_a_run_in_several_pieces(self):
        lines = "\n".join(f"{name} {' '.join(str(it * step % 991 - 300) for it in range(20_000))}" for name, step in (("A", 7), ("B", 389)))
        program = f"process P = (? integer A, B ! integer {', '.join(f'Y{it}' for it in range(20))}; event E)\n(| A ^= B | E := when (A > B)\n"
        program += "".join(f" | Y{it} := (A when (B > {40 * it - 400})) default B\n" for it in range(20)) + " |);\n"
        self.compared(written(self.room, "p.sig", program), written(self.room, "p.flows", lines + "\n"), "--from", "9000", "--to", "19500")

    @needs_node
    def test_the_script_of_the_page_reads_the_same(self):
        for program, flows in ((WIDE, WIDE_FLOWS), (COUNTING, "B" + " true" * 40_000 + "\n")):
            page = self.page(program, flows)
            script = "const values = new Values(given0, await inflated(bytesOf(given1))); return every(given0.signals).map((signal) => Array.from({ length: given0.count }, (_, it) => values.textAt(signal, it) || '.'));"
            self.assertEqual(list(map(list, zip(*asked(script, *parts_of(page))))), rows_of(page)[1:])

    def test_the_instants_that_are_asked_for(self):
        page = self.thermostat("--from", "3", "--to", "4")
        self.assertEqual((parts_of(page)[0]["first"], parts_of(page)[0]["count"]), (3, 2))
        self.assertEqual([it[0] for it in rows_of(page)], ["TEMPERATURE", "19", "21"])
        self.assertIn('<span id="note">instants 3 to 4 of 8</span>', text_of(page))


@needs_sigc
class Large(InRoom):
    def test_a_hundred_thousand_instants_of_56_signals(self):
        integers, booleans = [f"L{it}" for it in range(21)], [f"C{it}" for it in range(21)]
        equations = [f"L{it} := {'(L%d $ init 0)' % (it - 1) if it % 3 else 'A%d + A%d' % (it % 8, (it + 1) % 8)} - {it}" for it in range(21)]
        equations += [f"C{it} := L{it} > L{(it + 3) % 21}" for it in range(21)]
        program = f"process P = (? integer {', '.join(f'A{it}' for it in range(8))}; boolean B ! integer Y, Z; boolean C, D; event E)\n"
        program += f"(| {' ^= '.join(f'A{it}' for it in range(8))} ^= B | Y := A0 when B | Z := Y default A1 | C := A2 > A3 | D := C xor B | E := when C\n | "
        program += "\n | ".join(equations) + f" |)\nwhere integer {', '.join(integers)}; boolean {', '.join(booleans)}; end;\n"
        walks = [[500 + (number + 3) * it * it % 97 - it % 41 for it in range(10_000)] * 10 for number in range(8)]
        flows = "".join(f"A{number} {' '.join(map(str, walk))}\n" for number, walk in enumerate(walks))
        flows += f"B{' true false false' * 33_333} true\n"
        before = resource.getrusage(resource.RUSAGE_CHILDREN).ru_utime
        page = self.page(program, flows)
        self.assertLess(resource.getrusage(resource.RUSAGE_CHILDREN).ru_utime - before, 8)
        self.assertEqual((parts_of(page)[0]["count"], len(parts_of(page)[0]["signals"])), (100_000, 56))
        self.assertLess(os.path.getsize(page), 4_000_000)


@needs_node
class Rows(unittest.TestCase):
    SIGNALS = [{"name": f"{path}.{own}" if path else own, "own": own, "path": path, "clock": at % 2, "role": role, "kind": "integer"} for at, (path, own, role) in enumerate(
        (("", "A", "input"), ("", "Z", "output"), ("F#1", "X", "input"), ("F#1", "Y", "output"), ("F#1/G#2", "U", "input"), ("", "B", "local")))]

    def rows(self, **state):
        given = {"order": list(range(6)), "search": "", **state}
        return asked("given0.folded = new Set(given0.folded || []); return rowsOf(given0, given1).map((it) => (it.path === undefined ? it.signal : it.path + (it.isFolded ? '-' : '+')));", given, self.SIGNALS)

    def test_signals_of_a_copy_stand_below_its_name(self):
        self.assertEqual(self.rows(), [0, 1, "F#1+", 2, 3, 4, 5])
        self.assertEqual(self.rows(folded=["F#1/G#2"]), [0, 1, "F#1+", 2, 3, "F#1/G#2-", 5])
        self.assertEqual(self.rows(folded=["F#1"]), [0, 1, "F#1-", 5])
        self.assertEqual(self.rows(order=[0, 4], folded=["F#1"]), [0, 4])

    def test_picked_in_an_order_of_ones_own(self):
        self.assertEqual(self.rows(order=[3, 0, 2]), [3, 0, 2])

    def test_what_is_searched_is_shown_though_its_copy_is_folded(self):
        self.assertEqual(self.rows(search="f#1.", folded=["F#1"]), ["F#1+", 2, 3])
        self.assertEqual(self.rows(search="g#2", folded=["F#1"]), [4])

    def test_moved_and_sorted(self):
        self.assertEqual(asked("return [moved([0, 1, 2, 3], 3, 1), moved([0, 1, 2, 3], 0, 2), moved([0, 1], 1, 1)];"), [[0, 3, 1, 2], [1, 2, 0, 3], [0, 1]])
        self.assertEqual(asked("return [sortedBy('name', [5, 1, 0], given0), sortedBy('role', [5, 1, 0], given0), sortOf([0, 1, 5], given0), sortOf([5, 1, 0], given0)];", self.SIGNALS), [[0, 5, 1], [0, 1, 5], "declared", "own"])

    def test_many_copies_are_folded_at_first(self):
        many = [{"path": f"F#{it}"} for it in range(41)]
        self.assertEqual(asked("return [foldedAtFirst(given0).size, foldedAtFirst(given0.slice(0, 40)).size];", many), [41, 0])

    def test_an_address_is_read_as_it_was_written(self):
        given = {"signal": "F#1.X", "instant": 12, "from": 3, "span": 40, "search": "a b&c", "signals": ["F#1.X", "A"], "folded": [], "closed": ["program"], "scheme": "dark"}
        self.assertEqual(asked("return [addressOf(given0), askedOf('#' + addressOf(given0))];", given), ["signal=F%231.X&instant=12&from=3&span=40&search=a%20b%26c&signals=F%231.X,A&folded=&closed=program&scheme=dark", given])
        none = {"signal": "", "instant": None, "from": None, "span": None, "search": "", "signals": None, "folded": None, "closed": None, "scheme": ""}
        self.assertEqual(asked("return [addressOf(given0), askedOf(''), askedOf('#instant=x&search=%zz').search];", none), ["", none, "%zz"])


@needs_node
class Zooming(unittest.TestCase):
    def zoomed(self, start, span, cursor, factor, pivot=None):
        at = f", {pivot}" if pivot is not None else ""
        found = asked(f"return zoomed({{ start: {start}, span: {span}, cursor: {cursor} }}, 1000, {factor}{at});")
        return found["start"], found["span"]

    def test_the_cursor_keeps_its_place(self):
        self.assertEqual(self.zoomed(100, 100, 149.5, 0.5), (125, 50))
        self.assertEqual(self.zoomed(100, 100, 119.5, 0.5), (110, 50))

    def test_a_cursor_out_of_view_comes_to_the_middle(self):
        self.assertEqual(self.zoomed(100, 100, 599.5, 0.5), (575, 50))

    def test_the_cursor_stays_in_view_when_another_instant_is_zoomed_at(self):
        self.assertEqual(self.zoomed(100, 100, 110, 0.1, 190), (110, 10))
        self.assertEqual(self.zoomed(100, 100, 110, 0.5, 100), (100, 50))

    def test_not_beyond_the_run(self):
        self.assertEqual(self.zoomed(0, 100, 10, 100), (0, 1000))
        self.assertEqual(self.zoomed(0, 100, 0, 0.001), (0, 4))

    def test_marks_of_the_axis(self):
        self.assertEqual(asked("return [[10, 1000], [100, 1000], [100000, 1000], [30, 640]].map(([span, width]) => stepOfAxis(span, width, 64));"), [1, 10, 10000, 5])


@needs_sigc
@needs_node
class Drawing(InRoom):
    """What is drawn of a counter, and of a boolean that is true at each fourth instant."""

    def drawn(self, name, width, start, span):
        program = "process P = (? boolean B ! integer N, S; event E) (| N := (N $ init 0) + 1 | N ^= B | S := N when B | E := when B |);\n"
        page = self.page(program, "B" + " true false false false" * 500 + "\n")
        return asked(RECORDER + f"drawLane(pen({width}, {start}, {span}), number('{name}'), {{ top: 0, height: 44 }}); return {{ texts, filled, stroked }};", *parts_of(page))

    def test_values_where_they_have_room(self):
        self.assertEqual(self.drawn("N", 600, 10, 10)["texts"], [str(it) for it in range(11, 21)])

    def test_numbers_of_many_digits_in_short_where_they_have_no_room(self):
        page = self.page("process P = (? integer A ! integer Y) (| Y := A |);\n", "A 7 -1234567890123 7 7 7 7\n")
        self.assertEqual(asked(RECORDER + "drawLane(pen(420, 0, 6), 0, { top: 0, height: 44 }); return texts;", *parts_of(page)), ["7", "~-1.2e12", "7"])

    def test_a_curve_with_its_least_and_greatest_value_where_they_have_none(self):
        drawn = self.drawn("N", 600, 100, 100)
        self.assertEqual(drawn["texts"], ["200", "101"])
        steps = next(points for colour, points in drawn["stroked"] if colour == "wave" and len(points) == 200)
        heights = [it[2] for it in steps[::2]]
        self.assertEqual((heights, heights[0], heights[-1]), (sorted(heights, reverse=True), 38, 6))

    def test_instants_without_a_value_are_gaps_of_a_curve(self):
        drawn = self.drawn("S", 600, 0, 200)
        self.assertEqual(drawn["texts"], ["197", "1"])
        self.assertEqual([len(points) for colour, points in drawn["stroked"] if colour == "line"], [100])

    def test_many_instants_in_a_pixel(self):
        drawn = self.drawn("N", 100, 0, 2000)
        self.assertEqual(drawn["texts"], ["2000", "1"])
        self.assertEqual([len(points) for colour, points in drawn["filled"]], [100])

    def test_the_share_of_true_instants(self):
        share = self.drawn("B", 100, 0, 2000)["filled"][1][1]
        self.assertEqual([(it[2], it[4]) for it in share], [(39 - 34 / 4, 34 / 4)] * 100)

    def test_an_event_at_each_of_its_instants(self):
        self.assertEqual(sum(it[0] == "M" for it in self.drawn("E", 400, 0, 40)["stroked"][1][1]), 20)


@needs_sigc
@needs_browser
class Opened(InRoom):
    WRITTEN = "<script>window.shown = new Set(); const fill = CanvasRenderingContext2D.prototype.fillText; CanvasRenderingContext2D.prototype.fillText = function (text, x, y) { window.shown.add(text); fill.call(this, text, x, y); };</script>"

    @classmethod
    def setUpClass(cls):
        room = tempfile.TemporaryDirectory()
        cls.addClassCleanup(room.cleanup)
        cls.browsers_room = room.name

    def opened(self, page, *words, **more):
        return opened(self.browsers_room, page, *words, **more)

    def rows(self, shown):
        return re.findall(r'<div class="row (?!head)[^>]*title="([^":]*):[^"]*"[^>]*>.*?class="value"[^>]*>([^<]*)<', shown[shown.index('id="rows"') :].split('id="scroll"')[0])

    def test_the_thermostat(self):
        page = self.thermostat()
        page = written(self.room, "recorded.html", text_of(page).replace("<style>", self.WRITTEN + "<style>", 1))
        shown = self.opened(page, then="document.body.dataset.shown = [...window.shown].join(' ')")
        self.assertEqual(self.rows(shown), [("TEMPERATURE", "20"), ("HEATING", "false"), ("HYSTERESIS#1.X", "20"), ("HYSTERESIS#1.ON", "false"), ("HYSTERESIS#1.WAS", "false")])
        words = re.search('data-shown="([^"]*)"', shown)[1].split()
        self.assertLessEqual(set("20 17 19 21 22 18".split()), set(words))

    def test_states_by_their_names(self):
        self.assertEqual(dict(self.rows(self.opened(self.boiler(), "#instant=4")))["STATE"], "HEAT")

    def test_an_address_is_followed(self):
        shown = self.opened(self.thermostat(), "#signal=HYSTERESIS%231.WAS&instant=3&search=was&closed=links&scheme=dark")
        self.assertIn("HYSTERESIS#1.WAS: boolean, local; true at instant 3\nat every instant; 8 of 8 instants\nHYSTERESIS#1.WAS := HYSTERESIS#1.ON $ init false", shown)
        self.assertEqual(len(re.findall(r'data-signals="4" class="pointed"', shown)), 4)
        self.assertEqual(self.rows(shown), [("HYSTERESIS#1.WAS", "true")])
        self.assertEqual((re.findall(r'<details class="panel" id="(\w+)"[^>]* open', shown), 'data-scheme="dark"' in shown), (["program", "clocks", "waves"], True))

    def test_what_a_user_does_is_kept_in_the_address(self):
        then = """
          document.querySelector('.row[title^="HEATING"] .hide').click();
          document.querySelector('.row[data-path]').click();
          document.querySelector('.row[title^="TEMPERATURE"]').click();
          byId("behind").click(); byId("behind").click(); byId("in").click(); byId("scheme").click();
          byId("links").open = false;
        """
        shown = self.opened(self.thermostat(), then=then)
        self.assertEqual(re.search('data-address="([^"]*)"', shown)[1], "#instant=3&span=4&signals=TEMPERATURE,HYSTERESIS%231.X,HYSTERESIS%231.ON,HYSTERESIS%231.WAS&folded=HYSTERESIS%231&closed=links&scheme=dark".replace("&span=4", "&from=2&span=4"))
        self.assertIn("TEMPERATURE: 19 at instant 3; at every instant; 8 of 8 instants", shown)
        self.assertEqual(self.rows(shown), [("TEMPERATURE", "19")])

    def test_signals_are_picked_and_put_in_order(self):
        then = """
          const box = (text) => [...document.querySelectorAll("#picks label")].find((it) => it.textContent === ` ${text}`).firstElementChild;
          box("HYSTERESIS#1").click(); box("WAS").click();
          choose(4); shift(-1); shift(-1);
        """
        self.assertEqual([name for name, _ in self.rows(self.opened(self.thermostat(), then=then))], ["HYSTERESIS#1.WAS", "TEMPERATURE", "HEATING"])

    def test_dragging_and_the_wheel(self):
        then = """
          const send = (what, target, x, y, more) => target.dispatchEvent(new (what === "wheel" ? WheelEvent : PointerEvent)(what, { bubbles: true, cancelable: true, clientX: x, clientY: y, ...more }));
          const row = (name) => document.querySelector(`.row[title^="${name}:"]`), middle = (it) => it.getBoundingClientRect().top + it.offsetHeight / 2;
          const grip = row("HEATING").querySelector(".grip"), to = row("TEMPERATURE");
          send("pointerdown", grip, 40, middle(grip)); send("pointermove", to, 60, middle(to)); send("pointerup", to, 60, middle(to));
          zoom(0.5); const lane = row("HEATING").querySelector(".lane"), { left, width: wide } = lane.getBoundingClientRect();
          send("pointerdown", lane, left + wide / 2, middle(lane)); send("pointermove", lane, left, middle(lane)); send("pointerup", lane, left, middle(lane));
          document.body.dataset.dragged = [state.start, state.span, state.cursor].map(Math.round).join();
          send("pointerdown", lane, left + wide * 0.6, middle(lane)); send("pointerup", lane, left + wide * 0.6, middle(lane));
          document.body.dataset.clicked = state.cursor;
          send("wheel", lane, left + 1, middle(lane), { ctrlKey: true, deltaY: 100 });
          document.body.dataset.wheeled = state.span > 4 && state.cursor >= state.start && state.cursor < state.start + state.span;
        """
        shown = self.opened(self.thermostat(), then=then)
        self.assertEqual([name for name, _ in self.rows(shown)][:2], ["HEATING", "TEMPERATURE"])
        self.assertEqual([re.search(f'data-{it}="([^"]*)"', shown)[1] for it in ("dragged", "clicked", "wheeled")], ["2,4,0", "4", "true"])

    def test_a_signal_of_the_program_is_pointed_at(self):
        shown = self.opened(self.thermostat(), then="""document.querySelector('[data-at="7:6"]').dispatchEvent(new MouseEvent("mouseover", { bubbles: true }))""")
        self.assertIn("HYSTERESIS#1.ON: boolean, output; false at instant 1\n", shown)

    def test_the_waveform_is_first_on_a_small_screen(self):
        then = "document.body.dataset.tops = ['waves', 'program', 'clocks', 'links'].map((id) => byId(id).getBoundingClientRect().top).join()"
        for size, is_first in (("500,800", True), ("1366,768", False)):
            tops = re.search('data-tops="([^"]*)"', self.opened(self.thermostat(), then=then, size=size))[1].split(",")
            self.assertEqual(min(map(float, tops)) == float(tops[0]), is_first)

    def test_a_run_without_an_instant(self):
        self.assertIn('data-drawn="', self.opened(self.page(FAULT, "A\n")))


if __name__ == "__main__":
    unittest.main()
