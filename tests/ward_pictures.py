"""The pictures of ./ward, for tests/ward: the marks are read from the SVG's own elements, and with a browser from where it has drawn them, and held against
ticks that were worked out by hand (examples/ward/README.md)."""

import functools
import glob
import html
import json
import os
import re
import shutil
import subprocess
import xml.etree.ElementTree

from records import admit, link, offer, ticks

ROOT = os.path.dirname(os.path.dirname(os.path.abspath(__file__)))
EXAMPLES = os.path.join(ROOT, "examples", "ward")
SAMPLE, SAMPLE_TRACE, SAMPLE_LOG = (os.path.join(EXAMPLES, name) for name in ("sample.ward", "ward.trace", "ward.answers"))
# Of each packet of the sample: its line, tag, arrival, eligibility, start and finish, and its line's bound.
PACKETS = [
    ("bed1", 101, 0, 0, 0, 4, 40), ("bed4", 401, 3, 3, 5, 11, 100), ("bed7", 701, 5, 5, 21, 29, 100), ("bed12-camera", 1201, 20, 20, 30, 38, 300),
    ("bed1", 102, 40, 40, 48, 52, 40), ("bed4", 402, 53, 53, 53, 59, 100), ("bed7", 702, 65, 65, 69, 77, 100), ("bed12-camera", 1202, 32, 32, 78, 86, 300),
    ("bed1", 103, 80, 80, 87, 91, 40), ("bed12-camera", 1203, 44, 44, 101, 109, 300), ("bed12-camera", 1204, 56, 200, 200, 208, 300), ("bed12-camera", 1205, 212, 212, 212, 220, 300),
    ("bed9", 901, 10, 10, 12, 20, 40), ("bed9", 902, 14, 35, 39, 47, 40), ("bed9", 904, 22, 60, 60, 68, 40), ("bed9", 911, 50, 85, 92, 100, 40),
]
SILENCE, END = 1, 240
# Bed 9 offers every 4 ticks from 10 to 66, tags from 901 on; the second camera, which was refused, at 20.
REFUSED = [("bed9", 901 + number, 10 + 4 * number) for number in range(15) if 901 + number not in (901, 902, 904, 911)] + [("nobody (255)", 1401, 20)]
# How wide the window of the browser is, and how high; and the least height of a letter that is read.
SIZES = ((1280, 800), (800, 1100))
LEAST_LETTER = 10
# An upright page of A4 is so much higher than it is wide.
PAGE = 1.414


class Mark:
    """An element of a picture: its class, what it stands for, and where it is: left, right and middle."""

    def __init__(self, cls, data, left, right):
        self.cls, self.data, self.left, self.right = cls, data, left, right
        self.middle = (left + right) / 2


def extent(element):
    """The left and the right end of an element, from its own numbers."""
    given = {name: element.get(name) for name in ("x", "width", "cx", "r", "x1", "x2", "d")}
    if given["d"]:
        return path_extent(given["d"])
    if given["cx"]:
        return float(given["cx"]) - float(given["r"]), float(given["cx"]) + float(given["r"])
    if given["x1"]:
        return float(given["x1"]), float(given["x2"])
    return float(given["x"]), float(given["x"]) + float(given["width"] or 0)


def path_extent(drawn):
    """The ends of a triangle or a cross: a path of a start and steps."""
    x, reached = 0.0, []
    for step, numbers in re.findall(r"([Mlmhz])([^Mlmhz]*)", drawn):
        given = [float(number) for number in numbers.split()]
        x = given[0] if step == "M" else x + given[0] if given else x
        reached.append(x)
    return min(reached), max(reached)


def marks_of(svg):
    """The elements of a picture that stand for something; those of the legend have the class `key`."""
    for element in xml.etree.ElementTree.fromstring(svg).iter():
        data = {name.removeprefix("data-"): value for name, value in element.attrib.items() if name.startswith("data-")}
        if element.get("class") and data:
            yield Mark(element.get("class"), data, *extent(element))


def scale_of(marks):
    """The tick of a place, by the numbers of the axis."""
    axis = sorted((int(mark.data["tick"]), mark.middle) for mark in marks if mark.cls == "axis")
    (low, left), (high, right) = axis[0], axis[-1]
    return lambda place: low + (place - left) * (high - low) / (right - left)


def ticks_of(marks, cls, ends):
    """What the marks of a class stand at, by line and tag: whole ticks, of their middle or of both ends."""
    tick = scale_of(marks)
    found = [mark for mark in marks if mark.cls == cls and mark.data.get("row") != "wire"]
    return sorted((mark.data["line"], int(mark.data["tag"]), *([round(tick(mark.left), 1), round(tick(mark.right), 1)] if ends else [round(tick(mark.middle), 1)])) for mark in found)


def rounded(expected):
    return sorted((line, tag, *(float(number) for number in numbers)) for line, tag, *numbers in expected)


def nearly(given, wanted, within=0.15):
    """Whether two lists say the same, ticks within a hair of one another."""
    return len(given) == len(wanted) and all(one[:2] == other[:2] and all(abs(a - b) <= within for a, b in zip(one[2:], other[2:])) for one, other in zip(given, wanted))


def marks_are_right(expect, what, marks):
    """Each mark of the sample's time line stands at its tick."""
    seen = [(line, tag, low, min(high, END)) for line, tag, _, low, _, _, bound in PACKETS for high in [low + bound]]
    for cls, ends, wanted in (
        ("arrival", False, [(line, tag, arrival) for line, tag, arrival, *_ in PACKETS]),
        ("eligible", False, [(line, tag, eligible) for line, tag, _, eligible, *_ in PACKETS]),
        ("service", True, [(line, tag, start, finish) for line, tag, _, _, start, finish, _ in PACKETS]),
        ("silence", True, [(line, tag, finish, finish + SILENCE) for line, tag, _, _, _, finish, _ in PACKETS]),
        ("departure", False, [(line, tag, finish) for line, tag, _, _, _, finish, _ in PACKETS]),
        ("bound", True, seen),
        ("deadline", False, [(line, tag, eligible + bound) for line, tag, _, eligible, _, _, bound in PACKETS if eligible + bound <= END]),
        ("waiting", True, [(line, tag, arrival, eligible) for line, tag, arrival, eligible, *_ in PACKETS if arrival < eligible]),
        ("refusal", False, REFUSED),
    ):
        given = ticks_of(marks, cls, ends)
        if not nearly(given, rounded(wanted)):
            expect(f"{what}: {cls}", given, rounded(wanted))


def wire_is_right(expect, what, marks):
    """The wire's row: every packet once, none over another."""
    tick = scale_of(marks)
    given = sorted((round(tick(mark.left)), round(tick(mark.right))) for mark in marks if mark.cls == "service" and mark.data.get("row") == "wire")
    expect(f"{what}: the wire", given, sorted((start, finish) for _, _, _, _, start, finish, _ in PACKETS))


def picture(expect, run, what, *words):
    """A picture that was drawn, well formed and within a page."""
    status, output, _ = run("picture", *words)
    expect(f"{what}: status", status in (0, 3), True)
    root = xml.etree.ElementTree.fromstring(output)
    _, _, width, height = map(float, root.get("viewBox").split())
    expect(f"{what}: on one page", height <= PAGE * width, True)
    return output.decode()


def delays_are_right(expect, what, marks):
    """A dot for each delay, at its share of the bound."""
    bands = {mark.data["line"]: mark for mark in marks if mark.cls == "bound"}
    given = sorted((mark.data["line"], int(mark.data["delay"]), share_of(bands[mark.data["line"]], mark)) for mark in marks if mark.cls == "delay")
    wanted = sorted({(line, finish - eligible, (finish - eligible) / bound) for line, _, _, eligible, _, finish, bound in PACKETS})
    expect(f"{what}: delays", nearly(given, wanted, 0.001), True)
    longest = {mark.data["line"]: (int(mark.data["delay"]), int(mark.data["bound"])) for mark in marks if mark.cls == "longest"}
    expect(f"{what}: the longest", longest, {"bed1": (12, 40), "bed9": (15, 40), "bed4": (8, 100), "bed7": (24, 100), "bed12-camera": (65, 300)})


def share_of(band, mark):
    """How far along a band a mark stands."""
    return (mark.middle - band.left) / (band.right - band.left)


def window_is_cut(expect, run):
    """Between ticks 50 and 100 there is what lies there, and a packet that goes on beyond is cut."""
    svg = picture(expect, run, "a window", SAMPLE_TRACE, SAMPLE_LOG, "--ward", SAMPLE, "--from", "50", "--to", "100")
    marks = list(marks_of(svg))
    inside = [(line, tag, max(start, 50), min(finish, 100)) for line, tag, _, _, start, finish, _ in PACKETS if finish > 50 and start < 100]
    expect("a window: service", nearly(ticks_of(marks, "service", True), rounded(inside)), True)
    expect("a window: arrivals", nearly(ticks_of(marks, "arrival", False), rounded([(line, tag, arrival) for line, tag, arrival, *_ in PACKETS if 50 <= arrival <= 100])), True)
    one = list(marks_of(picture(expect, run, "one line", SAMPLE_TRACE, SAMPLE_LOG, "--ward", SAMPLE, "--lines", "bed9")))
    expect("one line: its marks", {mark.data["line"] for mark in one if mark.cls == "arrival"}, {"bed9"})


PAGE_OF = """<!doctype html><html><body style="margin: 0">%s<pre id="found"></pre><script>
const pictures = [];
for (const svg of document.querySelectorAll("svg")) {
  const page = svg.getBoundingClientRect(), found = [];
  for (const element of svg.querySelectorAll("[class]")) {
    const box = element.getBoundingClientRect(), words = element.tagName == "text" ? element.textContent : "";
    found.push({cls: element.getAttribute("class"), data: {...element.dataset}, text: words, size: parseFloat(getComputedStyle(element).fontSize),
      left: box.left - page.left, right: box.right - page.left, top: box.top - page.top, bottom: box.bottom - page.top});
  }
  pictures.push({found: found, width: page.width, height: page.height, scale: page.width / svg.viewBox.baseVal.width});
}
document.getElementById("found").textContent = JSON.stringify(pictures);
</script></body></html>"""


def in_browser(svgs, size, kept):
    """What a browser has drawn of some pictures, one under another, and where; nothing where it has drawn no page."""
    path = kept("pictures.html", PAGE_OF % "".join(f"<div>{svg}</div>" for svg in svgs))
    words = ["chromium", "--headless", "--no-sandbox", "--disable-gpu", "--hide-scrollbars", f"--window-size={size[0]},{size[1]}", "--dump-dom", f"file://{path}"]
    ended = subprocess.run(words, stdout=subprocess.PIPE, stderr=subprocess.PIPE, check=False, timeout=120)
    found = re.search(r'<pre id="found">(.+?)</pre>', ended.stdout.decode(errors="replace"), re.S)
    if not found:
        print(f"chromium ended with status {ended.returncode}: {ended.stderr.decode(errors='replace')[-500:]}")
    return json.loads(html.unescape(found.group(1))) if found else []


def overlaps(one, other):
    """Whether two texts cover one another, by more than a hair."""
    return min(one["right"], other["right"]) - max(one["left"], other["left"]) > 1 and min(one["bottom"], other["bottom"]) - max(one["top"], other["top"]) > 3


def off_the_page(drawn, each):
    """Whether something that was drawn goes beyond the page by more than a hair."""
    return min(each["left"], each["top"]) < -0.5 or each["right"] > drawn["width"] + 0.5 or each["bottom"] > drawn["height"] + 0.5


def drawn_well(expect, what, drawn):
    """All that was drawn is on the page; all texts are large enough, and none covers another."""
    texts = [each for each in drawn["found"] if each["text"]]
    expect(f"{what}: something is drawn", bool(texts) and drawn["width"] > 0, True)
    expect(f"{what}: small letters", [each["text"] for each in texts if each["size"] * drawn["scale"] < LEAST_LETTER], [])
    expect(f"{what}: off the page", [each["text"] or each["cls"] for each in drawn["found"] if off_the_page(drawn, each)], [])
    expect(f"{what}: over one another", [(one["text"], other["text"]) for place, one in enumerate(texts) for other in texts[place + 1:] if overlaps(one, other)], [])


def browser_test(expect, run, kept, full):
    """The pictures in a browser at two sizes: those of `drawings`, those of the pages, and two whose texts are long."""
    if not shutil.which("chromium"):
        expect("a browser", "chromium is missing, and tests/needs browser installs it", "there")
        return
    of_the_pages = {os.path.basename(path): bytes_in(path).decode() for path in sorted(glob.glob(os.path.join(ROOT, "docs", "pictures", "*.svg")))}
    pictures = {**drawings(expect, run, full), **of_the_pages, **long_texts(expect, run, kept)}
    for size in SIZES:
        all_drawn = in_browser(pictures.values(), size, kept)
        expect(f"pictures in a browser of {size[0]} x {size[1]}", len(all_drawn), len(pictures))
        for what, drawn in zip(pictures, all_drawn):
            name = f"{what} in a browser of {size[0]} x {size[1]}"
            drawn_well(expect, name, drawn)
            marks = [Mark(each["cls"], each["data"], *drawn_extent(each)) for each in drawn["found"] if each["data"]]
            if what == "the sample":
                marks_are_right(expect, name, marks)
                wire_is_right(expect, name, marks)
            if what == "its delays":
                delays_are_right(expect, name, marks)


def long_texts(expect, run, kept):
    """A ward with a long name; delays of packets that go early, by some 40 times their bound; and a time line of ticks of ten digits: a packet each 50 ticks, the first
    65,535 x 61,000 ticks from the start."""
    ward = kept("long.ward", "link largest 8 silence 1 bounds 400\npump the-pump-in-the-far-corner<b>&\"9\" count 12 level 1 gap 400 size 4 sends wild\n")
    trace = kept("long.trace", run("trace", ward)[1])
    far = kept("far.trace", link(8, 1, [40]) + admit(1, 40, 4) + ticks(65_535) * 61_000 + (offer(0, 4, 7) + ticks(50)) * 8)
    early = kept("early.trace", link(8, 0, [20], 1) + admit(1, 800, 4) + (offer(0, 4, 7) + ticks(4)) * 2)
    for path in (trace, far, early):
        run("run", path, "--log", path + ".log")
    drawn = picture(expect, run, "ticks of ten digits", far, far + ".log", "--from", str(65_535 * 61_000))
    marks = list(marks_of(drawn))
    expect("ticks of ten digits: where they stand", [at for _, _, at in ticks_of(marks, "arrival", False)], [float(65_535 * 61_000 + 50 * place) for place in range(8)])
    delays = picture(expect, run, "early packets", early, early + ".log", "--delays")
    expect("early packets: delays", sorted(int(mark.data["delay"]) for mark in marks_of(delays) if mark.cls == "delay"), [8 - 800, 4])
    return {"a long name": picture(expect, run, "a long name", trace, trace + ".log", "--ward", ward), "early packets": delays, "ticks of ten digits": drawn}


def drawn_extent(each):
    """The ends of an element that was drawn; an upright line's stroke is not counted."""
    middle = (each["left"] + each["right"]) / 2
    return (middle, middle) if each["cls"] in ("eligible", "deadline") else (each["left"], each["right"])


@functools.lru_cache(maxsize=None)
def drawings(expect, run, full):
    """The pictures of the sample and of the full ward, whose trace and log are handed in; drawn once for all tests."""
    return {
        "the sample": picture(expect, run, "the sample", SAMPLE_TRACE, SAMPLE_LOG, "--ward", SAMPLE),
        "its delays": picture(expect, run, "its delays", SAMPLE_TRACE, SAMPLE_LOG, "--ward", SAMPLE, "--delays"),
        "the full ward": picture(expect, run, "the full ward", *full, "--ward", os.path.join(EXAMPLES, "full.ward")),
        "the full ward's delays": picture(expect, run, "the full ward's delays", *full, "--delays"),
    }


def test(expect, run, kept, full):
    pictures = drawings(expect, run, full)
    marks = list(marks_of(pictures["the sample"]))
    marks_are_right(expect, "the sample", marks)
    wire_is_right(expect, "the sample", marks)
    delays_are_right(expect, "its delays", list(marks_of(pictures["its delays"])))
    window_is_cut(expect, run)
    expect("the full ward: lines left out are told", "182 more lines are not shown" in pictures["the full ward"], True)
    empty, damaged = kept("empty", b""), kept("damaged.trace", bytes_in(SAMPLE_TRACE)[:201])
    for more in ([], ["--delays"]):
        picture(expect, run, "an empty trace", empty, empty, *more)
        picture(expect, run, "a damaged trace", damaged, SAMPLE_LOG, *more)
    status, _, error = run("picture", SAMPLE_TRACE, full[1])
    expect("a log of another trace", (status, "it is no log of this trace" in error), (4, True))
    damaged_log(expect, run, kept)


def damaged_log(expect, run, kept):
    """Of a log that ends within its last TA all up to there is drawn: every departure stands before it."""
    path = kept("damaged.log", bytes_in(SAMPLE_LOG)[:-1])
    status, output, error = run("picture", SAMPLE_TRACE, path, "--ward", SAMPLE, "--to", str(END))
    expect("a damaged log", (status, error), (3, f"ward picture: {path}: damaged at byte 687: it is cut short; all up to there is drawn"))
    given = ticks_of(list(marks_of(output.decode())), "departure", False)
    expect("a damaged log: departures", nearly(given, rounded([(line, tag, finish) for line, tag, _, _, _, finish, _ in PACKETS])), True)


def bytes_in(path):
    with open(path, "rb") as file:
        return file.read()
