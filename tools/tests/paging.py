"""What the tests of pages share: a page of a run, its parts, its scripts under Node, and the page in a browser."""
import base64
import html
import json
import re
import shutil
import subprocess
import zlib

from calling import TOOLS, ran, written

BROWSER, NODE = shutil.which("chromium"), shutil.which("node")
PURE = ("values.js", "rows.js", "drawing.js")


def page_of(room, program, flows, *words):
    """The path of the page of a run."""
    done = ran("sigc-view", program, flows, *words)
    if done.returncode:
        raise AssertionError(done.stderr)
    return written(room, "page.html", done.stdout)


def text_of(page):
    with open(page, encoding="latin-1") as it:
        return it.read()


def parts_of(page):
    """What the script of a page reads: the run, and the packed values in base64."""
    text = text_of(page)
    run = re.search(r'<script type="application/json" id="run">(.*?)</script>', text, flags=re.S)[1]
    return json.loads(run), re.search(r'<script type="text/plain" id="packed">(.*?)</script>', text, flags=re.S)[1]


def rows_of(page):
    """The instants of a page as a trace has them, read by a reader of its own."""
    run, packed = parts_of(page)
    data, columns = zlib.decompress(base64.b64decode(packed), -15), []
    for it in run["signals"]:
        columns.append(values_of(data, it, columns))
    shown = [spread(data, it["packed"], column, run["count"]) for it, column in zip(run["signals"], columns)]
    return [[it["name"] for it in run["signals"]], *map(list, zip(*shown))]


def bits(data, at, count):
    return [data[at + it // 8] >> 7 - it % 8 & 1 for it in range(count)]


def values_of(data, signal, columns):
    """The values of a signal where it is present."""
    packed, kind = signal["packed"], signal["kind"]
    if kind != "integer":
        letters = bits(data, packed["at"], packed["count"]) if kind == "boolean" else [1] * packed["count"]
        return ["true" if it else "false" for it in letters]
    if "like" in packed:
        return columns[packed["like"]]
    if "after" in packed:
        return [packed["first"], *columns[packed["after"]][:-1]]
    found, before, count, width = [], int(packed["first"]), packed["count"], packed["width"]
    for it in range(count):
        laid = bytes(data[packed["at"] + plane * count + it] for plane in range(width))
        value = int.from_bytes(laid, "little", signed=True) + (0 if packed["way"] == "plain" else before)
        before = value if packed["way"] == "step" else before
        found.append(str(value))
    return found


def spread(data, packed, values, count):
    """The values at the instants at which they are, a dot at the others."""
    there, rest = bits(data, packed["there"], count) if "there" in packed else [1] * count, iter(values)
    return [next(rest) if it else "." for it in there]


def asked(script, *values):
    """What a script that stands behind those of the page writes as JSON, under Node."""
    text = "".join(text_of(f"{TOOLS}/lib/sigc/view/page/{it}") for it in PURE)
    given = "".join(f"const given{at} = {json.dumps(it)};\n" for at, it in enumerate(values))
    whole = f"{text}\n{given}(async () => {{ const answer = await (async () => {{ {script} }})(); console.log(JSON.stringify(answer)); }})();"
    done = subprocess.run([NODE, "-"], input=whole, capture_output=True, text=True, encoding="latin-1")
    if done.returncode:
        raise AssertionError(done.stderr)
    return json.loads(done.stdout)


def opened(room, page, address="", then="", size="1200,1600"):
    """The page as it stands in a browser that has opened it and done something, where frames come by the clock of its
    timers. The room has what the browser keeps."""
    text = text_of(page).replace("<script", "<script>window.requestAnimationFrame = (it) => setTimeout(it, 0);</script><script", 1)
    text += f"<script>ready.then(() => {{ {then} }}).then(() => setTimeout(() => (document.body.dataset.address = location.hash), 500));</script>"
    page = written(room, "timed.html", text)
    how = ["--headless=new", "--no-sandbox", "--disable-gpu", "--disable-dev-shm-usage", "--no-first-run", "--disable-extensions", f"--window-size={size}", "--virtual-time-budget=3000", f"--user-data-dir={room}/browser"]
    done = subprocess.run([BROWSER, *how, "--dump-dom", f"file://{page}{address}"], capture_output=True, timeout=120)
    return html.unescape(done.stdout.decode("utf-8"))
