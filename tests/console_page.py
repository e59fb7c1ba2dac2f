"""The page of the console in a browser: what it shows of a station that runs, and what its buttons
do; by the mouse, by keys, on a telephone, in both forms.

Where there is no Chromium nothing of it is tried, which is said.
"""
import contextlib
import json
import signal
import threading

from console_details import Gaps, open_id
from lib.browser import FAINT, NAMED, Browser, path_of_browser
from lib.console import Console
from lib.links import Link, Relay
from lib.processes import PATIENT, files_at
from lib.waiting import SLACK

# The width and the height of a desk's window and of a telephone's.
DESK, TELEPHONE = (1280, 1000), (390, 844)

# For how many seconds something that the page is to show is waited for: it renews each second.
SOON = 6 + SLACK

TEXT_OF = "document.getElementById('{}').textContent"

# Which element has the focus: its id, or its text.
FOCUS = """(() => { const it = document.activeElement;
  return it === document.body ? "" : it.id || it.getAttribute("aria-label") || it.textContent;
})()"""

# Whether it can be seen that an element has the focus.
RINGED = "getComputedStyle(document.activeElement).outlineStyle !== 'none'"


def text_is(ident, text):
    """The expression that an element has this text."""
    return f"{TEXT_OF.format(ident)} === {json.dumps(text)}"


def text_has(ident, text):
    """The expression that an element has this in its text."""
    return f"{TEXT_OF.format(ident)}.includes({json.dumps(text)})"


# One browser runs at a time: each takes the processors of a small machine.
ALONE = threading.Lock()


@contextlib.contextmanager
def opened(program, words=(), token=None, files=None):
    """A station with a console, whose page a browser shows, and the link to its peer."""
    files = {"long.bin": bytes(4_000_000), "short.bin": b"short"} if files is None else files
    with ALONE, Link(program, Relay()) as link, Browser() as page:
        link.puts(1, files)
        link.starts(2, ["--inbox", "to"], PATIENT)
        every = ["--outbox", "from", "--inbox", "to", "--rate", "100", *words]
        it = Console(link, 1, every, PATIENT, token)
        page.has_size(*DESK)
        page.shows(f"http://127.0.0.1:{it.port}/")
        yield link, it, page


def put_mistakes(program):
    """What is wrong where files are put, cancelled, suspended and resumed by buttons."""
    with opened(program) as (link, it, page):
        if not page.awaits(text_has("state", "link up"), SOON):
            yield f"the page says {page.finds(TEXT_OF.format('state'))}"
        for name in ("short.bin", "long.bin"):
            page.clicks("document.getElementById('source')")
            page.types(name)
            page.clicks("document.querySelector('#put button')")
            if not page.awaits(text_has("said", f"{name} is queued"), SOON):
                yield f"a put of {name}: the page says {page.finds(TEXT_OF.format('said'))}"
        if not page.awaits("document.querySelectorAll('#closed tr').length === 1", SOON):
            yield "the short file isn't shown as closed"
        if not page.awaits(text_has("closed", "short.bin"), SOON) or not page.awaits(
                text_has("closed", "sent"), SOON):
            yield f"closed: {page.finds(TEXT_OF.format('closed'))}"
        if files_at(link.folder, 2).get("short.bin") != b"short":
            yield "the short file isn't at the peer"
        yield from bar_mistakes(page)
        yield from held_mistakes(it, page)
        page.clicks("document.querySelector('#open .harm')")
        if not page.awaits("document.querySelector('#open .harm').textContent === 'Really?'", SOON):
            yield "cancel doesn't ask whether that is meant"
        page.clicks("document.querySelector('#open .harm')")
        if not page.awaits("document.querySelectorAll('#closed tr').length === 2", SOON):
            yield "cancel didn't end the file"
        if not page.awaits(text_has("closed", "cancelled"), SOON) or page.finds(
                "document.querySelectorAll('#closed .bad').length"):
            yield f"closed: {page.finds(TEXT_OF.format('closed'))}"
        if not page.awaits(text_is("f-cancelled", "1"), SOON) or not page.awaits(
                "document.getElementById('fails').hidden", SOON):
            yield f"what was cancelled counts as failed: {page.finds(TEXT_OF.format('fails'))}"
        if "long.bin" in files_at(link.folder, 2):
            yield "a file that was cancelled is at the peer"
        yield from freeze_mistakes(it, page)
        yield from loaded_mistakes(it, page)


def bar_mistakes(page):
    """What is wrong with the bar of the one file that is being sent: it moves."""
    value = "document.querySelector('#open progress')?.value"
    if not page.awaits(f"{value} > 0", SOON):
        yield "there is no bar of progress"
    before = page.finds(value)
    if not page.awaits(f"{value} > {before}", SOON):
        yield f"the bar stands still at {before}"


def held_mistakes(it, page):
    """What is wrong where the one file that is being sent is suspended, and resumed."""
    for label, after, is_so in (("Suspend", "Resume", True), ("Resume", "Suspend", False)):
        page.clicks("document.querySelector('#open .hold')")
        hold = "document.querySelector('#open .hold')"
        if not page.awaits(f"{hold}.textContent === '{after}'", SOON):
            yield f"{label}: the button didn't change"
        if it.gets("/transactions")["open"][0]["suspended"] != is_so:
            yield f"{label} wasn't done"


def freeze_mistakes(it, page):
    """What is wrong where the link is taken down by plan by a key, and up again by the button."""
    page.finds("document.activeElement.blur()")
    page.presses("f", "KeyF", "f")
    if not page.awaits(text_is("state", "frozen"), SOON):
        yield "the key f didn't freeze the link"
    page.clicks("document.getElementById('freeze')")
    if not page.awaits(text_has("state", "link up"), SOON):
        yield "the button didn't thaw the link"
    if it.gets("/status")["link"]["state"] != "up":
        yield "the station's link isn't up"


def loaded_mistakes(it, page):
    """What is wrong with what the page loaded, or with its script."""
    own = f"http://127.0.0.1:{it.port}/"
    yield from (f"the page asked for {url}" for url in set(page.loaded())
                if not url.startswith((own, "data:", "about:")))
    yield from (f"the page: {what}" for what in page.mistakes())


def kept_mistakes(program):
    """What is wrong where the page renews while its user types, reads the log or looks for a line:
    all stays as it is."""
    with opened(program, files={f"f{number}": b"x" for number in range(60)}) as (_, it, page):
        for number in range(60):
            it.does("/puts", {"source": f"f{number}"})
        if not page.awaits("document.querySelectorAll('#closed tr').length === 60", 2 * SOON):
            yield "the files aren't shown as closed"
        page.finds("(document.getElementById('log-box').scrollTop = 40, 0)")
        page.finds("(document.getElementById('closed-box').scrollTop = 50, 0)")
        page.finds("document.getElementById('source').focus()")
        page.types("half a na")
        it.does("/puts", {"source": "f1", "destination": "again"})
        if not page.awaits("document.querySelectorAll('#closed tr').length === 61", SOON):
            yield "one more file isn't shown as closed"
        kept = page.finds("[document.getElementById('log-box').scrollTop,"
                          " document.activeElement.id, document.activeElement.value]")
        if kept != [40, "source", "half a na"]:
            yield f"the page didn't keep what its user is at: {kept}"
        if page.finds("document.getElementById('closed-box').scrollTop") < 50:
            yield "the list of closed ones was moved"
        page.finds("document.getElementById('filter').focus()")
        page.types("finished")
        shown = "[...document.querySelectorAll('#lines li')].filter((it) => !it.hidden).length"
        it.does("/puts", {"source": "f2", "destination": "once"})
        if not page.awaits(f"{shown} === 62", SOON):
            yield f"of the log {page.finds(shown)} lines are shown, and not 62"
        page.finds("document.getElementById('files-filter').focus()")
        page.types("again")
        rows = "[...document.querySelectorAll('#closed tr')].filter((it) => !it.hidden).length"
        if not page.awaits(f"{rows} === 1", SOON):
            yield f"of the closed ones {page.finds(rows)} are shown, and not 1"
        names = "[...document.querySelectorAll('#files option')].map((it) => it.value)"
        if sorted(page.finds(names)) != sorted(f"f{number}" for number in range(60)):
            yield f"these files are offered: {page.finds(names)}"


def markup_mistakes(program):
    """What is wrong where names are markup, and where the file of the console's token is wanted."""
    token = "a-token-of-the-test"
    with opened(program, token=token, files={"plain": b"x"}) as (_, it, page):
        if not page.awaits("document.activeElement.id === 'token'", SOON):
            yield "the page doesn't ask for the token"
        for text, is_let_in in (("another-token-than", False), (token, True)):
            page.finds("(document.getElementById('token').value = '', 0)")
            page.finds("document.getElementById('token').focus()")
            page.types(text)
            page.presses("Enter", "Enter", "\r")
            if page.awaits(text_has("state", "link up"), SOON if is_let_in else 3) != is_let_in:
                yield f"the page with the token {text}: {page.finds(TEXT_OF.format('state'))}"
        name = "<b>x</b><img/src=x/onerror=alert(1)>"
        it.does("/puts", {"source": "plain", "destination": name})
        if not page.awaits(text_has("closed", "plain"), SOON):
            yield "the file isn't shown"
        if page.finds("document.querySelectorAll('main b, main img').length"):
            yield "a name is markup in the page"
        if not page.awaits(text_has("lines", "finished"), SOON):
            yield f"the log: {page.finds(TEXT_OF.format('lines'))}"


def anew_mistakes(program):
    """What is wrong where the station is killed and started anew: the page says so, and goes on."""
    with opened(program) as (link, it, page):
        if not page.awaits(text_has("state", "link up"), SOON):
            yield "the page isn't up"
        it.does("/puts", {"source": "short.bin"})
        page.awaits("document.querySelectorAll('#closed tr').length === 1", SOON)
        it.station.killed()
        if not page.awaits(text_is("state", "no answer"), SOON):
            yield f"where the station is gone: {page.finds(TEXT_OF.format('state'))}"
        words = ["--outbox", "from", "--inbox", "to", "--console", f"127.0.0.1:{it.port}"]
        link.starts(1, words, PATIENT)
        if not page.awaits(text_has("state", "link up"), SOON):
            yield f"where it is there again: {page.finds(TEXT_OF.format('state'))}"
        if not page.awaits("document.querySelectorAll('#closed tr').length === 0", SOON):
            yield "what the station before closed is still shown"
        page.finds("document.getElementById('source').focus()")
        page.types("short.bin")
        page.presses("Enter", "Enter", "\r")
        if not page.awaits("document.querySelectorAll('#closed tr').length === 1", SOON):
            yield f"a put then: {page.finds(TEXT_OF.format('said'))}"


def hung_mistakes(program):
    """What is wrong where the station stands still, and goes on: the page says so."""
    with opened(program) as (_, it, page):
        it.does("/puts", {"source": "short.bin"})
        if not page.awaits(f"{text_has('heard', 'last received')} && "
                           f"{text_has('state', 'link up')}", SOON):
            yield "the page isn't up"
        it.station.process.send_signal(signal.SIGSTOP)
        # It says so three seconds after the last answer, and looks each half second.
        if not page.awaits(text_is("state", "no answer"), 5 + SLACK):
            yield f"where the station hangs: {page.finds(TEXT_OF.format('state'))}"
        if page.finds(TEXT_OF.format("heard")):
            yield f"where the station hangs: {page.finds(TEXT_OF.format('heard'))}"
        it.station.process.send_signal(signal.SIGCONT)
        if not page.awaits(text_has("state", "link up"), SOON):
            yield f"where it goes on: {page.finds(TEXT_OF.format('state'))}"


# What is shown of one transaction: whether nothing else is, its rows of timers and of rounds, and
# how many parts its bar has of each kind.
ONE = """(() => {
  const rows = (id) => [...document.getElementById(id).tBodies[0].rows]
    .map((row) => [...row.cells].map((cell) => cell.textContent));
  const shown = [...document.querySelectorAll("main > section")]
    .filter((it) => it.checkVisibility()).map((it) => it.id);
  const bar = (kind) => document.querySelectorAll("#parts ." + kind).length;
  return { shown, timers: rows("timers"), rounds: rows("rounds"), held: bar("held"),
    sent: bar("sent"), missing: bar("missing"),
    text: document.getElementById("one").textContent };
})()"""


def one_mistakes(program):
    """What is wrong with the page of one transaction: at a receiver that has gaps, at its sender,
    and after it was closed."""
    gaps, settings = Gaps(), {**PATIENT, "segment": 100}
    with ALONE, Link(program, Relay(gaps)) as link, Browser() as page:
        link.puts(1, {"gaps.bin": bytes(40_000)})
        receiver = Console(link, 2, ["--inbox", "to"], settings)
        words = ["--outbox", "from", "--put", "gaps.bin", "to.bin"]
        sender = Console(link, 1, words, settings)
        page.has_size(*DESK)
        page.shows(f"http://127.0.0.1:{receiver.port}/")
        ident = open_id(receiver)
        page.awaits("document.querySelector('#open a') !== null", SOON)
        page.clicks("document.querySelector('#open a')")
        yield from receiver_page_mistakes(page, ident)
        yield from unknown_mistakes(page)
        page.shows(f"http://127.0.0.1:{sender.port}/#{ident}")
        yield from sender_page_mistakes(page)
        gaps.is_open = True
        if not page.awaits(text_has("one-facts", "statesent"), SOON) or not page.awaits(
                "!document.getElementById('no-timers').hidden", SOON):
            yield f"closed: {page.finds(ONE)}"
        page.clicks("document.getElementById('one-back')")
        page.awaits("document.querySelector('#closed a') !== null", SOON)
        if not page.awaits("!document.getElementById('one').checkVisibility()", SOON):
            yield "the page of one transaction doesn't go back to all of them"
        # The browser notes an answer of 404, which was wanted, as a mistake.
        yield from (f"the page: {what}" for what in page.mistakes() if "404" not in str(what))


def receiver_page_mistakes(page, ident):
    """What is wrong with the page of a transaction whose file has gaps."""
    if not page.awaits("document.getElementById('rounds').tBodies[0].rows.length >= 3", SOON):
        yield f"there are no rounds: {page.finds(ONE)}"
    if page.finds("location.hash") != f"#{ident}" or page.finds(FOCUS) != "one":
        yield f"the address is {page.finds('location.hash')}, {page.finds(FOCUS)} has the focus"
    one = page.finds(ONE)
    if [it for it in one["shown"] if it != "notes"] != ["one"]:
        yield f"shown besides: {one['shown']}"
    if one["held"] != 64 or one["missing"] != 64 or one["sent"]:
        yield f"the bar has {one['held']} parts held and {one['missing']} missing"
    for word in (f"Transaction {ident}: gaps.bin \u2192 to.bin", "missing: ", "the first 64: ",
                 "from the peer to here", "receiving, ", "rounds of NAKs"):
        if word.rstrip(", ") not in one["text"]:
            yield f"the page doesn't say '{word}': {one['text']}"
    if [row[0] for row in one["timers"]] != ["data requested by NAKs", "next PDU of the peer"]:
        yield f"timers: {one['timers']}"
    if one["timers"][0][3] != "255" or int(one["timers"][0][2].replace(",", "")) < 1:
        yield f"the timer of NAKs: {one['timers']}"
    numbers = [int(row[0]) for row in one["rounds"]]
    if numbers != sorted(numbers, reverse=True) or not one["rounds"][0][5].endswith(" .."):
        yield f"rounds: {one['rounds']}"
    for size in (DESK, TELEPHONE, (320, 640)):
        page.has_size(*size, 2, size != DESK)
        wide = page.finds("document.scrollingElement.scrollWidth")
        if wide > size[0]:
            yield f"in a window of {size[0]} the page of a transaction is {wide} wide"
    page.has_size(*DESK)
    for is_dark in (True, False):
        page.is_dark(is_dark)
        yield from (f"dark: {is_dark}: {text}" for text in page.finds(FAINT))
    yield from name_mistakes(page)


def unknown_mistakes(page):
    """What is wrong with the page of a transaction that isn't known."""
    page.finds("(location.hash = '#1:99999', 0)")
    if not page.awaits("!document.getElementById('one-none').hidden", SOON):
        yield f"an unknown transaction: {page.finds(ONE)}"


def sender_page_mistakes(page):
    """What is wrong with the page of a transaction at its sender, where data are requested."""
    is_so = "document.getElementById('rounds').tBodies[0].rows.length >= 3"
    if not page.awaits(is_so, SOON):
        yield f"the sender has no rounds: {page.finds(ONE)}"
    one = page.finds(ONE)
    if one["sent"] != 1 or one["missing"] != 8 or one["held"]:
        yield f"the bar of the sender: {one}"
    for word in ("requested last: ", "the first 8: ", "from here to the peer", " PDUs"):
        if word not in one["text"]:
            yield f"the page of the sender doesn't say '{word}': {one['text']}"


def form_mistakes(program):
    """What is wrong with names of elements, contrast, keys, and the page's width on a telephone."""
    with opened(program) as (_, it, page):
        it.does("/puts", {"source": "short.bin"})
        it.does("/puts", {"source": "long.bin", "destination": "a/longer/name/at/the/peer.bin"})
        page.awaits("document.querySelectorAll('#open li, #closed tr').length === 2", SOON)
        yield from name_mistakes(page)
        yield from key_mistakes(page)
        for is_dark in (False, True):
            page.is_dark(is_dark)
            form = "dark" if is_dark else "light"
            yield from (f"in the {form} form: {text}" for text in page.finds(FAINT))
        back = "getComputedStyle(document.body).backgroundColor"
        before = page.finds(back)
        page.clicks("document.getElementById('form')")
        if page.finds(back) == before:
            yield "the button for light and dark does nothing"
        kept = page.finds(back)
        page.asks("Page.reload")
        page.awaits(text_has("state", "link up"), SOON)
        if page.finds(back) != kept:
            yield "the form that was chosen isn't kept"
        for size in (DESK, TELEPHONE, (320, 640)):
            page.has_size(*size, 2, size != DESK)
            page.awaits("document.querySelectorAll('#open li, #closed tr').length === 2", SOON)
            wide = page.finds("[document.scrollingElement.scrollWidth, ...[...document"
                              ".querySelectorAll('.scroll')].map((it) => it.scrollWidth)]")
            if max(wide) > size[0]:
                yield f"in a window of {size[0]} the page is {wide} wide"
            small = page.finds("[...document.querySelectorAll('button')].filter((it) => "
                               "it.checkVisibility() && it.getBoundingClientRect().height < 24)"
                               ".map((it) => it.textContent)")
            if small:
                yield f"in a window of {size[0]} these are too small to be met: {small}"


def name_mistakes(page):
    """What is wrong with the names by which elements are told to who doesn't see the page."""
    for node in page.asks("Accessibility.getFullAXTree")["nodes"]:
        role = node.get("role", {}).get("value")
        if role in NAMED - {"table"} and not node["ignored"] and not node["name"]["value"].strip():
            yield f"a {role} has no name"
    ids = page.finds("[...document.querySelectorAll('[id]')].map((it) => it.id)")
    if len(ids) != len(set(ids)) or not page.finds("document.documentElement.lang"):
        yield f"ids: {ids}"
    levels = page.finds("[...document.querySelectorAll('h1, h2, h3')].map((it) => it.tagName)")
    if levels[:1] != ["H1"] or levels.count("H1") != 1:
        yield f"headings: {levels}"


def key_mistakes(page):
    """What is wrong with the order in which the key Tab goes through the page, and with what shows
    where the focus is."""
    page.asks("Page.bringToFront")
    page.finds("document.activeElement.blur()")
    found = []
    for _ in range(30):
        page.presses("Tab", "Tab")
        focus = page.finds(FOCUS)
        if not focus or focus in found:
            break
        found.append(focus)
        if not page.finds(RINGED):
            yield f"it can't be seen that {focus} has the focus"
    order = page.finds(
        "[...document.querySelectorAll('a, button, input, [tabindex=\"0\"]')]"
        ".filter((it) => it.checkVisibility()).map((it) => it.id ||"
        " it.getAttribute('aria-label') || it.textContent)")
    if found != order:
        yield f"Tab goes through {found}, and not {order}"
    for key, ident in (("p", "source"), ("/", "filter"), ("t", "files-filter")):
        page.presses("Escape", "Escape")
        page.presses(key, text=key)
        if page.finds("document.activeElement.id") != ident:
            yield f"the key {key} leads to {page.finds(FOCUS)}"


def all_mistakes(program):
    """What is tried, with what is wrong in it."""
    if not path_of_browser():
        print("skipped: the page of the console in a browser, as no Chromium is here", flush=True)
        return
    yield "the console's page: its buttons", put_mistakes(program)
    yield "the console's page: what its user is at", kept_mistakes(program)
    yield "the console's page: names and a token", markup_mistakes(program)
    yield "the console's page: a station that is started anew", anew_mistakes(program)
    yield "the console's page: a station that stands still", hung_mistakes(program)
    yield "the console's page: one transaction", one_mistakes(program)
    yield "the console's page: names, contrast, keys, a telephone", form_mistakes(program)
