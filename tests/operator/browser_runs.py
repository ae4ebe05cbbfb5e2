"""Runs of the page of bqd-web in a browser."""
import urllib.parse

from browser import Browser
from jobs import Teller
from programs import same
from servers import Server, free_port
from web import Web

# Text that would set a variable of the page if it were interpreted as markup.
MARKUP = b'<img src=x onerror="window.taken=1"><script>window.taken=1</script></script>"\'><svg onload=window.taken=1>'

STRANGE = "a+b/c;d.$_()-/.././;script" + "n" * 174

PLACES = "[...document.querySelectorAll('#rows .name a')].map(it => it.textContent)"

# The texts that do not fit where they are.
CUT = """[...document.querySelectorAll('#heads button, .tile .label, .tile .value, #rows .badge')]
    .filter(it => it.offsetParent && it.scrollWidth > it.clientWidth).map(it => it.textContent)"""

# The headings that reach beyond the numbers below them.
OVERHANGING = """[...document.querySelectorAll('#heads th:not(.name, .spark) button')].filter(it => it.offsetParent).filter((it, at) => {
    const text = document.createRange(), number = document.createRange(), cell = document.querySelectorAll('#rows tr:last-child td.count')[at];
    text.selectNodeContents(it); number.selectNodeContents(cell);
    return Math.abs(text.getBoundingClientRect().right - number.getBoundingClientRect().right) > 1;
}).map(it => it.textContent)"""


def address(page, tube=""):
    return f"http://127.0.0.1:{page.port}/" + (f"#{urllib.parse.quote(tube, safe='')}" if tube else "")


def text_of(name):
    return f"document.getElementById('{name}').textContent"


def browser_run_list(bqd, chromium):
    """The list is kept current, sorted and filtered, with 0, 3 and 200 tubes, and the page contacts no other host."""
    with Server(bqd) as server, Web(server.port) as page, Browser(chromium) as browser:
        teller = Teller(server)
        for scheme, width in [("light", 1200), ("dark", 390)]:
            browser.shows(address(page), width=width, scheme=scheme)
            browser.awaits(text_of("status"), "live")
            # Nothing is wider than the window.
            same(browser.value("document.documentElement.scrollWidth <= window.innerWidth"), True)
        browser.awaits(PLACES, ["default"])
        browser.awaits(text_of("empty"), "There are no jobs. To put one:\necho hello | bqctl put default")
        for number, name in enumerate(["a", "b", "c"]):
            for _ in range(number + 1):
                teller.put(b"x", tube=name.encode())
        browser.awaits(PLACES, ["c", "b", "a", "default"])
        browser.value("document.querySelector('th.name button').click()")
        browser.awaits(PLACES, ["a", "b", "c", "default"])
        browser.value("document.querySelector('th.ready button').click()")
        browser.awaits(PLACES, ["c", "b", "a", "default"])
        browser.value("document.querySelector('th.ready button').click()")
        browser.awaits(PLACES, ["default", "a", "b", "c"])
        for number in range(197):
            teller.put(b"x", tube=b"further-%03d" % number)
        browser.awaits(text_of("count"), "201")
        browser.value("(() => { const it = document.getElementById('filter'); it.value = 'R-00'; it.dispatchEvent(new Event('input')); })()")
        same(len(browser.value(PLACES)), 10)
        # The order, the filter and what is hidden stay after a reload.
        browser.value("document.getElementById('hides').click()")
        same(browser.value("location.search"), "?sort=ready&filter=R-00&hide=empty")
        browser.call("Page.reload")
        browser.awaits(PLACES + ".length", 10)
        same(browser.value("[byId('filter').value, byId('hides').checked, byId('order').value]"), ["R-00", True, "ready"])
        same((browser.faults(), browser.hosts()), ([], {f"127.0.0.1:{page.port}"}))


def browser_run_trouble(bqd, chromium):
    """Tubes in trouble come first, empty ones can be hidden, and the tiles mark trouble and know the seats."""
    with Server(bqd) as server, Web(server.port, "--seats", "2") as page, Browser(chromium) as browser:
        teller, worker = Teller(server), server.client()
        worker.asks(b"watch busy\r\nignore default\r\n", b"WATCHING 2\r\nWATCHING 1\r\n")
        for name, state, delay in [("busy", "ready", 0), ("calm", "delayed", 1000), ("lost", "ready", 0), ("bad", "buried", 0)]:
            teller.put(b"x", tube=name.encode(), state=state, delay=delay)
        browser.shows(address(page))
        browser.awaits(PLACES, ["bad", "lost", "busy", "calm", "default"])
        same(browser.value("[...document.querySelectorAll('#rows tr')].map(it => [...it.querySelectorAll('.badge')].filter(it => !it.hidden).map(it => it.textContent).join())"),
             ["", "no worker", "", "", ""])
        browser.awaits("[...document.querySelectorAll('.tile.bad')].map(it => it.textContent)", ["1Buried", "3 of 2Clients"])
        browser.value("document.getElementById('hides').click()")
        browser.awaits(PLACES, ["bad", "lost", "busy", "calm"])
        browser.awaits(text_of("count"), "4 of 5")


def browser_run_widths(bqd, chromium):
    """From 320 to 1280 pixels, with 0, 3 and 200 tubes, nothing is cut or wider than the window, and headings stay
    above their numbers."""
    with Server(bqd) as server, Web(server.port, "--seats", "256") as page, Browser(chromium) as browser:
        teller = Teller(server)
        for count in [0, 3, 200]:
            for number in range(count):
                teller.put(b"x", tube=b"tenant-%03d.notifications" % number, state=["ready", "buried"][number % 2])
                teller.ask(b"pause-tube tenant-%03d.notifications 3000" % number)
            for width in [320, 390, 640, 768, 900, 1000, 1100, 1101, 1280]:
                browser.shows(address(page), width=width)
                browser.awaits(f"state.last && state.last.tubes.length > {count} && document.querySelectorAll('#rows tr').length > {count}", True)
                same((count, width, browser.value(CUT)), (count, width, []))
                same((count, width, browser.value(OVERHANGING)), (count, width, []))
                # No badge takes the room of a name.
                same((count, width, browser.value("Math.min(...[...document.querySelectorAll('#rows .name a')].map(it => it.offsetWidth)) > 40")), (count, width, True))
                same((count, width, browser.value("document.documentElement.scrollWidth <= window.innerWidth")), (count, width, True))
                browser.value("window.scrollTo(0, 2000)")
                if count == 200 and width > 760:
                    tops = browser.value("[document.querySelector('#heads th').getBoundingClientRect().top, document.querySelector('header').getBoundingClientRect().bottom]")
                    same((width, tops[0]), (width, tops[1]))


def browser_run_names(bqd, chromium):
    """Charts, dialogs, cards, buttons and tubes have names, as a screen reader gets them."""
    with Server(bqd) as server, Web(server.port, "--allow-actions") as page, Browser(chromium) as browser:
        teller = Teller(server)
        for state in ["ready", "buried", "buried"]:
            teller.put(b"x", state=state)
        browser.shows(address(page, "mail"))
        browser.awaits("document.querySelectorAll('.job h3')[2].textContent", "Job 2")
        browser.awaits("document.querySelectorAll('.chart svg').length && !!document.querySelector('.chart svg').getAttribute('aria-label')", True)
        browser.value("document.querySelectorAll('.job button')[4].click()")
        browser.call("Accessibility.enable")
        tree = browser.call("Accessibility.getFullAXTree")["nodes"]
        names = {(it["role"]["value"], it["name"]["value"]) for it in tree if "name" in it and not it["ignored"]}
        assert ("dialog", "Delete buried job 2 of mail? It is lost then.") in names, names
        browser.value("byId('no').click()")
        browser.awaits("state.asks", False)
        tree = browser.call("Accessibility.getFullAXTree")["nodes"]
        names = {(it["role"]["value"], it["name"]["value"]) for it in tree if "name" in it and not it["ignored"]}
        for it in [("article", "Job 1"), ("article", "No delayed job"), ("button", "Delete ready job 1"), ("button", "Delete all 2 buried jobs"),
                   ("region", "All buried jobs")]:
            assert it in names, (it, names)
        charts = [name for role, name in names if role in ("img", "image") and name.startswith("The last ten minutes: ")]
        assert len(charts) == 5 and any("buried now 2" in it for it in charts), charts
        same(browser.value("[...document.querySelectorAll('button')].filter(it => it.offsetParent && !it.textContent.trim() && !it.ariaLabel).length"), 0)
        browser.shows(address(page))
        browser.awaits(PLACES, ["mail", "default"])
        tree = browser.call("Accessibility.getFullAXTree")["nodes"]
        assert ("rowheader", "mail") in {(it["role"]["value"], it["name"]["value"].split(" ")[0]) for it in tree if "name" in it}, tree


JSON = b'{"id":12345678901234567890,"a":[1,{"b":"x, {y}\\"]"},[]],"id":2.50,"c":{}}'

INDENTED = """{
  "id": 12345678901234567890,
  "a": [
    1,
    {
      "b": "x, {y}\\"]"
    },
    []
  ],
  "id": 2.50,
  "c": {}
}"""


def browser_run_bodies(bqd, chromium):
    """JSON is indented without a change of its values; other text stays as it is."""
    with Server(bqd) as server, Web(server.port) as page, Browser(chromium) as browser:
        teller = Teller(server)
        for body, state, delay in [(JSON, "ready", 0), (b'{"a": 1', "delayed", 1000), (b'"a,  b"', "buried", 0)]:
            teller.put(body, state=state, delay=delay)
        browser.shows(address(page, "mail"))
        browser.awaits("[...document.querySelectorAll('.job pre')].map(it => it.textContent)", [INDENTED, '{"a": 1', '"a,  b"'])
        same(browser.faults(), [])


def browser_run_buried(bqd, chromium):
    """All buried jobs are listed, kicked and deleted one by one, and then all of them deleted."""
    with Server(bqd) as server, Web(server.port, "--allow-actions") as page, Browser(chromium) as browser:
        teller = Teller(server)
        late = teller.put(b"late")
        for number in range(60):
            teller.put(MARKUP, state="buried")
        teller.ask(b"reserve-job %d" % late)
        teller.ask(b"bury %d 0" % late)
        rows = "[...document.querySelectorAll('#buried-rows th')].map(it => it.textContent)"
        browser.shows(address(page, "mail"))
        browser.awaits("document.querySelectorAll('.job h3')[2].textContent", "Job 2")
        browser.value("byId('search').click()")
        browser.awaits(text_of("searched"), "61 found")
        same(browser.value(rows), [*map(str, range(2, 62)), "1"])
        same(browser.value("document.querySelector('#buried-rows td.body').textContent"), MARKUP.decode())
        for label, left in [("Kick buried job 3", 60), ("Delete buried job 1", 59)]:
            browser.value(f"document.querySelector('[aria-label=\"{label}\"]').click()")
            browser.value("document.getElementById('yes').click()")
            browser.awaits(rows + ".length", left)
            browser.awaits("state.asks", False)
        same([teller.job(1), teller.job(3)[1]], [None, "ready"])
        browser.awaits("document.querySelectorAll('.job')[2].querySelectorAll('button')[1].textContent", "Delete all 59")
        browser.value("document.querySelectorAll('.job')[2].querySelectorAll('button')[1].click()")
        same(browser.value(text_of("question")), "Delete all 59 buried jobs of mail? They are lost then.")
        browser.value("document.getElementById('yes').click()")
        browser.awaits(text_of("told"), "deleted 59 buried jobs of mail")
        same(list(teller.jobs()), [3])
        same(browser.value("String(window.taken)"), "undefined")
        same(browser.faults(), [])


def browser_run_restart(bqd, chromium):
    """After a restart a banner says when it was and what was lost, until it is dismissed."""
    port = free_port()
    with Web(port) as page, Browser(chromium) as browser:
        with Server(bqd, port=port) as server:
            Teller(server).put(b"x")
            page.reads(lambda it: it["up"] and it["ready"] == 1)
            browser.shows(address(page))
            browser.awaits(text_of("status"), "live")
            same(browser.value("byId('restarted').hidden"), True)
        with Server(bqd, port=port):
            browser.awaits("byId('restarted').hidden", False)
            assert browser.value(text_of("restarted-text")).endswith(" ago). Its queue is in memory: the 1 job that it had is gone "
                                                                     "unless dumped or moved before."), browser.value(text_of("restarted-text"))
            browser.value("byId('dismiss').click()")
            browser.call("Page.reload")
            browser.awaits("document.readyState === 'complete' && state.last !== null && byId('restarted').hidden", True)


def browser_run_seconds(bqd, chromium):
    """Enter in the field of a pause confirms it, a wrong number does not, and it holds up no other dialog."""
    with Server(bqd) as server, Web(server.port, "--allow-actions") as page, Browser(chromium) as browser:
        teller = Teller(server)
        teller.put(b"x", state="buried")
        browser.shows(address(page, "mail"))
        browser.awaits("document.querySelectorAll('.job h3')[2].textContent", "Job 1")
        pause = "[...document.querySelectorAll('#actions button')].find(it => it.textContent === 'Pause').click()"
        for wrong in ["0", ""]:
            browser.value(pause)
            browser.value(f"byId('seconds').value = '{wrong}'; byId('seconds').focus()")
            browser.press("Enter", 13)
            # The browser says what is wrong, and the dialog stays.
            same(browser.value("[byId('confirm').open, byId('seconds').validity.valid]"), [True, False])
            browser.value("byId('no').click()")
            browser.awaits("[state.asks, byId('confirm').open]", [False, False])
            browser.value("byId('kick-1').click()")
            same(browser.value(text_of("question")), "Kick one buried job of mail, or a delayed one if none is buried?")
            browser.value("byId('yes').click()")
            browser.awaits("byId('confirm').open", False)
            browser.awaits(text_of("told") + ".startsWith('kicked ')", True)
            browser.awaits("state.asks", False)
        browser.value(pause)
        browser.value("byId('seconds').value = '77'; byId('seconds').focus()")
        browser.press("Enter", 13)
        browser.awaits(text_of("told"), "paused mail for 77 seconds")
        browser.value(pause)
        browser.press("Escape", 27)
        browser.awaits("[state.asks, byId('confirm').open]", [False, False])
        same(teller.job(1)[1], "ready")
        same(browser.faults(), [])


def browser_run_tube(bqd, chromium):
    """A tube's page is kept current, and untrusted text is never interpreted as markup; also without actions."""
    with Server(bqd, "-z", "1048576") as server, Web(server.port) as page, Browser(chromium) as browser:
        teller = Teller(server)
        name = STRANGE.encode()
        teller.put(MARKUP, tube=name)
        teller.put(bytes(range(256)) * 4096, tube=name, delay=1000)
        browser.shows(address(page, STRANGE), width=390)
        browser.awaits(text_of("name"), STRANGE)
        browser.awaits("document.querySelectorAll('.job pre')[0].textContent", MARKUP.decode())
        teller.put(MARKUP, tube=name, state="buried")
        browser.awaits("document.querySelectorAll('.job pre')[2].textContent", MARKUP.decode())
        browser.awaits("document.querySelectorAll('.chart .value')[3].textContent", "1")
        same(browser.value("document.documentElement.scrollWidth <= window.innerWidth"), True)
        browser.shows(address(page))
        browser.awaits(PLACES, [STRANGE, "default"])
        browser.shows(address(page, "<img src=x onerror=window.taken=1>"))
        browser.awaits(text_of("gone"), "There is no such tube now. It exists while it has jobs or clients.")
        same(browser.value("String(window.taken)"), "undefined")
        same((browser.value("document.querySelectorAll('#actions button, .job button').length"), browser.faults()), (0, []))


def browser_run_actions(bqd, chromium):
    """A tube is paused and a job deleted after confirmation, but not after a cancel."""
    with Server(bqd) as server, Web(server.port, "--allow-actions") as page, Browser(chromium) as browser:
        teller = Teller(server)
        for _ in range(2):
            teller.put(b"x", state="buried")
        browser.shows(address(page, "mail"))
        browser.awaits("document.querySelectorAll('.job h3')[2].textContent", "Job 1")
        for answer, wanted in [("no", "Job 1"), ("yes", "Job 2")]:
            browser.awaits("state.asks", False)
            browser.value("document.querySelector('[aria-label=\"Delete buried job 1\"]').click()")
            same(browser.value(text_of("question")), "Delete buried job 1 of mail? It is lost then.")
            browser.value(f"document.getElementById('{answer}').click()")
            browser.awaits("document.querySelectorAll('.job h3')[2].textContent", wanted)
        browser.awaits(text_of("told"), "deleted job 1 of mail")
        same(list(teller.jobs()), [2])
        browser.value("[...document.querySelectorAll('#actions button')].find(it => it.textContent === 'Pause').click()")
        browser.value("document.getElementById('yes').click()")
        browser.awaits(text_of("told"), "paused mail for 600 seconds")
        browser.awaits("document.getElementById('paused').hidden", False)
        same(browser.faults(), [])


def browser_run_down(bqd, chromium):
    """If the server goes away, it is shown as down with the reason, and as live once it is back."""
    port = free_port()
    with Web(port) as page, Browser(chromium) as browser:
        browser.shows(address(page))
        for _ in range(2):
            browser.awaits(text_of("status"), "down")
            browser.awaits(text_of("down") + f".includes('cannot connect to 127.0.0.1:{port}: Connection refused')", True)
            with Server(bqd, port=port):
                browser.awaits(text_of("status"), "live")
                browser.awaits("document.getElementById('down').hidden", True)
                browser.awaits(PLACES, ["default"])
        same(browser.faults(), [])
