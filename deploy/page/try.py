"""Drives the page in headless Chromium, before servers behind the proxy as they are deployed.

    PYTHONPATH=tools:deploy python3 deploy/page/try.py [FOLDER]     screenshots go there, to out/page where none is named

What is expected comes from the results in `examples/`, which the checker accepts, and from the instances that are made here.
"""

import re
import sys
import time
import xml.etree.ElementTree as ElementTree
from fractions import Fraction
from pathlib import Path
from urllib.parse import quote

from proxied import NAMES, NUMBERS, PASSWORD, USER, Machines, ProxyClient
from selenium import webdriver
from selenium.common.exceptions import TimeoutException
from selenium.webdriver.chrome.service import Service
from selenium.webdriver.common.action_chains import ActionChains
from selenium.webdriver.common.by import By
from selenium.webdriver.common.keys import Keys
from selenium.webdriver.support.ui import WebDriverWait
from serve_clients import instance
from serving import envelope, options, returned
from takeover import MOST_PRESSURE, pressure

PAGE = Path(__file__).resolve().parent
MOST_BYTES = 100_000  # of the page
MANY = 2_000  # jobs
WITHIN = 120  # seconds for what a machine with other work may take
LONGEST = 4_194_304
LONGEST_SEARCH = 900  # seconds for the search of a long result, on such a machine
MARKUP = "<img src=x onerror=\"document.title='broken'\"><script>document.title='broken'</script>"

# When the table has so many rows and the browser has drawn them, in milliseconds since the page was asked for. What the page does once a second
# or less often is put off for good: a machine with other work would have time for more of it until then.
WHEN_SHOWN = f"""
for (const clock of ['setTimeout', 'setInterval']) {{
  const own = window[clock];
  window[clock] = (work, pause, ...more) => own(work, pause >= 1000 ? 2 ** 31 - 1 : pause, ...more);
}}
addEventListener('DOMContentLoaded', () => {{
  const body = document.querySelector('#jobs tbody');
  new MutationObserver(() => {{
    if (body.rows.length >= {MANY}) requestAnimationFrame(() => setTimeout(() => {{ window.shownAt ??= performance.now(); }}));
  }}).observe(body, {{childList: true}});
}});
"""


class Page:
    """The page in a browser, and how many checks were as they should be."""

    def __init__(self, machines, folder):
        self.machines, self.folder, self.passed, self.failed = machines, folder, 0, 0
        words = webdriver.ChromeOptions()
        for word in ("--headless=new", "--no-sandbox", "--disable-dev-shm-usage", "--window-size=1280,1000", "--hide-scrollbars"):
            words.add_argument(word)
        words.accept_insecure_certs = True
        words.binary_location = "/usr/bin/chromium"
        words.set_capability("goog:loggingPrefs", {"browser": "ALL"})
        self.driver = webdriver.Chrome(service=Service("/usr/bin/chromedriver"), options=words)
        self.url = f"https://localhost:{machines.port}/page/"

    def __enter__(self):
        self.driver.get(self.url.replace("//", f"//{USER}:{quote(PASSWORD)}@", 1))
        self.driver.get(self.url)
        return self

    def __exit__(self, *_):
        self.driver.quit()

    def check(self, what, found, wanted=True):
        if found == wanted:
            self.passed += 1
        else:
            self.failed += 1
            print(f"{what}\n  found:  {str(found)[:400]}\n  wanted: {str(wanted)[:400]}")

    def wait(self, what, test, seconds=WITHIN):
        """Waits until the test is true, and gives what it gave; counts it where it never is."""
        try:
            return WebDriverWait(self.driver, seconds, 0.1).until(lambda _: test())
        except TimeoutException:
            self.check(f"{what}, within {seconds} s", False)
            return None

    def text(self, selector):
        return self.driver.execute_script("return document.querySelector(arguments[0])?.innerText ?? ''", selector)

    def press(self, selector):
        self.driver.find_element(By.CSS_SELECTOR, selector).click()

    def processor_seconds(self):
        """How much processor time the page's process has taken, which other work on the machine doesn't lengthen."""
        self.driver.execute_cdp_cmd("Performance.enable", {})
        return {it["name"]: it["value"] for it in self.driver.execute_cdp_cmd("Performance.getMetrics", {})["metrics"]}["ProcessTime"]

    def keys(self, *keys):
        """Presses keys, wherever the focus is."""
        ActionChains(self.driver).send_keys(*keys).perform()

    def picture(self, name, size=None, dark=False):
        """A screenshot, of the whole page, at this size and in light or dark."""
        mode = [{"name": "prefers-color-scheme", "value": "dark" if dark else "light"}]
        self.driver.execute_cdp_cmd("Emulation.setEmulatedMedia", {"features": mode})
        if size:
            self.driver.execute_cdp_cmd("Emulation.setDeviceMetricsOverride", {"width": size, "height": 900, "deviceScaleFactor": 1, "mobile": False})
        height = min(self.driver.execute_script("return document.documentElement.scrollHeight"), 4000)
        width = size or 1280
        self.driver.execute_cdp_cmd("Emulation.setDeviceMetricsOverride", {"width": width, "height": max(height, 600), "deviceScaleFactor": 1, "mobile": False})
        self.driver.save_screenshot(str(self.folder / f"{name}.png"))
        wide = self.driver.execute_script("return document.documentElement.scrollWidth")
        self.driver.execute_cdp_cmd("Emulation.clearDeviceMetricsOverride", {})
        self.driver.execute_cdp_cmd("Emulation.setEmulatedMedia", {"features": []})
        return wide

    def send_text(self, osil, **limits):
        """Sends a text by the form, and gives the name of the job."""
        self.driver.execute_script("document.getElementById('sent').textContent = ''; document.getElementById('text').value = arguments[0]", osil)
        for name, value in limits.items():
            self.driver.find_element(By.ID, name).send_keys(str(value))
        self.press("#submit")
        return self.sent()

    def sent(self):
        told = self.wait("an instance is sent", lambda: re.fullmatch(r"sent as (os-\d+)", self.text("#sent")))
        return told[1] if told else ""

    def wait_for_state(self, job, *states):
        self.wait(f"{job} is {' or '.join(states)}", lambda: self.text("#job-title") == job and self.text("#job-state") in states)
        return self.text("#job-state")


def result_of(path):
    """The status, the value and the point of a stored result."""
    tree = ElementTree.parse(path)
    space = "{os.optimizationservices.org}"
    parts = {part.get("name"): [item.text for item in part.iter(f"{space}item")] for part in tree.iter(f"{space}otherSolutionResult")}
    return tree.find(f".//{space}solution/{space}status").get("type"), parts.get("os_cert.value", [None])[0], parts.get("os_cert.point", [])


def is_worth(text, value):
    """Whether the text shows the number: as a decimal, or exactly."""
    exact = re.search(r"exactly (-?\d+/\d+)", text)
    return Fraction(exact[1] if exact else text) == Fraction(value)


def fact(page, name):
    """What stands behind a name in the list of facts of the result."""
    return dict(map(tuple, facts_of(page))).get(name, "")


def facts_of(page):
    """The names and texts of that list."""
    return page.driver.execute_script("return [...document.querySelectorAll('#result dt')].map(it => [it.innerText, it.nextElementSibling.innerText])")


def rows_of(page, title):
    """The cells of the table with this title."""
    return page.driver.execute_script(
        "const box = [...document.querySelectorAll('#job .scrolls')].find(it => it.ariaLabel === arguments[0]);"
        "return box ? [...box.querySelectorAll('tbody tr')].map(row => [...row.cells].map(cell => cell.innerText)) : []", title
    )


def sends_examples(page):
    """Each example, as a file: its claim, its value, its point and its rows are those of the stored result."""
    for path in sorted(Path("examples").glob("*.osil")):
        status, value, point = result_of(path.with_suffix(".osrl"))
        page.driver.find_element(By.ID, "file").send_keys(str(path.resolve()))
        page.driver.execute_script("document.getElementById('sent').textContent = ''")
        page.press("#submit")
        job = page.sent()
        page.wait_for_state(job, "finished")
        page.wait("the result is shown", lambda: fact(page, "claim"))
        claim = fact(page, "claim").partition(":")[0]
        page.check(f"the claim of {path.name}", claim in (status, "optimal" if status == "bestSoFar" else status))
        if value is not None:
            shown = [text for name, text in facts_of(page) if name not in ("claim", "bound", "gap")]
            page.check(f"the value of {path.name}", bool(shown) and is_worth(shown[0], value))
            page.check(f"the variables of {path.name}", len(rows_of(page, "Variables")), len(point))
        page.picture(path.stem)
    page.check("a job can be saved", page.driver.find_element(By.ID, "save").get_attribute("download").endswith(".osrl"))


def shows_slacks(page):
    """Rows with their slacks, by an instance whose point is plain: most x + y, with x at most 3/7 and 2 y at most 5."""
    osil = (
        "<osil><instanceData><variables><var name='x' ub='10'/><var name='y' ub='10'/></variables><objectives><obj maxOrMin='max'><coef idx='0'>7</coef><coef idx='1'>1</coef></obj></objectives>"
        "<constraints><con name='first' ub='3'/><con name='second' lb='1' ub='6'/></constraints><linearConstraintCoefficients><start><el>0</el><el>1</el><el>2</el></start>"
        "<colIdx><el>0</el><el>1</el></colIdx><value><el>7</el><el>0.5</el></value></linearConstraintCoefficients></instanceData></osil>"
    )
    page.wait_for_state(page.send_text(osil), "finished")
    page.wait("the rows are shown", lambda: rows_of(page, "Rows, with their slacks"))
    page.check("the variables", [row[:3] for row in rows_of(page, "Variables")], [["x", "0.428571428571..", "3/7"], ["y", "10", ""]])
    rows = rows_of(page, "Rows, with their slacks")
    page.check("the first row binds", rows[0][:4], ["first", "3", "≤ 3", ""])
    page.check("its slack", rows[0][4], "0, binds")
    page.check("the slacks of the second", rows[1][:5], ["second", "5", "1 to 6", "4", "1"])


def made_result(claim, items):
    """A result document of this claim, with these parts of a certificate."""
    parts = "".join(f'<otherSolutionResult name="os_cert.{name}"><item>{item}</item></otherSolutionResult>' for name, item in items.items())
    return (
        f'<osrl><general><generalStatus type="normal"/></general><job><status>finished</status></job><optimization><solution><status type="{claim}"/>'
        f"<otherSolutionResults>{parts}</otherSolutionResults></solution></optimization></osrl>"
    )


def seen_of(page, what, *texts):
    """What a script finds in the view of a result, and of its instance where there is one."""
    view = "const box = document.createElement('div'); box.append(...resultView(resultOf(arguments[0]), arguments[1] ? instanceOf(arguments[1]) : null));"
    return page.driver.execute_script(f"{view} return {what}", *texts)


def tells_bounds(page):
    """A bound is shown where a result has one, and a gap where it has a value too."""
    items = {"point": "7", "value": "7", "bound": "9", "tree": "bound 0:-1", "cause": "killed"}
    for claim, names, wanted in (
        ("bestSoFar", items, {"value": "7", "bound": "9", "gap": "2, 28.57 % of the value"}),
        ("unsure", ("bound", "tree", "cause"), {"bound": "9"}),
    ):
        facts = "[...box.querySelectorAll('dt')].map(it => [it.textContent, it.nextElementSibling.textContent])"
        found = seen_of(page, facts, made_result(claim, {name: items[name] for name in names}))
        page.check(f"the facts of a bound, {claim}", dict(found), {"claim": f"{claim}: it was asked to stop (killed)", **wanted})


def tells_of_leaves(page):
    """A leaf on a grid says its low sum rounded up: of the example in the rules for certificates 29/2, where a bound says 27/2. One that names
    rows alone says what they leave of the costs: once the row, with 3 and 2 left at variables of at least 0, is 13/2 and 1/2."""
    osil = (
        "<osil><instanceData><variables><var type='I'/><var type='I'/></variables><objectives><obj maxOrMin='min' constant='0.5'><coef idx='0'>6</coef><coef idx='1'>4</coef></obj></objectives>"
        "<constraints><con lb='6.5'/></constraints><linearConstraintCoefficients><start><el>0</el><el>2</el></start><colIdx><el>0</el><el>1</el></colIdx>"
        "<value><el>3</el><el>2</el></value></linearConstraintCoefficients></instanceData></osil>"
    )
    for node, wanted in (
        ("bound 2:2", "no better than 13.5"), ("grid 2 2:2", "no better than 14.5"), ("grid 0 2:2", "closed"), ("gridRows 2 2:2", "no better than 14.5"),
        ("boundRows 2:1", "no better than 7"), ("boundRows", "no better than 0.5"), ("farkasRows 2:1", "no point: row 0 can't hold together"),
    ):
        osrl = made_result("unsure", {"bound": "1", "tree": node})
        page.check(f"the leaf {node}", seen_of(page, "box.querySelector('svg.tree text').textContent", osrl, osil), wanted)
    osrl = made_result("optimal", {"point": "1", "value": "1", "tree": "boundRows 2:1"}).replace("<item>1</item>", "<item>1</item><item>2</item>", 1)
    multipliers = "[...box.querySelectorAll('table')].map(it => [...it.tBodies[0].rows].map(row => row.lastElementChild.textContent))"
    page.check("the multipliers of a leaf of rows", seen_of(page, multipliers, osrl, osil)[:2], [["3", "2"], ["1"]])


def shows_names_as_text(page):
    """A name with markup in it is shown as it is, and nothing of it runs."""
    name = MARKUP.replace("&", "&amp;").replace("<", "&lt;").replace('"', "&quot;")
    osil = f'<osil><instanceHeader><name>{name}</name></instanceHeader><instanceData><variables><var name="{name}" ub="1"/></variables><objectives><obj name="{name}" maxOrMin="max"><coef idx="0">1</coef></obj></objectives></instanceData></osil>'
    page.wait_for_state(page.send_text(osil), "finished")
    page.wait("the variables are shown", lambda: rows_of(page, "Variables"))
    page.check("the name of the variable", rows_of(page, "Variables")[0][0], MARKUP)
    page.check("no element was made of it", page.driver.execute_script("return document.querySelectorAll('main img, main script').length"), 0)
    page.check("the title stays", page.driver.title, "Gubnatris: jobs")
    page.picture("markup")


def tells_refusals(page):
    """What is refused is told: an instance, by the server; a text that is none, by the server too; and nothing at all, by the page."""
    page.wait_for_state(page.send_text("<osil><instanceData/></osil>"), "finished")
    page.wait("the refusal is shown", lambda: fact(page, "claim"))
    page.check("a refusal", fact(page, "claim"), "refused: osil Missing at 2")
    page.driver.execute_script("document.getElementById('text').value = ''")
    page.press("#submit")
    page.check("nothing to send", page.wait("it is told", lambda: page.text("#sent") == "choose a file, or write an instance"))


def stops_and_gives_up(page):
    """A long job is stopped and given up by the keyboard alone; both are asked once more, and a No does nothing."""
    job = page.send_text(instance(1, 61), nodeLimit=10**6, pivotLimit=10**8)
    page.wait_for_state(job, "running")
    page.picture("running")
    page.driver.find_element(By.ID, "stop").send_keys(Keys.ENTER)
    page.check("it is asked once more", page.text("#sure-text").startswith(f"Stop {job}?"))
    page.keys(Keys.ENTER)
    page.check("No does nothing", page.text("#job-state"), "running")
    page.driver.find_element(By.ID, "stop").send_keys(Keys.ENTER)
    page.picture("sure")
    page.keys(Keys.TAB)
    page.keys(Keys.ENTER)
    page.check("it is finished", page.wait_for_state(job, "finished"), "finished")
    page.check("for what cause", "it was asked to stop" in fact(page, "claim"))
    page.press("#give-up")
    page.press("#sure-yes")
    page.check("it is given up", page.wait_for_state(job, "unknown"), "unknown")
    page.wait("it has left the list", lambda: job not in page.text("#jobs"))


def is_used_by_keyboard(page):
    """From the top of the page the text is reached, an instance sent, and its job opened from the list, with keys alone."""
    page.driver.get(page.url)
    page.wait("the servers are shown", lambda: "idle" in page.text("#servers") or "busy" in page.text("#servers"))
    for _ in range(40):
        page.keys(Keys.TAB)
        if page.driver.switch_to.active_element.get_attribute("id") == "text":
            break
    page.keys(instance(7, 0))
    for _ in range(3):
        page.keys(Keys.TAB)
    page.check("the button is reached", page.driver.switch_to.active_element.get_attribute("id"), "submit")
    page.keys(Keys.ENTER)
    job = page.sent()
    page.wait_for_state(job, "finished")
    page.check("the heading has the focus", page.driver.switch_to.active_element.get_attribute("id"), "job-title")
    page.wait("the value is shown", lambda: fact(page, "value") or fact(page, "claim"))
    page.check("its value", fact(page, "value"), "7")


def folds_trees(page):
    """A tree is drawn, folded and unfolded by keys."""
    page.send_text(Path("examples/capital_budget.osil").read_text(encoding="utf-8"))
    page.wait("the tree is drawn", lambda: page.driver.find_elements(By.CSS_SELECTOR, "svg.tree g"))
    whole = len(page.driver.find_elements(By.CSS_SELECTOR, "svg.tree g"))
    page.check("its nodes", whole, len([item for item in re.findall("<item>([a-z]+) ", Path("examples/capital_budget.osrl").read_text(encoding="utf-8")) if item in ("split", "bound", "farkas", "clash")]))
    root = page.driver.find_element(By.CSS_SELECTOR, 'svg.tree g[tabindex="0"]')
    root.send_keys(Keys.ENTER)
    page.check("its root folded", len(page.driver.find_elements(By.CSS_SELECTOR, "svg.tree g")), 1)
    page.keys(Keys.ARROW_RIGHT)
    page.check("its root unfolded", len(page.driver.find_elements(By.CSS_SELECTOR, "svg.tree g")) > 1)
    page.picture("tree")
    page.picture("tree_dark", dark=True)
    page.check("the page is no wider than 400 pixels", page.picture("narrow", size=400) <= 400)
    page.check("in dark too", page.picture("narrow_dark", size=400, dark=True) <= 400)


def parity(count, factor):
    """That so many 0-1 variables, each times an even factor, are an odd number together: a tree of every case shows that they aren't."""
    columns, end = "".join(f"<el>{j}</el>" for j in range(count)), count // 2 * factor + 1
    return (
        f'<osil><instanceData><variables><var type="B" mult="{count}"/></variables><constraints><con lb="{end}" ub="{end}"/></constraints>'
        f"<linearConstraintCoefficients><start><el>0</el><el>{count}</el></start><colIdx>{columns}</colIdx><value>{f'<el>{factor}</el>' * count}</value></linearConstraintCoefficients></instanceData></osil>"
    )


def shows_long_results(page, machines):
    """A result of nearly 4 MiB, of a job that was sent elsewhere, is opened; with its instance it has names."""
    client = ProxyClient(machines)
    limits = "".join(f'<solverOption name="{name}" value="{limit}"/>' for name, limit in (("nodeLimit", 10**6), ("pivotLimit", 10**8)))
    number = int(returned(client.post(envelope("getJobID"))[1])[3:])
    osil, osol = parity(16, 2000), options(number).replace("</osol>", f"<optimization><solverOptions>{limits}</solverOptions></optimization></osol>")
    client.post(envelope("send", osil=osil, osol=osol))
    text, name, limit = "", f"os-{number}", time.monotonic() + LONGEST_SEARCH
    while "<status>finished<" not in text and time.monotonic() < limit:
        text = returned(client.post(envelope("retrieve", osol=options(number)))[1])
        time.sleep(0.2)
    client.close()
    page.check("its bytes", LONGEST * 0.9 < len(text) < LONGEST)
    before, begun = page.processor_seconds(), time.monotonic()
    page.driver.execute_script("location.hash = arguments[0]", name)
    page.wait_for_state(name, "finished")
    page.wait("the tree is drawn", lambda: page.driver.find_elements(By.CSS_SELECTOR, "svg.tree g"))
    print(f"a result of {len(text):,} bytes is shown in {time.monotonic() - begun:.1f} s, {page.processor_seconds() - before:.1f} of them the page's processor time")
    page.check("the claim", fact(page, "claim"), "infeasible")
    page.check("its nodes", "48,619 nodes" in page.text("#result"))  # 2 C(17, 8) - 1, each leaf a choice that can't be filled
    (page.folder / "long.osil").write_text(osil, encoding="utf-8")
    page.driver.find_element(By.CSS_SELECTOR, "#asked input").send_keys(str((page.folder / "long.osil").resolve()))
    page.wait("its rows are shown", lambda: "What it asks" in page.text("#asked"))
    page.picture("long")


def shows_many_jobs(page, machines):
    """2,000 jobs, over all servers, are shown within a second of the page's processor time, from the start of its loading. It is loaded in a tab of its
    own, so that the process that it has did nothing before."""
    client = ProxyClient(machines)
    for _ in range(MANY):
        client.post(envelope("getJobID"))
    client.close()
    page.driver.switch_to.new_window("tab")
    page.driver.execute_cdp_cmd("Page.addScriptToEvaluateOnNewDocument", {"source": WHEN_SHOWN})
    before = page.processor_seconds()
    page.driver.get(page.url)
    moment = page.wait("all jobs are shown", lambda: page.driver.execute_script("return window.shownAt")) or 0
    after = page.processor_seconds()
    taken = after - before if after > before else after  # a browser may give a page a process that is new once more
    print(f"{MANY} jobs are shown {moment:.0f} ms behind the begin of loading, by {taken:.2f} s of processor time")
    is_soon = moment > 0 and taken < 1
    if moment and not is_soon and pressure() > MOST_PRESSURE:
        print("which isn't judged: other work has the processors")
        is_soon = True
    page.check("they are shown within a second", is_soon)
    page.driver.find_element(By.ID, "find").send_keys("os-2")
    page.check("those of one server are found", page.wait("they are found", lambda: set(page.driver.execute_script("return [...document.querySelectorAll('#jobs tbody td:nth-child(2)')].map(it => it.textContent)")) == {"two"}))
    page.picture("many")


def meets_a_server_that_is_down(page, machines):
    """A server that is killed is told of, and the others are as ever."""
    machines.kill("two")
    machines.wait_for({"two": "DOWN"})
    page.wait("it is told", lambda: "two: the server is down" in page.text("#servers"))
    page.check("one is up", re.search(r"one: (idle|busy)", page.text("#servers")) is not None)
    page.driver.execute_script("location.hash = arguments[0]", f"os-{2 * NUMBERS}")
    page.wait("a job of it is told of", lambda: page.text("#job-said") == "the server is down")
    page.picture("down")
    machines.start("two")
    machines.wait_for({name: "UP" for name in NAMES})
    page.check("it is back", page.wait("it is told", lambda: re.search(r"two: (idle|busy)", page.text("#servers")) is not None))


def is_guarded(page, machines):
    """Its policy lets nothing else in, a call from another page is refused, and it is small."""
    client = ProxyClient(machines)
    page.check("its bytes", sum((PAGE / name).stat().st_size for name in ("index.html", "page.js", "page.css")) < MOST_BYTES)
    said = page.driver.execute_script("const it = await fetch('/page/'); return it.headers.get('content-security-policy')")
    page.check("its policy", said.startswith("default-src 'none'; script-src 'self'; style-src 'self'; connect-src 'self'"))
    client.field = b"\r\nSec-Fetch-Site: cross-site" + client.field
    page.check("a call from another page", client.post(envelope("knock"))[0], 403)
    client.close()
    wrong = [entry["message"] for entry in page.driver.get_log("browser") if entry["level"] == "SEVERE" and not re.search("status of 50[23]", entry["message"])]
    page.check("what the browser complains of", wrong, [])


def main():
    folder = Path(sys.argv[1] if len(sys.argv) > 1 else "out/page")
    folder.mkdir(parents=True, exist_ok=True)
    with Machines() as machines, Page(machines, folder) as page:
        for tried in (sends_examples, shows_slacks, tells_bounds, tells_of_leaves, shows_names_as_text, tells_refusals, stops_and_gives_up, is_used_by_keyboard, folds_trees):
            tried(page)
        for tried in (shows_long_results, meets_a_server_that_is_down, shows_many_jobs, is_guarded):
            tried(page, machines)
    print(f"{page.passed} passed, {page.failed} failed")
    return page.failed > 0


if __name__ == "__main__":
    sys.exit(main())
