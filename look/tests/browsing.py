"""What a person does with the page, and what it then has to show."""

from __future__ import annotations

import os
import random
import time

from answers import BASE, RECOVERED, append, long_text
from exports import COMMITTED
from page import Page
from selenium.webdriver.common.action_chains import ActionChains
from selenium.webdriver.common.keys import Keys
from support import CONDITION

# Those on which longer walks are made: two processors, locked operations, crashes, pointers, flushes of each kind.
WALKED = ("store-buffering", "lock", "queue", "linked-list", "every-run/journal", "idioms/stack-push-told", "persistency/reader+clflushopt")
CONTRAST = """
const rgb = (text) => (text.match(/[\\d.]+/g) || [0, 0, 0, 0]).map(Number);
const part = (it) => (it / 255 <= 0.03928 ? it / 255 / 12.92 : ((it / 255 + 0.055) / 1.055) ** 2.4);
const light = ([r, g, b]) => 0.2126 * part(r) + 0.7152 * part(g) + 0.0722 * part(b);
const passed = '.unseen, .skip, :disabled, .later, [aria-hidden=true], option';
const bad = [];
let count = 0;
for (const node of document.querySelectorAll('body *')) {
  const own = [...node.childNodes].some((it) => it.nodeType === 3 && it.data.trim());
  if (!own || !node.checkVisibility() || node.closest(passed)) continue;
  count++;
  let under = node, back = [0, 0, 0, 0];
  while (under && back.length === 4 && back[3] === 0) { back = rgb(getComputedStyle(under).backgroundColor); under = under.parentElement; }
  const a = light(rgb(getComputedStyle(node).color)), b = light(back), ratio = (Math.max(a, b) + 0.05) / (Math.min(a, b) + 0.05);
  if (ratio < 4.5) bad.push(`${node.tagName}.${node.className} ${node.textContent.trim().slice(0, 20)} ${ratio.toFixed(2)}`);
}
return [count, [...new Set(bad)]];
"""
NAMELESS = """
const named = (it) => it.getAttribute('aria-label') || it.textContent.trim() || (it.labels && it.labels.length);
const controls = [...document.querySelectorAll('button, input, select, textarea')].filter((it) => it.checkVisibility());
return [controls.length, controls.filter((it) => !named(it)).map((it) => it.outerHTML.slice(0, 80))];
"""


def open_append(page: Page, count: int = 8) -> None:
    """Shows the guide's append behind so many of its steps."""
    example = append()
    page.open("append-unfenced.litmus", example.text, example.steps[:count], {"all": CONDITION})
    page.settle(count)


# --- the story of the README


def try_warning(page: Page, step: str) -> None:
    """The page warns of the step that makes the bad memory possible, and of no other."""
    steps, text = page.run("return [S.steps.slice(0, S.at), S.text]")
    page.wait("[...document.querySelectorAll('#steps button')].every((it) => markOf([...given(), it.dataset.step])) && markOf(given())")
    warned = page.run("return [...document.querySelectorAll('[data-warns]')].filter((it) => it.textContent).map((it) => it.dataset.warns)")
    offered = page.run("return [...document.querySelectorAll('#steps button')].map((it) => it.dataset.step)")
    wanted = [it for it in offered if page.px86.may_break(text, [*steps, it], CONDITION)]
    page.cases.equal("append: the steps that are warned of", (warned, wanted), ([step], [step]))
    page.shot("02-warning")


def try_append(page: Page) -> None:
    """Clicks on entries up to the memory that breaks the condition, into it, and through recovery."""
    steps = append().steps
    open_append(page, 0)
    page.compare("append")
    page.shot("01-start")
    for number, step in enumerate(steps, 1):
        if number == len(steps):
            try_warning(page, step)
        page.step(f'.exec[data-step="{step}"]' if step.startswith("exec") else f'.entry[data-step="{step}"]')
        shown = page.compare("append")
        page.cases.equal(f"append: what is bad after {number} steps", shown["bad"], ["0 0 1", "11 0 1"] if number == len(steps) else [])
    page.wait("document.querySelector('[data-moment=\"8\"].bad')")
    bad = page.run("return [...document.querySelectorAll('.timeline .bad')].map((it) => it.dataset.moment)")
    page.cases.equal("append: since when, in the time line", bad, ["8"])
    told = page.text_of(".images .reason")
    page.cases.holds("append: why", "line 8; that flush is buffered, and the store on line 9 has passed it" in told, told)
    try_memory(page)


def try_memory(page: Page) -> None:
    """Chooses the bad memory, and crashes into it."""
    page.click('[data-image="0 0 1"]')
    page.wait("document.querySelector('.entry.kept')")
    kept = page.run("return [...document.querySelectorAll('.entry.kept .body')].map((it) => it.textContent)")
    lost = page.run("return [...document.querySelectorAll('.entry.missing .body')].map((it) => it.textContent)")
    page.cases.equal("append: what persists for it", kept, ["tail = 1"])
    page.cases.equal("append: what is lost", lost, ["cache line 0", "cache line 1", "a = 11", "b = 12"])
    told = page.text_of(".chosen-detail")
    page.cases.holds("append: since when", "Possible since step 8, drain 0 1" in told, told)
    time.sleep(0.3)
    page.shot("03-bad-memory")
    page.click("#crash-into")
    page.settle(10)
    page.cases.equal("append: into the crash", page.run("return S.steps.slice(8)"), ["persist 1", "crash"])
    words = page.compare("append, crashed")["words"]
    left = [words[f"{name} persisted"] for name in ("a", "b", "tail")]
    page.cases.equal("append: what is left", left, ["0", "0", "1"])
    for _ in range(5):
        page.step('.exec[data-step="exec 0"]')
        page.compare("append, recovering")
    page.cases.equal("append: recovery finds a tail", page.text_of('[data-register="0 rax"] b'), "1")
    records = page.run("return document.querySelectorAll('[data-register=\"0 rbx\"], [data-register=\"0 rcx\"]').length")
    page.cases.equal("append: and no record", records, 0)
    page.shot("04-recovered-wrongly")


# --- moves


def try_moves(page: Page) -> None:
    """Undo, redo and keys."""
    open_append(page)
    body = page.find("body")
    page.run("document.activeElement.blur()")
    body.send_keys(Keys.HOME)
    page.settle(0)
    page.compare("home")
    for at in range(1, 5):
        body.send_keys(Keys.ARROW_RIGHT)
        page.settle(at)
    page.compare("redo")
    body.send_keys("u")
    page.settle(3)
    page.compare("undo")
    page.cases.equal("what was undone stays", page.run("return S.steps.length"), 8)
    try_held(page)
    page.run("document.activeElement.blur()")
    body.send_keys("2")
    page.settle(4)
    page.cases.equal("a step by its number", page.run("return S.steps[3]"), "drain 0 0")
    page.compare("key")
    page.click('[data-focus="moment 2"]')
    page.settle(2)
    page.compare("time line")
    page.click("#cut")
    page.wait("S.steps.length === 2")
    page.compare("cut")


def try_held(page: Page) -> None:
    """An entry that may not leave says why, and what holds it; pointing at a step shows what it would change."""
    node = page.click('.entry[data-step="drain 0 1"]')
    page.wait("!document.getElementById('banner').hidden")
    told = page.text_of("#banner")
    wanted = "drain 0 1 is refused. M7: the write of b may not leave before the write of a at place 0 of the store buffer."
    page.cases.equal("refused, in px86's words", told, wanted)
    page.cases.equal("refused: nothing was taken", page.run("return S.at"), 3)
    ActionChains(page.driver).move_to_element(node).perform()
    held = page.run("return [...document.querySelectorAll('.entry.holds')].map((it) => it.dataset.entry)")
    page.cases.equal("what holds it", held, ["buffer 0 0"])
    page.shot("05-held")
    ActionChains(page.driver).move_to_element(page.find('#steps [data-step="drain 0 0"]')).perform()
    leaving = page.run("return [...document.querySelectorAll('.entry.leaving')].map((it) => it.dataset.entry)")
    ghost = page.run("return [...document.querySelectorAll('[data-list=pending] .ghost .body')].map((it) => it.textContent)")
    will = page.run("return [...document.querySelectorAll('[data-will]')].map((it) => [it.dataset.cell, it.dataset.will])")
    page.cases.equal("what a step would change", (leaving, ghost, will), (["buffer 0 0"], ["a = 11"], [["a coherent", "11"]]))
    page.shot("06-preview")


def try_link(page: Page) -> None:
    """The address is a link to the state."""
    open_append(page, 4)
    link, steps = page.run("return [location.href, S.steps]")
    page.driver.get("about:blank")
    page.driver.get(link)
    page.settle(4)
    page.cases.equal("the link: the steps", page.run("return S.steps"), steps)
    page.cases.equal("the link: the condition", page.run("return document.getElementById('condition').value"), CONDITION)
    page.compare("link")
    page.driver.get(link.split("#")[0] + "#bm90aGluZw")
    page.driver.refresh()
    page.settle()
    page.cases.equal("a link to nothing", page.run("return S.name"), "append-unfenced.litmus")


def try_check(page: Page) -> None:
    """`check` loads its run, what `mend` finds is put in by one button, and then all holds; `hunt` loads its run."""
    open_append(page, 0)
    page.click("#hunt")
    page.wait("document.getElementById('load')")
    page.click("#load")
    page.wait("document.querySelector('.entry.kept, .entry.missing') && document.querySelector('.images .bad')")
    page.compare("hunt")
    open_append(page, 0)
    page.click("#check")
    page.wait("document.getElementById('load')")
    told = page.text_of("#found")
    page.cases.holds("check: what fails", "all fails 0 0 1" in told, told)
    page.shot("07-check")
    page.click("#load")
    page.wait("S.at === 9 && document.querySelector('.entry.kept')")
    page.compare("counterexample")
    page.shot("08-counterexample")
    page.click("#mend")
    page.wait("document.getElementById('put')")
    page.cases.equal("mend: what is to be put in", page.text_of("#mended").split("\n")[0], "put sfence behind line 8")
    page.shot("09-mend")
    page.click("#put")
    page.wait("S.text.includes('clwb [a]\\nsfence\\nmov [tail], 1') && !document.getElementById('banner').hidden")
    page.settle()
    told = page.text_of("#banner")
    page.cases.holds("mended: the step that is now refused", "was refused" in told and "M7" in told, told)
    page.compare("mended")
    page.click("#check")
    page.wait("S.found && !S.found.waiting")
    page.cases.holds("mended: all holds", page.text_of("#found").startswith("all holds"), page.text_of("#found"))
    page.shot("10-mended")
    page.run("setText(S.text + '\\n')")
    page.cases.equal("another text: what was found of the old one goes", page.run("return S.found === null"), True)
    open_append(page, 0)
    page.run("putIn([{ instruction: 'clwb [b]', line: 7 }, { instruction: 'sfence', line: 8 }])")
    page.cases.holds("mend: two", page.run("return S.text.includes('mov [b], 12\\nclwb [b]\\nclwb [a]\\nsfence\\nmov [tail], 1')"))
    page.settle()


def try_recovered(page: Page) -> None:
    """A run that ends wrongly after a crash has what that crash left, and a button shows the state before it, with this memory."""
    page.open("append-unfenced.litmus", append().text, append().steps[:1], {"recovered": RECOVERED})
    page.settle(1)
    page.click("#from-here")
    page.click("#check")
    page.wait("document.getElementById('load')")
    told = page.text_of("#found")
    page.cases.holds("recovered: what fails", told.startswith("recovered fails 0 0 1"), told)
    page.cases.holds("recovered: what would have held", "with this: held" in told and "the write b 12" in told, told)
    page.shot("16-recovered")
    steps = page.run("return [...S.found.begun, ...S.found.steps]")
    crash = steps.index("crash")
    page.cases.equal("recovered: the step of the crash", page.text_of("[data-explained]"), f"the crash of step {crash + 1}")
    page.click("[data-explained]")
    page.wait(f"S.at === {crash} && document.querySelector('.entry.missing')")
    page.cases.equal("recovered: the memory", page.run("return [S.steps, S.chosen]"), [steps, "0 0 1"])
    page.compare("recovered")
    page.click("#load")
    page.wait(f"S.at === {len(steps)}")
    page.compare("recovered, at the end")
    page.click("#from-here")


def try_editor(page: Page) -> None:
    """The text is edited, with a fault at its line; and faults of the condition."""
    open_append(page)
    page.run("document.activeElement.blur()")
    page.find("body").send_keys("e")
    page.wait("!document.getElementById('editor').hidden")
    source = page.find("#source")
    page.run("const at = arguments[0].value.indexOf('mov [b], 12') + 7; arguments[0].setSelectionRange(at, at + 1)", source)
    source.send_keys(Keys.BACKSPACE)
    page.wait("S.fault")
    page.cases.equal("editor: the fault's line", page.text_of(".gutter .fault-line"), "7")
    told = page.text_of("#text-fault")
    page.cases.holds("editor: the fault", told.startswith("X1 BadWord line 7\n7 | mov [b] 12\n") and "here may be: `,`" in told, told)
    page.cases.equal("editor: what stands beside is inert", page.run("return document.getElementById('machine').inert"), True)
    page.shot("11-editor-fault")
    source.send_keys(",")
    page.wait("!S.fault")
    page.settle(8)
    page.compare("editor")
    page.click("#edit")
    for text, part in (("persisted tail == 0", "equality is `=`"), ("persisted tial = 0", "E2"), ("--help", "E1"), ("'; true", "E1")):
        typed = "const it = document.getElementById('condition'); it.value = arguments[0]; it.dispatchEvent(new Event('input'))"
        page.run(typed, text)
        page.wait("S.broken && S.broken.fault && document.getElementById('condition').value === " + repr(text))
        page.wait("!document.getElementById('condition-fault').hidden")
        told = page.text_of("#condition-fault")
        page.wait(f"document.getElementById('condition-fault').textContent.includes({part!r})")
        page.cases.holds(f"the condition {text}", part in page.text_of("#condition-fault"), told)


def try_markup(page: Page) -> None:
    """What a text says is text, and nothing of the page."""
    text = "# <img src=x onerror=document.title=1>\nlitmus 1\nline x\ncpu\nmov [x], 1 # <script>window.bad = 1</script>\nend\n"
    page.open("<b>x</b>", text, ["exec 0"], {"all": "<i>"})
    page.wait("S.view && S.broken && S.broken.fault")
    found = page.run("return [Boolean(window.bad), document.querySelectorAll('main img, main script, .name b, #condition-fault i').length]")
    page.cases.equal("markup", found, [False, 0])
    page.cases.equal("markup: it is shown as it is", page.text_of("#name"), "<b>x</b>")


def try_stop(page: Page) -> None:
    """A check that takes long is stopped."""
    page.open("many.litmus", long_text(), [], {"all": "persisted x0 < 99"})
    page.settle(0)
    page.click("#check")
    page.wait("!document.getElementById('stop').hidden")
    time.sleep(0.5)
    page.click("#stop")
    page.wait("S.found && !S.found.waiting")
    page.cases.equal("stop", page.text_of("#found"), "it was stopped")
    page.click("#check")
    page.wait("S.found && S.found.waiting")
    open_append(page)
    page.run("ask('stop', {})")
    time.sleep(2)
    page.cases.equal("another text is opened: what was asked of the old one is not shown", page.run("return S.found === null"), True)


def try_walks(page: Page, count: int, seed: int, each: int) -> None:
    """Each so many-th example at the end of its steps; and random clicks from a random place: one, and so many on some."""
    chosen = random.Random(seed)
    names: list[str] = page.run("return S.examples.map((it) => it.name)")
    for name in names[::each]:
        page.open_example(name)
        page.compare(name)
        page.go_to(chosen.randint(0, page.run("return S.steps.length")))
        for _ in range(count if name.removesuffix(".litmus") in WALKED else 1):
            click_randomly(page, chosen)
            page.compare(name)
        if "journal" in name:
            page.shot("14-two-processors")


def click_randomly(page: Page, chosen: random.Random) -> None:
    """Takes a step by its button or at its entry; a crash now and then."""
    buttons = page.run("return [...document.querySelectorAll('#steps button, .entry.can, .exec.can')].map((it) => it.dataset.step)")
    step = chosen.choice([it for it in buttons if it != "crash"] or buttons)
    step = "crash" if chosen.random() < 0.05 else step
    page.step(f'#steps [data-step="{step}"]' if chosen.random() < 0.5 else f'[data-step="{step}"]')


def try_export(page: Page, clicks: int, seed: int) -> None:
    """The page of the documents, with no server: random clicks, each compared with px86."""
    page.driver.get(f"file://{COMMITTED}")
    page.settle(8)
    page.shot("15-exported")
    page.click('[data-image="0 0 1"]')
    page.wait("document.querySelector('.entry.kept')")
    page.cases.holds("export: since when", "Possible since step 8, drain 0 1" in page.text_of(".chosen-detail"))
    told = page.run("return [...document.querySelectorAll('#edit, #hunt, #examples')].filter((it) => it.checkVisibility()).length")
    page.cases.equal("export: nothing that has to be asked", told, 0)
    chosen, run = random.Random(seed), append().steps
    for _ in range(clicks):
        page.go_to(chosen.randrange(min(9, page.run("return S.steps.length + 1"))))
        page.compare("export")
        steps = page.run("return [...document.querySelectorAll('#steps button')].map((it) => it.dataset.step)")
        page.step(f'#steps [data-step="{chosen.choice(steps)}"]')
        taken = page.run("return S.steps")
        page.compare("export", is_leaf=taken != run[: len(taken)])
        page.open("append-unfenced.litmus", append().text, run, {"all": CONDITION})
        page.settle(8)


# --- whom it serves


def try_access(page: Page) -> None:
    """Contrast and widths, dark and light; names of controls; the focus."""
    open_append(page)
    page.click('[data-image="0 0 1"]')
    page.wait("document.querySelector('.entry.kept')")
    for theme in ("light", "dark"):
        features = [{"name": "prefers-color-scheme", "value": theme}]
        page.driver.execute_cdp_cmd("Emulation.setEmulatedMedia", {"features": features})
        time.sleep(0.7)
        count, bad = page.run(CONTRAST)
        page.cases.equal(f"contrast, {theme}", (count > 100, bad), (True, []))
        page.shot(f"11-{theme}")
        try_widths(page, theme)
    count, bad = page.run(NAMELESS)
    page.cases.equal("each control has a name", (count > 30, bad), (True, []))
    page.run("document.querySelector('#steps button').focus()")
    page.driver.switch_to.active_element.send_keys(Keys.ENTER)
    page.settle(9)
    page.cases.equal("the focus stays", page.run("return document.activeElement.closest('#steps, .machine') !== null"), True)
    page.click("#theme")
    page.cases.equal("the other theme", page.run("return document.documentElement.dataset.theme"), "light")
    page.click("#theme")
    page.cases.equal("the first theme", page.run("return document.documentElement.dataset.theme"), "dark")


def try_widths(page: Page, theme: str) -> None:
    """Nothing is scrolled sideways."""
    for width, height in ((1280, 900), (720, 900), (400, 860)):
        metrics = {"width": width, "height": height, "deviceScaleFactor": 1, "mobile": width < 500}
        page.driver.execute_cdp_cmd("Emulation.setDeviceMetricsOverride", metrics)
        time.sleep(0.4)
        page.cases.equal(f"{width} wide, {theme}", page.run("return document.documentElement.scrollWidth"), width)
        page.run("scrollTo(0, 0)")
        page.shot(f"12-{width}-{theme}")
        if width == 400:
            page.run("document.getElementById('leave').scrollIntoView(); scrollBy(0, -110)")
            page.shot(f"13-{width}-memories-{theme}")
    page.driver.execute_cdp_cmd("Emulation.clearDeviceMetricsOverride", {})


def try_alone(page: Page) -> None:
    """No other server is asked, and the browser has nothing to say."""
    script = "return performance.getEntriesByType('resource').map((it) => new URL(it.name).origin).filter((it) => it !== location.origin)"
    page.cases.equal("no other server is asked", page.run(script), [])
    page.cases.equal("the folder of the tests has the guide's append", os.path.exists(f"{BASE}.litmus"), True)
