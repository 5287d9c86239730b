#!/usr/bin/env python3
"""Opens a page that examples/timeline made in Chromium and prints what is seen in it. The test compares that with what is wanted.

usage: page_checks.py ready                       whether Chromium is there and opens a page: status 0, else 1 with the reason
       page_checks.py example PAGE PICTURE SHARD..   the example: clicks, keys, filters, table, and a picture of it
       page_checks.py hostile PAGE SHARD          every event of a log made to break out of the page
       page_checks.py many PAGE                   rows of a long list
       page_checks.py time PAGE                   the milliseconds in which it opens
"""
import json
import os
import sys
import tempfile
from typing import Any

sys.dont_write_bytecode = True
from browser import Browser, found  # noqa: E402


def exact(text: str) -> Any:
    """JSON with the digits of its numbers, and the names that stand twice."""
    return json.loads(text, object_pairs_hook=lambda pairs: ["object", *pairs], parse_int=str, parse_float=str, parse_constant=str)


def text_of(page: Browser, selector: str) -> str:
    return page.value(f"document.querySelector({json.dumps(selector)}).innerText").replace("\n", " ")


def rows(page: Browser) -> str:
    return page.value("[...document.querySelectorAll('.row')].map(it => it.querySelector('.number').textContent + ' '"
                      " + it.querySelector('.key').textContent).join(', ')")


def line(name: str, number: int) -> Any:
    with open(name, encoding="utf-8", newline="\n") as shard:
        return exact(shard.read().split("\n")[number - 1])


def shown_json(page: Browser) -> Any:
    return exact(page.value("document.getElementById('json').textContent"))


def tell(what: str, value: Any) -> None:
    print(f"{what}: {value}")


def told_of_trouble(page: Browser) -> None:
    """Whether anything ran that isn't the page's own, or was asked for, or failed."""
    tell("faults and refusals of the policy", len(page.named("Runtime.exceptionThrown", "Log.entryAdded")))
    tell("dialogs and windows", len(page.named("Page.javascriptDialogOpening", "Page.windowOpen")))
    tell("asked for beside the page", len({it["request"]["url"].split("#")[0] for it in page.named("Network.requestWillBeSent")} - {"about:blank"}) - 1)


def clicks(page: Browser, shards: list[str]) -> None:
    tell("title", page.value("document.title"))
    tell("summary", text_of(page, "#summary"))
    tell("rows", rows(page))
    page.click("#row-1")
    tell("a click on the second row", text_of(page, "h2"))
    tell("in words", text_of(page, "#detail header p"))
    tell("lanes", page.value("[...document.querySelectorAll('.lane-names div')].map(it => it.textContent).join(', ')"))
    tell("points", page.value("document.querySelectorAll('.chart .point').length"))
    tell("gaps", page.value("[...document.querySelectorAll('.event .gap')].map(it => it.textContent).join(', ')"))
    page.click(".chart .point[data-event='4'] circle")
    tell("a click on the fifth point", text_of(page, "h3"))
    tell("its line", shown_json(page) == line(shards[1], 37))
    tell("indented", page.value("document.getElementById('json').textContent").split("\n")[:3])
    tell("marked", page.value("[...document.querySelectorAll('#json .marked')].map(it => it.textContent).join(' ')"))
    tell("the address", page.value("location.hash"))


def keys(page: Browser, shards: list[str]) -> None:
    page.press("ArrowRight")
    tell("a key to the right", text_of(page, "h3"))
    page.press("ArrowUp", "ArrowRight", "ArrowRight")
    tell("a key up and two to the right", text_of(page, "h2") + ", " + text_of(page, "h3"))
    tell("its line", shown_json(page) == line(shards[0], 21))


def filters(page: Browser) -> None:
    page.press("/", *"PowerShell")
    page.wait("document.querySelectorAll('.row').length === 1")
    tell("a text", rows(page) + " | " + text_of(page, "#shown"))
    page.press("Escape", "k", *"ben")
    page.wait("document.querySelector('.row .number').textContent === '1' && document.querySelectorAll('.row').length === 1")
    tell("a key's value", rows(page))
    page.press("Escape")
    page.value("(it => { it.value = 'longest'; it.dispatchEvent(new Event('change')); })(document.getElementById('sort'))")
    tell("longest first", rows(page))
    page.press("g")
    tell("folded", rows(page))
    page.press("Home", "ArrowRight")
    tell("one opened", rows(page))
    page.press("g")


def views(page: Browser) -> None:
    page.press("t")
    tell("table", page.value("[...document.querySelectorAll('#table tbody tr')].map(it => it.cells[0].textContent + ' ' + it.cells[1].textContent"
                             " + ' ' + it.cells[3].textContent).join(', ')"))
    page.press("t")
    page.ask("Emulation.setEmulatedMedia", media="print")
    page.value("dispatchEvent(new Event('beforeprint'))")
    tell("printed", page.value("[...document.querySelectorAll('main > *')].filter(it => it.getClientRects().length).map(it => it.id).join(', ')"))
    for theme in ("light", "dark"):
        page.ask("Emulation.setEmulatedMedia", media="", features=[{"name": "prefers-color-scheme", "value": theme}])
        tell(theme, page.value("getComputedStyle(document.body).color"))
    page.press("d")
    tell("the other one by a key", page.value("getComputedStyle(document.body).color"))


def example(page: Browser, address: str, picture: str, shards: list[str]) -> None:
    page.open(address)
    clicks(page, shards)
    page.picture(picture)
    told_of_picture(page, picture)
    keys(page, shards)
    filters(page)
    views(page)
    page.open(address + "#match=2&event=6")
    tell("by the address", text_of(page, "h2") + ", " + text_of(page, "h3"))
    told_of_trouble(page)


def told_of_picture(page: Browser, picture: str) -> None:
    """What stands on the picture: the parts of the page that lie within it, and its size."""
    parts = ["h1", "#tools", "#row-0", "#row-1", "h2", ".chart", ".events", "#json"]
    seen = page.value("(parts => parts.filter(it => { const at = document.querySelector(it).getBoundingClientRect();"
                      " return at.width > 20 && at.height > 10 && at.top >= 0 && at.top < innerHeight && at.left >= 0"
                      " && at.left < innerWidth; }))(" + json.dumps(parts) + ")")
    tell("on the picture", " ".join(seen))
    tell("a PNG of at most 200 KB", open(picture, "rb").read(4) == b"\x89PNG" and os.path.getsize(picture) <= 200000)


def hostile(page: Browser, address: str, shard: str) -> None:
    page.open(address)
    scripts = page.value("document.scripts.length")
    with open(shard, encoding="utf-8", newline="\n") as file:
        log = file.read().split("\n")[:-1]
    same, keys, events = 0, 0, 0
    for match in range(page.value("matches.length")):
        for event in range(page.value(f"matches[{match}].events.length")):
            number, text, key = page.value(
                f"choose(matches[{match}], {event}); document.querySelectorAll('#json .more').forEach(it => it.click());"
                f"[matches[{match}].events[{event}].line, document.getElementById('json').textContent, document.querySelector('.chip').dataset.key]")
            wanted = exact(log[number - 1])
            events += 1
            same += exact(text) == wanted
            keys += ["name", key] in [list(it) for it in dict(wanted[1:])["process"][1:]]
    tell("events", events)
    tell("lines that are shown whole", same)
    tell("keys as they are in the log", keys)
    page.value("list.scrollTop = 1e9; drawRows(); showTable(true); document.querySelectorAll('#table tr').length")
    tell("rows of the table", page.value("document.querySelectorAll('#table tbody tr').length"))
    tell("something of the log ran", page.value("typeof window.ran !== 'undefined'"))
    tell("scripts beside the page's own", page.value("document.scripts.length") - scripts)
    tell("elements that the page doesn't make", page.value(
        "document.querySelectorAll('img, iframe, base, object, embed, math, template, body link, body style, body meta, [onload], [onerror], [onmouseover],"
        " [onfocus], [srcdoc], [href]').length"))
    tell("signs of direction in the page", page.value(r"/[\u061c\u200e\u200f\u202a-\u202e\u2066-\u2069]/.test(document.querySelector('main').innerText)"))
    told_of_trouble(page)


def many(page: Browser, address: str) -> None:
    page.open(address)
    tell("matches", text_of(page, "#summary"))
    tell("rows are few", 5 < page.value("document.querySelectorAll('.row').length") < 60)
    page.press("End")
    tell("the last one", text_of(page, "h2") + ", " + str(page.value("document.querySelector('.row[aria-selected=true] .number').textContent")))
    tell("rows are few", 5 < page.value("document.querySelectorAll('.row').length") < 60)
    page.value("list.scrollTop = 5000 * ROW")
    tell("one in the middle", page.wait("[...document.querySelectorAll('.row .number')].some(it => it.textContent === '5001')"))
    told_of_trouble(page)


def opening(page: Browser, address: str) -> None:
    page.open(address)
    print(page.value("(it => Math.round(it.loadEventEnd - it.startTime))(performance.getEntriesByType('navigation')[0])"))


def main(what: str, *words: str) -> int:
    if what == "ready" and not found():
        print("there is no Chromium")
        return 1
    with tempfile.TemporaryDirectory(ignore_cleanup_errors=True) as room:
        try:
            page = Browser(room)
        except (OSError, EOFError, RuntimeError) as fault:
            print(f"Chromium doesn't begin: {fault}")
            return 1
        try:
            if what != "ready":
                address = "file://" + os.path.abspath(words[0])
                {"example": lambda: example(page, address, words[1], list(words[2:])), "hostile": lambda: hostile(page, address, words[1]),
                 "many": lambda: many(page, address), "time": lambda: opening(page, address)}[what]()
        finally:
            page.close()
    return 0


if __name__ == "__main__":
    sys.exit(main(*sys.argv[1:]))
