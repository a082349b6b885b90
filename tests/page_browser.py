#!/usr/bin/env python3
"""Looks at pages of examples/page.py in Debian's chromium, by the DevTools protocol.

    python3 tests/page_browser.py [--picture PICTURE] [--errors ERRORS] [LISTING]

It loads a page, finds paths in all forms, follows names, opens uses, looks at the bar after jumps, at narrow windows
and by keys, and takes a picture. The page may ask for nothing but itself, and keep no cookie. With a LISTING that page
alone is looked at; else that of a made-up set, and then come a comparison, and pages of 4 and 16 MB of text, which
have to open in 2 and in 5 seconds. It is no part of ./test."""

import argparse
import base64
import contextlib
import itertools
import json
import os
import pathlib
import re
import shutil
import subprocess
import sys
import time

from tally import TOP, Tally, asked, parts_in, written
from running import Options, run_folder
from telling import HOSTILE_FILES

WIDTH, HEIGHT = 1240, 800
LONGEST_WAIT = 60
MOST_SECONDS_TO_OPEN = 2
# The shortest counts, since others may work on the machine.
OPENINGS = 3
# What chromium reads from and writes to is by its own rule 3 and 4.
PIPED = 'exec "$0" "$@" 3<&0 4>&1 </dev/null >/dev/null 2>&1'
KEYS = {"/": 191, "Enter": 13, "Escape": 27, "ArrowDown": 40, "ArrowLeft": 37, "ArrowRight": 39, "ArrowUp": 38, "Tab": 9}
MOST_JUMPS = 60


class Browser:
    """A headless chromium with one tab, which is spoken to through pipes."""

    def __init__(self, room: str):
        words = ["chromium", "--headless", "--disable-gpu", "--hide-scrollbars", "--remote-debugging-pipe"]
        words += [f"--user-data-dir={room}", f"--window-size={WIDTH},{HEIGHT}"]
        words += ["--no-sandbox"] if os.getuid() == 0 else []
        pipes = {"stdin": subprocess.PIPE, "stdout": subprocess.PIPE, "bufsize": 0}
        self.child = subprocess.Popen(["sh", "-c", PIPED, *words], **pipes)
        self.rest, self.calls, self.session, self.events = b"", 0, {}, []
        target = self.call("Target.createTarget", url="about:blank")["targetId"]
        self.session = {"sessionId": self.call("Target.attachToTarget", targetId=target, flatten=True)["sessionId"]}
        for domain in ("Page", "Runtime", "Network", "Log"):
            self.call(f"{domain}.enable")

    def receive(self) -> dict:
        while b"\0" not in self.rest:
            self.rest += self.child.stdout.read(1 << 16) or sys.exit("chromium ended")
        message, _, self.rest = self.rest.partition(b"\0")
        return json.loads(message)

    def call(self, method: str, **params: object) -> dict:
        self.calls += 1
        message = {"id": self.calls, "method": method, "params": params, **self.session}
        self.child.stdin.write(json.dumps(message).encode() + b"\0")
        while (answer := self.receive()).get("id") != self.calls:
            self.events.append(answer)
        return answer["result"] if "error" not in answer else sys.exit(f"{method}: {answer['error']}")

    def value(self, expression: str) -> object:
        answer = self.call("Runtime.evaluate", expression=expression, awaitPromise=True, returnByValue=True)
        if "exceptionDetails" in answer:
            sys.exit(f"{expression}: {answer['exceptionDetails']}")
        return answer["result"].get("value")

    def settle(self) -> None:
        """Waits for two frames, so that what was changed is drawn, and until what is in sight is unpacked."""
        frames = "new Promise((done) => requestAnimationFrame(() => requestAnimationFrame(() => done(1))))"
        for _ in range(50):
            self.value(frames)
            if self.value("typeof chunksNear === 'undefined' || !chunksNear().length"):
                break

    def until(self, expression: str) -> bool:
        """Waits until it holds: much of the page is done a little later."""
        for _ in range(100):
            if self.value(expression):
                return True
            time.sleep(0.03)
        return False

    def jump(self, anchor: str) -> None:
        """Goes to an anchor of the page that is open, as a link to it does."""
        self.value(f"location.hash = {json.dumps('#' + anchor)}")
        self.until("!!jump && jump.line && jump.line.isConnected")
        self.settle()

    def width(self, pixels: int | None) -> None:
        if pixels:
            self.call("Emulation.setDeviceMetricsOverride", width=pixels, height=HEIGHT, deviceScaleFactor=1, mobile=False)
        else:
            self.call("Emulation.clearDeviceMetricsOverride")
        self.settle()

    def open(self, url: str) -> float:
        """The seconds until the page is loaded and drawn."""
        loaded, started = "Page.loadEventFired", time.monotonic()
        self.events = [event for event in self.events if event.get("method") != loaded]
        self.call("Page.navigate", url=url)
        while not self.events_of(loaded):
            self.events.append(self.receive())
        self.settle()
        return time.monotonic() - started

    def press(self, key: str) -> None:
        text = {"text": key} if len(key) == 1 else {"text": "\r"} if key == "Enter" else {}
        for kind, more in (("keyDown", text), ("keyUp", {})):
            self.call("Input.dispatchKeyEvent", type=kind, key=key, windowsVirtualKeyCode=KEYS.get(key, 0), **more)
        self.settle()

    def type(self, text: str) -> None:
        self.call("Input.insertText", text=text)
        self.settle()

    def click(self, element: str) -> None:
        """Clicks in the middle of what the expression gives, by the mouse."""
        for _ in range(2):  # what comes into view for the first time may move it
            self.value(f"{element}.scrollIntoView({{block: 'center'}})")
            self.settle()
        box = json.loads(str(self.value(f"JSON.stringify({element}.getBoundingClientRect())")))
        place = {"x": box["x"] + box["width"] / 2, "y": box["y"] + box["height"] / 2}
        for kind in ("mousePressed", "mouseReleased"):
            self.call("Input.dispatchMouseEvent", type=kind, button="left", clickCount=1, **place)
        self.settle()

    def events_of(self, method: str) -> list[dict]:
        return [event["params"] for event in self.events if event.get("method") == method]

    def picture(self, file: pathlib.Path) -> None:
        self.settle()
        file.write_bytes(base64.b64decode(self.call("Page.captureScreenshot", format="png")["data"]))

    def close(self) -> None:
        self.child.terminate()
        self.child.wait(LONGEST_WAIT)


# What is done with a page, as that text says
(_, HELPERS), *PARTS = parts_in("page_browser.txt")
# What a large listing begins with, the rows and the lines of each of its devices, and what stands between them and
# behind: NAME is a device's name, @ a digit, and ######## a number.
HEAD, ROWS, BEGIN, DEVICE, END = re.split(r"(?<=\n)\n", (TOP / "tests/large_device.text").read_text())
DIGITS = "ABCDEFGHIJKLMNOPQRSTUVWXYZ_"


def listing(size: int) -> str:
    """A listing of about so many bytes, like that of a large firmware."""
    names = map("".join, itertools.product("DEFGHIJK", *[DIGITS] * 3))
    names = list(itertools.islice(names, max(1, size // len(ROWS + DEVICE))))
    rows = "".join(ROWS.replace("NAME", name) for name in names)
    head = HEAD.replace("SIZE", str(size)).replace("COUNT", str(rows.count("\n") + 1))
    devices = (
        DEVICE.replace("########", f"{number:08X}").replace("@", str(number % 10)).replace("NAME", name)
        for number, name in enumerate(names)
    )
    return "".join([head, rows, BEGIN, *devices, END])


# A listing with other numbers, in a table too
OTHERS = {"0x080AD041": "0x030AD041", "LEqual": "LGreater", "QQQQ": "QQQR", 'Revision 2 Oem "TEST  "': 'Revision 3 Oem "TEST  "'}
LARGE = {4: 2, 16: 5}


class Looks(Tally):
    def take_steps(self, kind: str) -> None:
        """Does what the rows say of pages of a kind, and looks whether all holds that they tell."""
        browser, as_shown = self.browser, lambda form: str(self.browser.value(form[1]))
        browser.value(HELPERS)
        rows = [row for head, lines in PARTS if head.startswith(f"{kind}: ") for row in lines.splitlines()]
        for row in (row for row in rows if row and not row.startswith("//")):
            word, _, rest = row.partition(" ")
            if word in ("is", "comes"):
                what, _, condition = rest.partition(": ")
                holds = (browser.value if word == "is" else browser.until)(f"!!({condition})")
                self.is_so(re.sub(r"\{(.*?)\}", as_shown, what), holds)
            elif word == "do":
                browser.value(f"(async () => {{ {rest} }})()")
            elif word == "picture":
                browser.picture(self.picture)
            elif word == "places":
                self.look_at_places()
            else:
                getattr(browser, word)(rest if word in ("press", "click") else browser.value(rest))
        complaints = [*browser.events_of("Log.entryAdded"), *browser.events_of("Runtime.exceptionThrown")]
        self.is_so(f"the browser's log is empty, not {complaints}", not complaints)

    def look_at_page(self, file: pathlib.Path) -> None:
        self.look("page", MOST_SECONDS_TO_OPEN, file)
        asked = [event["request"]["url"] for event in self.browser.events_of("Network.requestWillBeSent")]
        self.is_so(f"it asks for itself alone, not {asked}", {it.partition("#")[0] for it in asked} == {file.as_uri()})
        self.is_so("it keeps no cookie", not self.browser.call("Network.getCookies")["cookies"])

    def look(self, kind: str, most: float, file: pathlib.Path) -> None:
        """A page of a kind opens in time, and all holds that is told of those."""
        seconds, size = min(self.browser.open(file.as_uri()) for _ in range(OPENINGS)), file.stat().st_size / 1e6
        print(f"a page of {size:.1f} MB opened in {seconds:.2f} s")
        self.is_so(f"{size:.1f} MB open in {most} s, not {seconds:.2f}", seconds <= most)
        self.take_steps(kind)

    def look_at_places(self) -> None:
        """The bar tells the path and the file after each jump."""
        browser, wrong = self.browser, []
        declared = browser.value("declared()")
        for path in declared[:: len(declared) // MOST_JUMPS + 1]:
            browser.jump(path)
            if not browser.until(f"tells({json.dumps(path)})"):
                wrong.append((path, browser.value("[file.textContent, here.textContent]")))
        self.is_so(f"the bar tells the place of each of {len(declared)} paths, not {wrong[:5]}", declared and not wrong)

    def page_of(self, name: str, text: str, *words: object) -> pathlib.Path:
        made = self.run("page.py", *words, self.text(name, text), stderr=None, check=True)
        return self.text(f"{name}.html", made.out)

    def look_at_all(self, words: argparse.Namespace) -> None:
        self.picture = words.picture or self.room / "page.png"
        errors = ["--errors", words.errors.resolve()] if words.errors else []
        for given in words.listings:
            self.look_at_page(self.page_of("text", given.read_text(), *errors))
        if words.listings:
            return
        outcome = run_folder(written(self.room / "set", HOSTILE_FILES), Options())
        said = self.text("errors", outcome.err)
        self.look_at_page(self.page_of("text", outcome.out, "--name", "a made-up set", "--errors", said))
        other = outcome.out
        for word, changed in OTHERS.items():
            other = other.replace(word, changed, 1)
        self.browser.open(self.page_of("compared", outcome.out, "--compare", self.text("other", other)).as_uri())
        self.take_steps("comparison")
        for size, seconds in LARGE.items():
            self.look("large", seconds, self.page_of(f"{size} MB", listing(size * 1_000_000)))


def main() -> None:
    words = asked(__doc__, picture=pathlib.Path, errors=pathlib.Path, listings=())
    if not shutil.which("chromium"):
        print("chromium is not there, so nothing is tried: on Debian, apt-get install chromium\n0 passed, 0 failed")
        return
    with Looks() as checks, contextlib.closing(Browser(str(checks.room / "profile"))) as checks.browser:
        checks.look_at_all(words)


main()
