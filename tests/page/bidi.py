"""Controls headless Chromium and Firefox of Debian by WebDriver BiDi over a web socket.

A browser sees only the fonts of fonts.conf. It sees no user's settings, and not the time zone and
the language of the machine.
"""
import contextlib
import functools
import json
import re
import subprocess
import tempfile
import threading
from pathlib import Path

import websocket

FONTS = Path(__file__).with_name("fonts.conf")
PATIENCE = 120  # seconds
STARTS = 3
# The line in which chromedriver and Firefox name the port on which they listen.
LISTENS = re.compile(rb"(?:listening on ws://[\w.]+:|successfully on port )(\d+)")
EVENTS = ["network.beforeRequestSent", "log.entryAdded"]
# A kiosk has no bars of the browser's own, whose pictures take a quarter of the work of a load.
ARGUMENTS = [
    "--headless=new", "--no-sandbox", "--disable-gpu", "--disable-dev-shm-usage", "--no-first-run",
    "--disable-background-networking", "--disable-sync", "--disable-component-update",
    "--hide-scrollbars", "--window-size=1440,900", "--kiosk",
]
# Nobody looks at the pictures, so Firefox draws few a second: 60 a second would take a fifth of the
# work. A test asks for the layout, which is computed anew for each answer.
UNSEEN = {"layout.frame_rate": 10}
# A page gets touch events, even on a machine without a touch screen.
TOUCHED = {"dom.w3c_touch_events.enabled": 1}
# The panel that shows a saved file would catch the keys of later tests.
SAVED = {"browser.download.alwaysOpenPanel": False}
# The preferences of Firefox that emulate media features of the system.
IN_PREFERENCES = {
    ("forced-colors", "active"): ("browser.display.document_color_use", 2),
    ("prefers-reduced-motion", "reduce"): ("ui.prefersReducedMotion", 1),
    ("prefers-color-scheme", "dark"): ("layout.css.prefers-color-scheme.content-override", 0),
}


class Browser:
    """A browser with one tab. `told` has its messages that are no answers.

    `media` are the media features that the tab emulates. All tests share the tab: a tab for each
    test would take a third of all work, as a process in Firefox, and as a window in Chromium.
    """

    def __init__(self, port, home, media, capabilities):
        self.home, self.number, self.told = Path(home), 0, []
        self.socket = websocket.create_connection(
            f"ws://127.0.0.1:{port}/session", timeout=PATIENCE, suppress_origin=True)
        self.ask("session.new", capabilities=capabilities)
        self.ask("session.subscribe", events=EVENTS)
        self.tab = self.ask("browsingContext.create", type="tab")["context"]
        self.size, self.pages = None, 0
        if media:
            self.emulate(media)

    def ask(self, command, /, **params):
        self.number += 1
        self.socket.send(json.dumps({"id": self.number, "method": command, "params": params}))
        while True:
            answer = json.loads(self.socket.recv())
            if answer.get("id") == self.number:
                assert answer["type"] == "success", (command, answer)
                return answer["result"]
            self.told.append(answer)

    def emulate(self, media):
        features = [{"name": name, "value": value} for name, value in media.items()]
        session = self.ask("goog:cdp.getSession", context=self.tab)["session"]
        self.ask("goog:cdp.sendCommand", session=session, method="Emulation.setEmulatedMedia",
                 params={"features": features})


def surroundings(home):
    """The environment of a browser that keeps its files in the folder `home`."""
    return {"PATH": "/usr/bin:/bin", "HOME": home, "TMPDIR": home, "LC_ALL": "C.UTF-8",
            "TZ": "UTC", "FONTCONFIG_FILE": str(FONTS)}


@contextlib.contextmanager
def listening(words, home):
    """Starts a process, yields the port on which it listens, and ends the process.

    chromedriver ends if its port for IPv4 is in use for IPv6, so there are several starts.
    """
    for _ in range(STARTS):
        process = subprocess.Popen(words, stdout=subprocess.PIPE, stderr=subprocess.STDOUT,
                                   stdin=subprocess.DEVNULL, env=surroundings(home))
        found = next(filter(None, map(LISTENS.search, process.stdout)), None)
        if found:
            break
        process.wait(PATIENCE)
    try:
        assert found, f"{words[0]} ended before it listened, {STARTS} times"
        threading.Thread(target=process.stdout.read, daemon=True).start()
        yield int(found[1])
    finally:
        process.terminate()
        process.wait(PATIENCE)


folder = functools.partial(tempfile.TemporaryDirectory, ignore_cleanup_errors=True)


@contextlib.contextmanager
def chromium(media):
    """A Chromium with a profile of its own, through chromedriver."""
    with folder() as home, listening(["chromedriver", "--port=0"], home) as port:
        options = {"binary": "/usr/bin/chromium", "args": [*ARGUMENTS, f"--user-data-dir={home}"]}
        wanted = {"browserName": "chrome", "webSocketUrl": True, "goog:chromeOptions": options}
        browser = Browser(port, home, media, {"alwaysMatch": wanted})
        browser.ask("browser.setDownloadBehavior", downloadBehavior={
            "type": "allowed", "destinationFolder": str(browser.home / "Downloads")})
        yield browser
        browser.ask("session.end")


@contextlib.contextmanager
def firefox(media):
    """A Firefox with a profile of its own, whose preferences emulate the media features."""
    with folder() as home:
        asked = dict(IN_PREFERENCES[one] for one in media.items())
        preferences = {**UNSEEN, **TOUCHED, **SAVED, **asked}
        lines = [f'user_pref("{name}", {json.dumps(value)});\n'
                 for name, value in preferences.items()]
        Path(home, "user.js").write_text("".join(lines))
        words = ["firefox-esr", "--headless", "--no-remote", "--profile", home,
                 "--remote-debugging-port", "0"]
        with listening(words, home) as port:
            browser = Browser(port, home, {}, {})
            yield browser
            browser.socket.close()


BROWSERS = {"chromium": chromium, "firefox": firefox}
