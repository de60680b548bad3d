"""The page of web/ in a browser without a window, as `web/serve` serves it.

The browser is Debian's `chromium`, driven by its `chromium-driver` and by `python3-selenium`.
"""

import contextlib
import importlib.util
import os
import shutil
import subprocess
import sys
import time
import unittest

from support.files import ROOT, read

# Another Python than Debian's own finds its packages only here.
PACKAGES = "/usr/lib/python3/dist-packages"

if not importlib.util.find_spec("selenium") and os.path.isdir(f"{PACKAGES}/selenium"):
    sys.path.append(PACKAGES)

# What the page needs, and is missing here.
MISSING = [it for it in ("chromium", "chromedriver") if not shutil.which(it)]
MISSING += [] if importlib.util.find_spec("selenium") else ["selenium"]

needs_browser = unittest.skipIf(MISSING, f"there is no {' and no '.join(MISSING)}")

# How many seconds the browser may take for one thing.
LIMIT = 30

EVENTS = "[...document.querySelectorAll('#events li')].map(it => it.querySelector('pre').textContent)"
READY = "document.body && document.body.dataset.ready"
LOOKS = read(f"{ROOT}/tests/support/page_looks.js").decode()


def started_browser(folder):
    """Starts a browser that writes its files to a folder."""
    from selenium.webdriver import Chrome, ChromeOptions
    from selenium.webdriver.chrome.service import Service
    from selenium.webdriver.remote.remote_connection import RemoteConnection

    options = ChromeOptions()
    options.ignore_local_proxy_environment_variables()
    options.set_capability("goog:loggingPrefs", {"browser": "ALL"})
    for it in ("headless=new", "no-sandbox", "disable-gpu", "window-size=1240,1000", f"user-data-dir={folder}/profile"):
        options.add_argument(f"--{it}")
    RemoteConnection.set_timeout(2 * LIMIT)
    # The path of its socket may have 107 bytes, however long that of its folder is.
    service = Service(shutil.which("chromedriver"), env={**os.environ, "TMPDIR": "/proc/self/cwd"})
    with in_folder(folder):
        browser = Chrome(service=service, options=options)
    browser.set_page_load_timeout(LIMIT)
    browser.set_script_timeout(LIMIT)
    return browser


@contextlib.contextmanager
def in_folder(folder):
    """Changes to a folder, and back."""
    before = os.getcwd()
    os.chdir(folder)
    try:
        yield
    finally:
        os.chdir(before)


class Page:
    """The page in a browser, over the library that a folder holds."""

    def __init__(self, folder):
        self.folder = folder
        self.served = subprocess.Popen(
            [sys.executable, "-B", f"{ROOT}/web/serve", "0"], stdout=subprocess.PIPE,
            env={**os.environ, "BOOTSWAP_MODULE": f"{folder}/bootswap.wasm"},
        )
        self.address = self.served.stdout.readline().decode().strip()
        self.browser = None

    def start(self):
        self.browser = started_browser(self.folder)

    def close(self):
        if self.browser:
            self.browser.quit()
        self.served.terminate()
        self.served.wait()
        self.served.stdout.close()

    def run(self, code):
        """Returns the value of an expression on the page, or that of its promise."""
        return self.browser.execute_script(f"return {code}")

    def run_all(self, *expressions):
        for it in expressions:
            self.run(it)

    def look(self, name):
        """Returns what a function of page_looks.js finds on the page."""
        return self.browser.execute_script(f"{LOOKS}\nreturn {name}()")

    def visit(self, link="", state="yes"):
        """Opens the page with the hash of a link, and waits until it is in a state."""
        self.browser.get("about:blank")
        self.browser.get(f"{self.address}/index.html{link}")
        self.wait(state)

    def wait(self, state="yes"):
        """Waits until the page shows a device, or is in another state."""
        until = time.monotonic() + LIMIT
        while self.run(READY) != state:
            if time.monotonic() > until:
                raise AssertionError(f"the page isn't in the state {state!r} after {LIMIT} seconds")
            time.sleep(0.05)

    def renew(self):
        """Makes a new device on the page."""
        self.run("document.getElementById('setup').requestSubmit()")
        self.wait()

    def resize(self, width):
        size = {"width": width, "height": 1000, "deviceScaleFactor": 1, "mobile": False}
        self.browser.execute_cdp_cmd("Emulation.setDeviceMetricsOverride", size)

    def controls(self):
        """The role and the name of each node, as a screen reader gets them."""
        nodes = self.browser.execute_cdp_cmd("Accessibility.getFullAXTree", {})["nodes"]
        return [(it["role"]["value"], it.get("name", {}).get("value", "")) for it in nodes if not it["ignored"]]

    def faults(self):
        """The errors of the page's own code."""
        return [it["message"] for it in self.browser.get_log("browser") if it["source"] == "javascript"]
