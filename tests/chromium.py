"""A headless Chromium, through ChromeDriver; its own protocol for what WebDriver lacks."""

from __future__ import annotations

import contextlib
import json
import os
from typing import Any, Sequence

from browser import Browser, PageFault, faults

with contextlib.suppress(ImportError):
    from selenium.webdriver import ChromeOptions, Remote
    from selenium.webdriver.chromium.remote_connection import ChromiumRemoteConnection
    from selenium.webdriver.chrome.service import Service

# besides those that ChromeDriver adds
WORDS = [
    "--headless=new",
    "--no-sandbox",
    "--disable-gpu",
    "--disable-dev-shm-usage",
    "--disable-extensions",
    "--disable-component-update",
    "--force-device-scale-factor=1",
    "--hide-scrollbars",
    "--mute-audio",
    # it ends when the driver does
    "--remote-debugging-pipe",
]


class Chromium(Browser):
    """The errors and requests of pages are kept from one `open` to the next."""

    programs = ("chromium", "chromium-browser", "google-chrome"), ("chromedriver",)

    @faults()
    def begin(self) -> None:
        self.complained: list[str] = []
        self.requested: list[str] = []
        options = self.limited(ChromeOptions())
        options.binary_location, driver = self.paths
        for word in [*WORDS, f"--user-data-dir={self.home}", f"--window-size={self.width},{self.height}"]:
            options.add_argument(word)
        options.set_capability("goog:loggingPrefs", {"browser": "ALL", "performance": "ALL"})
        address = self.serve(Service(driver, env={**os.environ, "TMPDIR": self.home}))
        self.drive(Remote(ChromiumRemoteConnection(address, "goog", "chrome"), options=options))
        self.before_pages(self.probes)

    @faults()
    def call(self, method: str, **words: Any) -> Any:
        """Of Chromium's own protocol."""
        return self.driver.execute("executeCdpCommand", {"cmd": method, "params": words})["value"]

    @faults()
    def log(self, kind: str) -> list[str]:
        """What has come since the last call."""
        return [entry["message"] for entry in self.driver.get_log(kind)]

    @property
    def complaints(self) -> list[str]:
        self.complained += self.log("browser")
        return self.complained

    @property
    def fetched(self) -> list[str]:
        events = [json.loads(text)["message"] for text in self.log("performance")]
        sent = [event["params"] for event in events if event["method"] == "Network.requestWillBeSent"]
        self.requested += [event["request"]["url"] for event in sent]
        return self.requested

    def turn_page(self) -> None:
        self.log("browser")
        self.log("performance")
        self.complained, self.requested = [], []

    def ask(self, probe: str, *words: Any) -> Any:
        """As any browser, in half the time that WebDriver's own command takes."""
        text = f"probes.{probe}({', '.join(json.dumps(word) for word in words)})"
        made = self.call("Runtime.evaluate", expression=text, returnByValue=True, awaitPromise=True)
        if "exceptionDetails" in made:
            details = made["exceptionDetails"]
            raise PageFault(details.get("exception", {}).get("description", details["text"]))
        return made["result"].get("value")

    def before_pages(self, source: str) -> str:
        """Runs a script first in each later page. Returns the argument for `forget`."""
        return str(self.call("Page.addScriptToEvaluateOnNewDocument", source=source)["identifier"])

    def forget(self, script: str) -> None:
        self.call("Page.removeScriptToEvaluateOnNewDocument", identifier=script)

    def touch(self, kind: str, *places: Sequence[float]) -> None:
        """`Start`, `Move` or `End`, with the places of all fingers."""
        points = [{"x": x, "y": y, "id": number} for number, (x, y) in enumerate(places)]
        self.call("Input.dispatchTouchEvent", type=f"touch{kind}", touchPoints=points)

    def fingers(self, wanted: bool) -> None:
        self.call("Emulation.setTouchEmulationEnabled", enabled=wanted, maxTouchPoints=2)

    def save_into(self, folder: str) -> None:
        self.call("Browser.setDownloadBehavior", behavior="allow", downloadPath=folder)

    def window(self, width: int, height: int, dark: bool = False) -> None:
        self.call("Emulation.setDeviceMetricsOverride", width=width, height=height, deviceScaleFactor=1, mobile=False)
        scheme = {"name": "prefers-color-scheme", "value": "dark" if dark else "light"}
        self.call("Emulation.setEmulatedMedia", features=[scheme])
