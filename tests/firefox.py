"""A headless Firefox. Debian has no geckodriver, so Selenium's commands go to Firefox's own Marionette."""

from __future__ import annotations

import contextlib
import json
import os
import socket
import subprocess
import time
from typing import Any

from browser import MARGIN, Browser, BrowserFault, end, faults

with contextlib.suppress(ImportError):
    from selenium.webdriver import Remote
    from selenium.webdriver.common.options import ArgOptions

# no first pages, no updates, no questions
PREFERENCES = {
    "marionette.port": 0,
    "browser.shell.checkDefaultBrowser": False,
    "browser.startup.homepage_override.mstone": "ignore",
    "browser.download.folderList": 2,
    "browser.download.useDownloadDir": True,
    "browser.helperApps.neverAsk.saveToDisk": "text/plain,image/svg+xml,image/png",
    "datareporting.policy.dataSubmissionEnabled": False,
    "app.update.disabledForTesting": True,
    "browser.dom.window.dump.enabled": True,
    "dom.disable_beforeunload": True,
}
# how a page's error begins in Firefox's output
SIGNS = ("JavaScript error: file:", "JavaScript error: http:")
# by Selenium's names
COMMANDS = {
    "newSession": "WebDriver:NewSession",
    "get": "WebDriver:Navigate",
    "refresh": "WebDriver:Refresh",
    "w3cExecuteScript": "WebDriver:ExecuteScript",
    "actions": "WebDriver:PerformActions",
    "setWindowRect": "WebDriver:SetWindowRect",
    "quit": "Marionette:Quit",
}


class Marionette:
    """An executor of Selenium's commands. A message is its length in bytes, a colon, and JSON."""

    def __init__(self, port: int, wait: float) -> None:
        self.number = 0
        self.wire = socket.create_connection(("127.0.0.1", port), timeout=wait)
        self.heard = self.wire.makefile("rb")
        self.message()

    def message(self) -> Any:
        size = b""
        while not size.endswith(b":"):
            digit = self.heard.read(1)
            if not digit:
                raise BrowserFault("Firefox ended")
            size += digit
        return json.loads(self.heard.read(int(size[:-1])))

    def execute(self, command: str, words: dict[str, Any]) -> dict[str, Any]:
        self.number += 1
        text = json.dumps([0, self.number, COMMANDS[command], words]).encode()
        self.wire.sendall(b"%d:%s" % (len(text), text))
        _, _, wrong, result = self.message()
        return {"status": wrong["error"], "value": wrong} if wrong else {"value": result.get("value", result)}

    def close(self) -> None:
        self.heard.close()
        self.wire.close()


class Firefox(Browser):
    programs = (("firefox-esr", "firefox"),)

    @faults()
    def begin(self) -> None:
        preferences: dict[str, object] = {**PREFERENCES, "browser.download.dir": self.home}
        with open(f"{self.home}/user.js", "w", encoding="ascii") as file:
            file.writelines(
                f"user_pref({json.dumps(key)}, {json.dumps(value)});\n" for key, value in preferences.items()
            )
        words = [*self.paths, "--headless", "--marionette", "--no-remote", "--profile", self.home, "about:blank"]
        size = {"MOZ_HEADLESS_WIDTH": str(self.width), "MOZ_HEADLESS_HEIGHT": str(self.height)}
        places = {**os.environ, **size, "HOME": self.home}
        with open(f"{self.home}/said", "wb") as said:
            self.run = subprocess.Popen(words, stdin=subprocess.DEVNULL, stdout=said, stderr=said, env=places)
        self.ends.callback(end, self.run)
        executor = Marionette(self.port(), self.wait + MARGIN)
        self.ends.callback(executor.close)
        self.drive(Remote(executor, options=self.limited(ArgOptions())))
        self.driver.set_window_size(self.width, self.height)

    def port(self) -> int:
        until = time.monotonic() + self.wait
        path = f"{self.home}/MarionetteActivePort"
        while time.monotonic() < until and self.run.poll() is None:
            if os.path.exists(path) and os.path.getsize(path) > 0:
                with open(path, encoding="ascii") as file:
                    return int(file.read())
            time.sleep(0.1)
        raise BrowserFault("Firefox opens no port")

    @property
    def complaints(self) -> list[str]:
        """Those of all pages so far."""
        with open(f"{self.home}/said", encoding="utf-8", errors="replace") as file:
            return [line.rstrip("\n") for line in file if line.startswith(SIGNS)]
