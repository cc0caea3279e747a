"""WebKit, the engine of Safari and of all browsers on iPhones, through WebKitWebDriver."""

from __future__ import annotations

import contextlib
import os
import subprocess

from browser import Browser, BrowserFault, end, faults

with contextlib.suppress(ImportError):
    from selenium.webdriver import Remote
    from selenium.webdriver.common.options import ArgOptions
    from selenium.webdriver.webkitgtk.service import Service

WINDOW = os.path.join(os.path.dirname(os.path.abspath(__file__)), "webkit_window")


class WebKit(Browser):
    programs = ("WebKitWebDriver",), ("Xvfb",)
    files = "python3-gi", "gir1.2-webkit2-4.1"

    def screen(self) -> str:
        """Begins one, and returns its number."""
        heard, told = os.pipe()
        size = f"{self.width}x{self.height}x24"
        words = [self.paths[1], "-displayfd", str(told), "-screen", "0", size, "-nolisten", "tcp"]
        quiet = subprocess.DEVNULL
        run = subprocess.Popen(words, stdin=quiet, stdout=quiet, stderr=quiet, pass_fds=[told])
        self.ends.callback(end, run)
        os.close(told)
        with os.fdopen(heard, encoding="utf-8") as file:
            display = file.readline().strip()
        if not display:
            raise BrowserFault("Xvfb does not start")
        return display

    @faults()
    def begin(self) -> None:
        self.notes = f"{self.home}/notes"
        places = {
            **os.environ,
            "DISPLAY": f":{self.screen()}",
            "GDK_BACKEND": "x11",
            "HOME": self.home,
            "XDG_RUNTIME_DIR": self.home,
            "GIO_USE_VFS": "local",
            "GSETTINGS_BACKEND": "memory",
            "WEBKIT_DISABLE_COMPOSITING_MODE": "1",
            "NO_AT_BRIDGE": "1",
        }
        address = self.serve(Service(self.paths[0], log_path=os.devnull, env=places))
        window = {"binary": WINDOW, "args": [f"{self.width}x{self.height}", self.notes]}
        options = self.limited(ArgOptions())
        options.set_capability("webkitgtk:browserOptions", window)
        self.drive(Remote(address, options=options))

    def noted(self, kind: str) -> list[str]:
        with open(self.notes, encoding="utf-8", errors="replace") as file:
            return [line.rstrip("\n").split(" ", 1)[1] for line in file if line.startswith(f"{kind} ")]

    @property
    def complaints(self) -> list[str]:
        """Those of all pages so far."""
        return self.noted("complaint")

    @property
    def fetched(self) -> list[str]:
        """What pages have asked for so far, their own addresses among them."""
        return self.noted("request")
