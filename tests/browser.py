"""A browser that Selenium drives, with one page. chromium.py, firefox.py and webkit.py begin the three."""

from __future__ import annotations

import contextlib
import importlib.util
import os
import shutil
import subprocess
import tempfile
import time
import weakref
from typing import Any, Callable, Iterator, Optional, Sequence, TypeVar

from lib import packages

with contextlib.suppress(ImportError):
    # `Browser.missing` names it
    from selenium.common.exceptions import JavascriptException, WebDriverException
    from selenium.webdriver.common.actions.action_builder import ActionBuilder
    from selenium.webdriver.common.keys import Keys
    from selenium.webdriver.remote.remote_connection import RemoteConnection
    from urllib3.exceptions import HTTPError

PROBES = os.path.join(os.path.dirname(os.path.abspath(__file__)), "page_probes.js")
LIBRARY = "selenium"
Kind = TypeVar("Kind", bound="Browser")
# how many seconds a browser may take, beyond those for a page, to say that the page takes too long
MARGIN = 30
# drivers listen there, and no proxy knows them
os.environ["no_proxy"] = "localhost"


class BrowserFault(Exception):
    """The browser ended, stayed silent, or rejected a call."""


class PageFault(Exception):
    """A script failed in the page."""


@contextlib.contextmanager
def faults() -> Iterator[None]:
    """What Selenium raises, as `PageFault` or `BrowserFault`."""
    try:
        yield
    except JavascriptException as wrong:
        raise PageFault(wrong.msg) from None
    except (WebDriverException, HTTPError, OSError, subprocess.TimeoutExpired) as wrong:
        raise BrowserFault(f"{type(wrong).__name__}: {wrong}") from None


def attempt(act: Callable[..., object], *words: object) -> None:
    with contextlib.suppress(BrowserFault), faults():
        act(*words)


def end(run: subprocess.Popen[bytes]) -> None:
    """Has a process end; kills a stubborn one."""
    run.terminate()
    attempt(run.wait, 20)
    run.kill()
    run.wait()


def path_of(names: Sequence[str]) -> Optional[str]:
    return next((path for name in names if (path := shutil.which(name))), None)


class Browser:
    """Raises `BrowserFault` if the browser ends, stays silent or refuses a call."""

    # the names of each program that it needs, and its other packages
    programs: tuple[tuple[str, ...], ...] = ()
    files: tuple[str, ...] = ()

    def __init__(self, wait: float = 60, width: int = 1280, height: int = 900) -> None:
        if lacks := self.missing():
            raise BrowserFault(lacks)
        self.wait, self.width, self.height = wait, width, height
        self.paths = [path_of(names) or "" for names in self.programs]
        with open(PROBES, encoding="utf-8") as file:
            self.probes = file.read()
        RemoteConnection.set_timeout(wait + MARGIN)
        self.home = tempfile.mkdtemp(prefix="rudekpi-browser-")
        # at the latest when this process ends
        self.remove_home = weakref.finalize(self, shutil.rmtree, self.home, ignore_errors=True)
        self.ends = contextlib.ExitStack()
        try:
            try:
                self.begin()
            except BrowserFault:
                # another process may have taken the driver's port
                self.ends.close()
                self.begin()
        except BaseException:
            self.__exit__()
            raise

    @classmethod
    def missing(cls) -> str:
        """What is missing here, or nothing."""
        absent = [names[0] for names in cls.programs if path_of(names) is None]
        absent += packages.missing_files(cls.files)
        absent += [] if importlib.util.find_spec(LIBRARY) else [f"python3-{LIBRARY}"]
        return ", ".join(f"no {name}" for name in absent)

    def begin(self) -> None:
        """Sets the driver, and has `ends` end whatever it began."""
        raise NotImplementedError

    @property
    def complaints(self) -> list[str]:
        """What pages complained of."""
        raise NotImplementedError

    def __enter__(self: Kind) -> Kind:
        return self

    def __exit__(self, *_: object) -> None:
        self.ends.close()
        self.remove_home()
        # a browser whose driver was killed writes until it has ended
        until = time.monotonic() + 10
        while os.path.exists(self.home) and time.monotonic() < until:
            shutil.rmtree(self.home, ignore_errors=True)

    def limited(self, options: Any) -> Any:
        """Selenium's options, with the time that a page and a script may take."""
        most = int(self.wait * 1000)
        options.timeouts = {"pageLoad": most, "script": most}
        options.unhandled_prompt_behavior = "accept"
        return options

    def serve(self, service: Any) -> str:
        """Begins a driver that ends with the browser. Returns its address."""
        service.process = None

        def stop() -> None:
            if service.process:
                end(service.process)
            # otherwise Selenium asks whoever has the port to end
            service.process = None

        self.ends.callback(stop)
        service.start()
        return str(service.service_url)

    def drive(self, driver: Any) -> None:
        self.driver = driver
        self.ends.callback(attempt, driver.quit)

    def turn_page(self) -> None:
        """Comes before a page opens."""

    @faults()
    def open(self, path: str) -> None:
        self.turn_page()
        self.driver.get(path if "://" in path else f"file://{path}")

    @faults()
    def reload(self) -> None:
        self.driver.refresh()

    @faults()
    def ask(self, probe: str, *words: Any) -> Any:
        return self.driver.execute_script(f"{self.probes}\nreturn probes.{probe}(...arguments);", *words)

    @contextlib.contextmanager
    def hand(self) -> Iterator[Any]:
        """What it is to do is done, without a pause, at the end of the block."""
        with faults():
            acts = ActionBuilder(self.driver, duration=0)
            yield acts
            acts.perform()

    def move(self, x: float, y: float) -> None:
        with self.hand() as hand:
            hand.pointer_action.move_to_location(round(x), round(y))

    def click(self, x: float, y: float) -> None:
        with self.hand() as hand:
            hand.pointer_action.move_to_location(round(x), round(y)).click()

    def drag(self, start: Sequence[float], end: Sequence[float], steps: int = 4) -> None:
        (x1, y1), (x2, y2) = start, end
        with self.hand() as hand:
            mouse = hand.pointer_action.move_to_location(round(x1), round(y1)).pointer_down()
            for at in range(1, steps + 1):
                mouse.move_to_location(round(x1 + (x2 - x1) * at / steps), round(y1 + (y2 - y1) * at / steps))
            mouse.pointer_up()

    def press(self, *names: str) -> None:
        """Keys, held together: characters, or names of pages' events, such as `ArrowUp`."""
        keys = [getattr(Keys, name.replace("Arrow", "Arrow_").upper(), name) for name in names]
        with self.hand() as hand:
            for key in keys:
                hand.key_action.key_down(key)
            for key in reversed(keys):
                hand.key_action.key_up(key)
