"""Where a page is written, and how it is opened."""

import os
import sys
import webbrowser
from pathlib import Path
from typing import Optional

from . import ReportError
from .page import PageMaker

# Variables of which one is there where a program can show a window, or which names the browser.
OF_WINDOWS = ("DISPLAY", "WAYLAND_DISPLAY", "BROWSER")


def write_page(page: PageMaker, place: Optional[str]) -> None:
    """Writes a page to a file, or to standard output, which a minus names too."""
    if place in (None, "-"):
        sys.stdout.buffer.writelines(it.encode() for it in page.parts())
        return
    with open(str(place), "wb") as file:
        file.writelines(it.encode() for it in page.parts())


def place_of_pages() -> Path:
    """Returns the file of the page that is opened, which the next one replaces."""
    cache = Path(os.environ.get("XDG_CACHE_HOME") or Path.home() / ".cache")
    return cache / "h3_qpack" / "page.html"


def open_page(page: PageMaker) -> None:
    """Opens a page in the browser. It may have what was decrypted, so nobody else may read its file."""
    path = place_of_pages()
    path.parent.mkdir(parents=True, exist_ok=True)
    path.unlink(missing_ok=True)
    with open(os.open(path, os.O_WRONLY | os.O_CREAT | os.O_EXCL, 0o600), "wb") as file:
        file.writelines(it.encode() for it in page.parts())
    if sys.platform != "darwin" and not any(map(os.environ.get, OF_WINDOWS)):
        raise ReportError(f"no browser can be opened here: open {path} in yours")
    if not webbrowser.open(path.as_uri()):
        raise ReportError(f"no browser was found: open {path} in yours")
    print(path)
