"""The pages that `tools/reference FOLDER` writes, and what a reader does with them in a browser.

It needs python3-jinja2, python3-markdown and chromium of Debian, and is skipped where one lacks.
"""
import html
import pathlib
import re
import shutil
import tempfile

from check.copies import TOP
from check.running import call

# The browser shows pages without a window, reads those in the same folder, and ends when nothing
# waits any more.
FLAGS = ("--headless", "--no-sandbox", "--disable-gpu", "--allow-file-access-from-files",
         "--virtual-time-budget=600000", "--timeout=300000", "--dump-dom")
CASE = re.compile(r"<li>(.*?)\t(.*?)</li>")


def run(tally, words):
    folder, here = pathlib.Path(tempfile.mkdtemp()), pathlib.Path(__file__).with_name("pages.html")
    status, text = call(TOP / "tools" / "reference", folder)
    browser = shutil.which("chromium")
    lacks = "apt-get" in text and text.strip()
    tally.case("pages: they are written, and no link leads nowhere", status and text, lacks)
    lacks = lacks or not browser and "a browser: apt-get install chromium"
    if not lacks:
        shutil.copy(here, folder)
        text = call(browser, *FLAGS, f"--user-data-dir={tempfile.mkdtemp()}", folder / here.name)[1]
    results = dict(map(html.unescape, it) for it in CASE.findall(text))
    for name in re.findall(r'(?m)^  "(.*)": ', here.read_text("utf-8")):
        tally.case(f"pages: {name}", results.get(name, f"it isn't tried: {text[-2000:]}"), lacks)
