"""Compares the sums of the pages' policies with their styles and their scripts, or with --mend writes them anew; gives what other checks ask of a page in headless Chromium."""
import base64
import hashlib
import os
import re
import shutil
import subprocess
import sys
import tempfile

TOP = os.path.dirname(os.path.dirname(os.path.abspath(__file__)))
SOURCES = [f"{TOP}/crates/{it}/src/page.rt" for it in ("view", "play_answers")]


def sum_of(text):
    return "sha256-" + base64.b64encode(hashlib.sha256(text.encode()).digest()).decode()


def mended(text):
    """The source with the sums of its style and its script."""
    style = re.search(r"<style>(.*?)</style>", text, re.S)[1]
    script = re.search(r"<script>(.*?)</script>", text, re.S)[1]
    text = re.sub(r"style-src '[^']*'", f"style-src '{sum_of(style)}'", text)
    return re.sub(r"script-src '[^']*'", f"script-src '{sum_of(script)}'", text)


def chromium():
    return shutil.which("chromium") or shutil.which("chromium-browser")


def dom(page, moment, log=None):
    """The page as Chromium has it at a moment, behind its script."""
    with tempfile.TemporaryDirectory() as home:
        order = [chromium(), "--headless", "--no-sandbox", "--disable-gpu", f"--user-data-dir={home}", "--virtual-time-budget=3000", "--dump-dom"]
        order += [f"--log-net-log={log}"] if log else []
        ran = subprocess.run([*order, f"file://{page}#t={moment}"], stdout=subprocess.PIPE, stderr=subprocess.DEVNULL, timeout=120, check=True)
    return ran.stdout.decode()


def lights(text, board=0):
    """The rows of a board's lights in a page as Chromium has it."""
    parts = re.findall(r'<div class="lights".*?</div>', text, re.S)
    signs = "".join("#" if "on" in it.split() else "." for it in re.findall(r'<span class="(light[^"]*)"', parts[board]))
    return "/".join(signs[i:i + 5] for i in range(0, 25, 5))


def look(path, mend):
    """Whether a page's source has the sums of its style and its script, or has them now."""
    with open(path, encoding="utf-8") as file:
        source = file.read()
    if mend:
        with open(path, "w", encoding="utf-8") as file:
            file.write(mended(source))
        return True
    return mended(source) == source


if __name__ == "__main__":
    for name in SOURCES:
        if not look(name, sys.argv[1:] == ["--mend"]):
            sys.exit(f"{name}: the policy has another sum than the style or the script: python3 checks/page.py --mend writes them anew")
