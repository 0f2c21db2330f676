"""A page as Debian's chromium shows it."""
import html
import json
import os
import re
import shutil
import subprocess

WIDTHS = (1200, 400)
# The ground of the page, by colour scheme; the number is chromium's for it.
SCHEMES = {"light": (1, "rgb(255, 255, 255)"), "dark": (0, "rgb(13, 17, 23)")}
LOOK = """
const page = document.querySelector('iframe').contentDocument, root = page.documentElement;
const shown = page.querySelector('tbody tr').getBoundingClientRect();
const links = [...page.querySelectorAll('tbody a')];
const told = {
  over: Math.max(root.scrollWidth, page.body.scrollWidth) - root.clientWidth,
  ground: getComputedStyle(page.body).backgroundColor,
  rows: page.querySelectorAll('tbody tr').length,
  high: shown.height,
  lost: links.filter(link => !page.querySelector('section:has(' + link.getAttribute('href') + ') figure')).length,
  flat: [...page.querySelectorAll('figure svg')].filter(svg => svg.getBoundingClientRect().height < 200).length,
};
document.body.textContent = 'told ' + JSON.stringify(told);
"""


def look(checks, folder, text):
    """Looks at a page at each width, light and dark. Returns how many views there were."""
    chromium = shutil.which("chromium")
    if not chromium:
        print("report: chromium isn't installed: no page was looked at")
        return 0
    for width in WIDTHS:
        for scheme, (number, ground) in SCHEMES.items():
            told = view(chromium, folder, text, width, number)
            name = f"{width} columns, {scheme}"
            checks.is_so(name, told["over"] <= 0, "it is too wide by", told["over"])
            checks.is_so(name, told["ground"] == ground, "its ground is", told["ground"])
            checks.is_so(name, told["rows"] == text.count("<tr") - text.count("<table") and told["high"] > 10, "its rows aren't shown")
            checks.is_so(name, told["lost"] == told["flat"] == 0, "pictures aren't shown:", told)
    return len(WIDTHS) * len(SCHEMES)


def view(chromium, folder, text, width, scheme):
    """What a script sees of the page in a frame of this width."""
    frame = os.path.join(folder, "frame.html")
    with open(frame, "w", encoding="utf-8") as file:
        file.write(f'<meta charset="utf-8"><body><iframe width="{width}" height="900" srcdoc="{html.escape(text)}"></iframe>')
        file.write(f"<script>onload = () => {{{LOOK}}};</script>")
    done = subprocess.run(
        [
            chromium,
            "--headless",
            "--no-sandbox",
            "--disable-gpu",
            f"--user-data-dir={os.path.join(folder, 'profile')}",
            f"--blink-settings=preferredColorScheme={scheme}",
            "--dump-dom",
            f"file://{frame}",
        ],
        capture_output=True,
        timeout=120,
    )
    found = re.search(r"told (\{.*?\})", done.stdout.decode())
    if not found:
        raise RuntimeError(done.stderr.decode())
    return json.loads(html.unescape(found[1]))
