"""The page in a real browser (Debian: chromium), with 1, 40 and 200 groups."""
import json
import os
import re
import shutil
import subprocess

import corridors
from common import content, run, sha256, told

# in the page itself: which names of a drawing lie over each other or outside of it
MEASURE = """<script>
addEventListener("load", () => {
  const out = {overlaps: [], outside: [], names: 0, scripts: document.scripts.length - 1, text: document.body.innerText.length, wide: []};
  for (const svg of document.querySelectorAll("svg")) {
    const boxes = [...svg.querySelectorAll("text.name")].map(e => [e.textContent, e.getBoundingClientRect()]);
    const frame = svg.getBoundingClientRect();
    out.names += boxes.length;
    boxes.forEach(([name, a], i) => {
      if (a.left < frame.left || a.right > frame.right || a.top < frame.top || a.bottom > frame.bottom) out.outside.push(name);
      for (const [other, b] of boxes.slice(i + 1))
        if (a.left < b.right - 1 && b.left < a.right - 1 && a.top < b.bottom - 2 && b.top < a.bottom - 2) out.overlaps.push(name + "/" + other);
    });
  }
  const done = document.createElement("pre");
  done.id = "measured";
  done.textContent = JSON.stringify(out);
  document.body.append(done);
});
</script></body>"""


def browser(*words):
    program = shutil.which("chromium") or shutil.which("chromium-browser") or shutil.which("google-chrome")
    if not program:
        return subprocess.CompletedProcess(words, 127, "", "chromium is not there")
    return subprocess.run([program, "--headless", "--no-sandbox", "--disable-gpu", "--hide-scrollbars", "--virtual-time-budget=10000", *words],
                          capture_output=True, text=True, stdin=subprocess.DEVNULL, timeout=300)


def tests(t):
    for groups in (1, 40, 200):
        page(t, groups)
    escaped(t)


def page(t, groups):
    path = corridors.make(t.path(), groups)
    html = path + ".html"
    done = run(path, "--html", html)
    t.check(f"{groups} groups: a page", done.returncode == 0, told(done))
    source = content(html).decode()
    digs = int(re.search(r"(\d+) digs?", done.stdout.splitlines()[-1]).group(1))
    t.check(f"{groups} groups: nothing from elsewhere", not re.search(r'(src|href|url)\s*[=(]\s*["\']?(?!#)[a-z]', source.replace("url(#", "(#"))
            and "<script" not in source and "@import" not in source)
    measured = t.path(".html")
    with open(measured, "w") as file:
        file.write(source.replace("</body>", MEASURE))
    seen = browser("--dump-dom", f"file://{measured}")
    result = re.search(r'<pre id="measured">(.*?)</pre>', seen.stdout)
    result = json.loads(result.group(1).replace("&gt;", ">").replace("&lt;", "<").replace("&amp;", "&")) if result else {}
    t.check(f"{groups} groups: names do not pile up", result.get("overlaps") == [] and result.get("outside") == [] and result["names"] > digs,
            f"{str(result)[:1000]} {seen.stderr[-500:]}")
    sheets = source.split('<section class="sheet">')[1:]
    t.check(f"{groups} groups: a sheet for each dig", len(sheets) == digs and all(
        f"<h2>Dig {name}</h2>" in sheet and "m wide" in sheet and 'class="north"' in sheet and 'class="scale"' in sheet and "Scale 1:" in sheet
        and "longest line, at a dent" in sheet and "longest line, at the weld" in sheet and sha256(path) in sheet and "chainage" in sheet
        for name, sheet in zip(re.findall(r"<h2>Dig (G\d+)</h2>", source), sheets)))
    picture, paper, front = (t.path(end) for end in (".png", ".pdf", ".html"))
    browser(f"--screenshot={picture}", "--window-size=1250,1600", f"file://{html}")
    t.check(f"{groups} groups: drawn", os.path.exists(picture) and content(picture).startswith(b"\x89PNG") and os.path.getsize(picture) > 20000)
    with open(front, "w") as file:
        file.write(source.partition('<section class="sheet">')[0] + "</body></html>")
    before, whole = pages(t, front), pages(t, html)
    t.check(f"{groups} groups: one page of paper for each dig", before > 0 and whole == before + digs, f"{before} before the sheets, {whole} in all, {digs} digs")


def pages(t, html):
    paper = t.path(".pdf")
    browser(f"--print-to-pdf={paper}", "--no-pdf-header-footer", f"file://{html}")
    return len(re.findall(rb"/Type\s*/Page\b", content(paper))) if os.path.exists(paper) else 0


def escaped(t):
    """Groups and labels are words, never markup."""
    path = t.changed(("ALTER TABLE dents ADD COLUMN crew TEXT",), ("UPDATE dents SET crew = '<script>x()</script>' || fid",),
                     ("UPDATE dents SET dent_group = '<b>&\"1' WHERE dent_group = 'A'",), ("UPDATE welds SET dent_group = '<b>&\"1' WHERE dent_group = 'A'",))
    done = run(path, "--label", "crew", "--html", path + ".html", "--svg", path + ".svg")
    source = content(path + ".html").decode() + content(path + ".svg").decode()
    t.check("no markup from the file", done.returncode == 0 and "<script" not in source and "<b>&\"" not in source and "&lt;b&gt;&amp;&quot;1" in source, told(done))
