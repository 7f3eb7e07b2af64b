"""The page of qpk report for everybody: contrast, names, focus, a narrow window, print, and no motion.

The checks are those that such tools make, written as one expression that runs in the page.
"""
import itertools

from nghttp3 import Failure

LEAST_CONTRAST = 4.5  # of a text and what is behind it (WCAG 2.2, 1.4.3)
MOST_PAGES = 2
# What is wrong on the page: texts of too little contrast, elements without a name, heads without a scope, and others.
WRONG = """(() => {
  const canvas = document.createElement('canvas').getContext('2d', {willReadFrequently: true});
  const colour = text => {
    canvas.clearRect(0, 0, 1, 1); canvas.fillStyle = text; canvas.fillRect(0, 0, 1, 1);
    return Array.from(canvas.getImageData(0, 0, 1, 1).data);
  };
  const light = rgb => rgb.slice(0, 3).map(it => it / 255)
    .map(it => it <= 0.04045 ? it / 12.92 : ((it + 0.055) / 1.055) ** 2.4).reduce((sum, it, i) => sum + it * [0.2126, 0.7152, 0.0722][i], 0);
  const contrast = (one, other) => { const [a, b] = [light(one), light(other)].sort((a, b) => b - a); return (a + 0.05) / (b + 0.05); };
  const grounds = it => {
    for (; it; it = it.parentElement) {
      const style = getComputedStyle(it), stops = style.backgroundImage.match(/rgba?\\([^)]*\\)|color\\([^)]*\\)/g);
      if (stops) return stops.map(colour);
      if (colour(style.backgroundColor)[3] === 255) return [colour(style.backgroundColor)];
    }
    return [colour('white')];
  };
  const nameOf = it => it.getAttribute('aria-label') || it.textContent.trim() || it.title || it.labels?.[0]?.textContent || '';
  const found = [], all = Array.from(document.body.querySelectorAll('*')).filter(it => it.checkVisibility());
  for (const it of all) {
    const hasText = Array.from(it.childNodes).some(part => part.nodeType === 3 && part.data.trim());
    if (hasText && it.tagName !== 'SCRIPT' && it.tagName !== 'STYLE') {
      const least = Math.min(...grounds(it).map(ground => contrast(colour(getComputedStyle(it).color), ground)));
      if (least < LEAST) found.push(`contrast ${least.toFixed(2)} of ${it.tagName}.${it.className}: ${it.textContent.trim().slice(0, 30)}`);
    }
    const isUsed = it.matches('a, button, input, select, summary, [tabindex], [role=grid], [role=columnheader]');
    if (isUsed && !nameOf(it)) found.push(`no name: ${it.outerHTML.slice(0, 90)}`);
    if (it.matches('th:not([scope])')) found.push(`no scope: ${it.textContent}`);
    if (it.matches('svg:not([aria-label]):not([aria-hidden])')) found.push('a picture without a name');
    if (it.tabIndex >= 0 && it.matches('[aria-hidden=true] *')) found.push('a hidden element that Tab stops at');
  }
  const ids = Array.from(document.querySelectorAll('[id]'), it => it.id);
  if (new Set(ids).size !== ids.length) found.push('an id is there twice');
  for (const row of document.querySelectorAll('[role=gridcell]')) if (row.parentElement.getAttribute('role') !== 'row') found.push('a cell without a row');
  if (document.documentElement.lang !== 'en' || document.querySelectorAll('h1').length !== 1 || !document.title) found.push('no language, title or heading');
  if (document.documentElement.scrollWidth > innerWidth) found.push(`${document.documentElement.scrollWidth} pixels are wider than ${innerWidth}`);
  const moving = all.filter(it => getComputedStyle(it).transitionDuration !== '0s' || getComputedStyle(it).animationName !== 'none');
  if (moving.length) found.push(`${moving.length} elements move`);
  return Array.from(new Set(found)).slice(0, 12);
})()""".replace(
    "LEAST", str(LEAST_CONTRAST)
)
# Faults that must be found: what is done to a page.
PLANTED = {
    "contrast": "document.body.style.setProperty('--soft', '#999')",
    "no name": "document.getElementById('moment').removeAttribute('aria-label')",
    "no scope": "document.querySelector('th').removeAttribute('scope')",
    "wider": "document.querySelector('h1').style.minWidth = '3000px'",
}


def check(pages):
    """Checks the page light and dark, wide and narrow, whole and with findings, as requests and as timeline."""
    looked = 0
    for html in (pages.report(), pages.faulty_report()):
        for width, scheme in itertools.product((1280, 400), pages.browser.schemes):
            page = pages.open(html, "", width, scheme)
            page.ask("document.querySelectorAll('details').forEach(it => { it.open = true; })")
            for view in ("requests", "timeline"):
                page.ask(f"report.choose('{view}')")
                wrong = page.ask(WRONG)
                if wrong:
                    raise Failure(f"{width} pixels, {scheme}, {view}: {wrong}")
                looked += 1
    number = page.printed()
    if not 1 <= number <= MOST_PAGES:
        raise Failure(f"the page is printed on {number}")
    for name, fault in PLANTED.items():
        page = pages.open(pages.report())
        page.ask(fault)
        if not any(name in it for it in page.ask(WRONG)):
            raise Failure(f"it was not found: {name}")
    return f"{looked} views, {number} printed, {len(PLANTED)} planted faults found"
