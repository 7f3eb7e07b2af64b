"""The page of qpk report by the keyboard alone: its stops by Tab, the filter, the rows and the details."""
from nghttp3 import Failure

FOCUS = """(() => { const it = document.activeElement;
    return it.id || (it.getAttribute('aria-label') || it.textContent.trim()).slice(0, 40) || it.tagName; })()"""
MOST_STOPS = 200


def expect(page, expression, expected, what):
    """Checks the value of an expression in the page."""
    found = page.ask(expression)
    if found != expected:
        raise Failure(f"{what}: {found}, and not {expected}")


def stops_of(page):
    """Returns what Tab stops at, from the top of the page until it comes there again."""
    found = []
    for _ in range(MOST_STOPS):
        page.press("Tab")
        stop = page.ask(FOCUS)
        if stop == "BODY" or found and stop == found[0]:
            return found
        found.append(stop)
    raise Failure(f"Tab does not come to an end: {found}")


def check(pages):
    """Filters, chooses a request, opens it, follows a link, moves the slider and the timeline, and comes back."""
    page = pages.open(pages.report())
    stops = stops_of(page)
    wanted = ["moment", "Requests", "Timeline", "Filter requests", "requests", "What is chosen", "The tables at this moment"]
    lacking = [it for it in wanted if it not in stops]
    if lacking:
        raise Failure(f"Tab does not stop at {lacking}, but at {stops}")
    page.press("/", "/")
    expect(page, FOCUS, "Filter requests", "after / the focus is at")
    page.type("method:post path:turn=3")
    expect(page, "report.requests.shown.map(it => it.path).join()", "/echo?turn=3&of=ddd", "the filter leaves")
    page.ask("report.requests.filter.value = '', report.requests.update(), report.requests.list.element.focus()")
    page.press("Home")
    for _ in range(3):
        page.press("ArrowDown")
    expect(page, "report.request.stream", 12, "after three arrows the stream is")
    expect(page, "location.hash", "#0/stream/12", "the address is")
    expect(
        page,
        "document.getElementById(report.requests.list.element.getAttribute('aria-activedescendant')).ariaSelected",
        "true",
        "the active row is chosen",
    )
    page.press("Enter")
    expect(page, FOCUS, "What is chosen", "after Enter the focus is at")
    page.press("Escape")
    expect(page, FOCUS, "requests", "after Escape the focus is at")
    page.press("End")
    expect(page, "report.request.stream", 36, "after End the stream is")
    page.ask("report.choose('timeline'), document.getElementById('moment').focus()")
    page.press("Home")
    expect(page, "report.timeline.chosen", -1, "at the left end of the slider the timeline is at")
    page.press("End")
    expect(page, "report.timeline.chosen === report.connection.events.length - 1", True, "the slider moves the timeline")
    expect(page, "document.querySelector('.timeline .chosen') !== null", True, "the chosen event is in view")
    return f"{len(stops)} stops of Tab"
