#!/usr/bin/env python3
"""Calls a function of checks/page.mjs in headless Chromium, on its own private file system, and prints what it gives.

usage: clients/js/checks/chromium.py EXPRESSION
It prints the browser's version, and in the next line what the expression gives, as JSON. It ends with 3 where there is no browser, with 4 where it failed.
"""
import json, os, sys
HERE = os.path.dirname(os.path.realpath(__file__))
sys.path.insert(0, os.path.join(os.path.dirname(os.path.dirname(HERE)), "browser"))
import headless

PAGE = "/clients/js/checks/page.html"
READY = "new Promise((done) => { const look = () => globalThis.playBehaviours ? done() : setTimeout(look, 20); look(); })"


class Handler(headless.Handler):
    """The files of this client, besides those of the browser's page."""

    extensions_map = {**headless.Handler.extensions_map, ".mjs": "text/javascript"}

    def translate_path(self, path):
        at = path.partition("?")[0]
        if at.startswith("/clients/js/") and ".." not in at:
            return os.path.join(headless.ROOT, at[1:])
        return super().translate_path(path)


def main(expression):
    headless.Handler = Handler
    with headless.Headless(limit=120) as browser:
        session = browser.open_page(is_granted=True)
        origin = browser.evaluate(session, "location.origin")
        browser.call("Page.navigate", session, url=f"{origin}{PAGE}")
        browser.evaluate(session, READY)
        value = browser.evaluate(session, expression)
        print(browser.version)
        print(value if isinstance(value, str) else json.dumps(value), flush=True)


if __name__ == "__main__":
    if not headless.program():
        sys.exit(print("there is no chromium on this machine", file=sys.stderr) or 3)
    try:
        main(sys.argv[1])
    except (headless.Odd, OSError) as why:
        sys.exit(print(f"chromium: {why}", file=sys.stderr) or 4)
