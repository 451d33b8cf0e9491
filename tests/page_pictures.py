"""Makes the pictures of docs/PAGE.md: `tests/page pictures`."""

import os

from page_stage import stage_of

# A picture: its name, the width and the height of the window, the colours, the address, and what is pressed then.
PICTURES = (
    ("rows-1280", 1280, 640, "light", "#table=arrivals", ()),
    ("column-1280", 1280, 760, "light", "#table=arrivals&where=Cargo%20is&value=fish&value=salt", ("[data-menu=Tons]",)),
    ("cell-768", 768, 560, "light", "#table=arrivals&where=Tons%20range&value=1000&value=2999&order=Tons%20desc", ("#rows tbody tr:nth-child(3) td:nth-child(4)",)),
    ("groups-1280", 1280, 560, "light", "#table=arrivals&view=groups&by=Flag&method=sum&of=Tons", ()),
    ("months-768", 768, 560, "dark", "#table=arrivals&view=groups&by=Date&step=month&method=mean&of=Fee", ()),
    ("refused-768", 768, 560, "light", "#table=arrivals&where=Flag%20is&value=Norway", ("#edit-text",)),
    ("use-1280", 1280, 560, "light", "#table=arrivals&view=use&where=Flag%20is&value=Norway", ()),
    ("rows-360", 360, 640, "light", "#table=arrivals&where=Flag%20is&value=Norway", ()),
    ("values-360", 360, 640, "dark", "#table=arrivals", ("[data-menu=Flag]",)),
    ("card-360", 360, 640, "light", "#table=arrivals", ("#rows tbody th",)),
)


def makes_pictures(top):
    folder = os.path.join(top, "docs/page")
    os.makedirs(folder, exist_ok=True)
    with stage_of(os.path.join(top, "examples/harbour")) as browser:
        for name, width, height, scheme, fragment, presses in PICTURES:
            browser.resize(width, height)
            browser.colours(scheme)
            browser.open(fragment)
            for selector in presses:
                browser.script("document.querySelector(arguments[0]).click()", selector)
                browser.settle()
            if name.startswith("refused"):
                browser.choose("#popup textarea", "Flag = \"Norway\" and Tons > 500")
                browser.press("Apply")
                browser.wait("return document.querySelector('#text-error').textContent !== ''")
            browser.wait("return !document.querySelector('#facts').textContent.includes('…')")
            browser.screenshot(os.path.join(folder, f"{name}.png"))
