"""How the page for people behaves: what nginx gives, the keyboard, slow and stopped requests, refusals by nginx, colours, widths, names, and what moves while rows come."""

import time

from selenium.webdriver.common.keys import Keys

from page_stage import SIZES
from page_views import fetched

# Each view, by its address, and what is opened in it.
VIEWS = {
    "rows": ("#table=arrivals", None),
    "chips": ("#table=arrivals&where=Flag%20is&value=Norway&value=Iceland&where=Tons%20range&value=500&value=2500&order=Tons%20desc", None),
    "column": ("#table=arrivals", "[data-menu=Flag]"),
    "histogram": ("#table=arrivals", "[data-menu=Tons]"),
    "cell": ("#table=arrivals", "#rows tbody td:nth-child(4)"),
    "card": ("#table=arrivals", "#rows tbody th"),
    "about": ("#table=arrivals", "#about"),
    "columns": ("#table=arrivals", "#choose-columns"),
    "refused": ("#table=arrivals&text=Tons%20%3D%201", None),
    "groups": ("#table=arrivals&view=groups&by=Flag,Cargo&method=sum&of=Tons", None),
    "months": ("#table=arrivals&view=groups&by=Date&step=month", None),
    "use": ("#table=arrivals&view=use&where=Flag%20is&value=Norway", None),
    "nothing": ("#table=arrivals&search=~~", None),
}
SLOW = 2000

# The contrast of each text with what is behind it (WCAG 2.2, success criterion 1.4.3); buttons that lead nowhere have none.
CONTRASTS = """
    const channel = it => it <= 0.04045 ? it / 12.92 : ((it + 0.055) / 1.055) ** 2.4;
    const parts = colour => colour.match(/[\\d.]+/g).map(Number);
    const light = ([red, green, blue]) => 0.2126 * channel(red / 255) + 0.7152 * channel(green / 255) + 0.0722 * channel(blue / 255);
    const ground = it => { const colour = parts(getComputedStyle(it).backgroundColor); return colour.length === 4 && colour[3] === 0 ? (it.parentElement ? ground(it.parentElement) : [255, 255, 255]) : colour; };
    const found = [];
    for (const it of document.querySelectorAll('body *')) {
        const has = [...it.childNodes].some(node => node.nodeType === 3 && node.data.trim() !== '');
        if (!has || !it.checkVisibility({ visibilityProperty: true }) || it.closest('svg, [aria-disabled=true], :disabled:not(#switch)')) continue;
        const [one, other] = [light(parts(getComputedStyle(it).color)), light(ground(it))].sort((a, b) => b - a);
        const contrast = (one + 0.05) / (other + 0.05);
        if (contrast < 4.5) found.push(`${it.localName}.${it.className} ${it.textContent.slice(0, 20)}: ${contrast.toFixed(2)}`);
    }
    return found;
"""

# Goes to an address, looks for the line at once, before half a second has passed, and when it is there; then presses its button.
STOPPED = """
    const [fragment, done] = arguments;
    const line = document.querySelector('#progress');
    location.hash = fragment;
    const at_once = line.hidden;
    let early = true;
    const since = performance.now();
    const look = () => {
        if (performance.now() - since < 400) early &&= line.hidden;
        if (line.hidden) return setTimeout(look, 5);
        const words = line.querySelector('[role=status]').textContent;
        line.querySelector('button').click();
        done([at_once, early, words]);
    };
    look();
"""

# The roles of what can be worked; in Chromium's accessibility tree each has a name.
WORKED = {"button", "link", "textbox", "searchbox", "combobox", "checkbox", "dialog", "grid", "region", "navigation", "group", "image", "columnheader", "rowheader", "Date"}


def tries_nginx(browser, checks):
    """Who takes HTML and asks for / gets the page, all others the service document as before."""
    html = "text/html,application/xhtml+xml,*/*;q=0.8"
    for target, accept, media_type in (
        ("", html, "text/html; charset=utf-8"), ("", "*/*", "application/json;odata.metadata=none"), ("", "application/json", "application/json;odata.metadata=none"),
        ("?$format=json", html, "application/json;odata.metadata=none"), ("arrivals/$count", html, "text/plain;charset=utf-8"),
        ("csv-metadata.json", "*/*", "application/csvm+json"), ("page/main.js", "*/*", "text/javascript; charset=utf-8"), ("page/style.css", "*/*", "text/css; charset=utf-8"),
    ):
        status, fields, body = fetched(browser, browser.root + target, accept)
        checks.equal(f"/{target} for {accept}", (status, fields["Content-Type"], len(body) > 0), (200, media_type, True))
        if target == "":
            checks.equal(f"/ for {accept} depends on Accept", "Accept" in (fields.get_all("Vary") or []), True)
        if target in ("page/main.js", "page/style.css") or target == "" and accept == html:
            checks.equal(f"/{target} is bound", fields["Content-Security-Policy"].split(";")[0], "default-src 'self'")
    browser.open()
    loaded = browser.script("return performance.getEntriesByType('resource').map(it => it.name.split('/').at(-1)).filter(it => it.endsWith('.js')).sort()")
    named = browser.script("return [...document.querySelectorAll('link[rel=modulepreload]')].map(it => it.href.split('/').at(-1)).concat('main.js').sort()")
    checks.equal("modules that are loaded, and those that the page names", sorted(set(loaded)), named)


def active(browser):
    return browser.script("const it = document.activeElement; return it.id || it.dataset.sorts || it.dataset.menu || it.className || it.localName")


def presses(browser, *keys):
    for key in keys:
        browser.driver.switch_to.active_element.send_keys(key)
    browser.settle()


def tabs_to(browser, selector, key=Keys.TAB):
    """Goes on by the Tab key until something has the focus."""
    for _ in range(40):
        if browser.script("return document.activeElement.matches(arguments[0])", selector):
            return True
        browser.driver.switch_to.active_element.send_keys(key)
    return False


def tries_keyboard(browser, checks):
    """All that is done by clicks is done by the keyboard, and the focus goes back to where it was."""
    browser.open("#table=arrivals")
    browser.script("document.activeElement.blur()")
    checks.equal("the first stop", (tabs_to(browser, "#skip"), browser.script("return document.activeElement.getBoundingClientRect().top >= 0")), (True, True))
    presses(browser, Keys.ENTER)
    checks.equal("it leads to the content", active(browser), "main")
    for selector in ("#search", "#add-filter", "#choose-columns", ".sort"):
        checks.true(f"on the way: {selector}", tabs_to(browser, selector))
    presses(browser, Keys.ARROW_RIGHT, Keys.ARROW_RIGHT, Keys.ENTER)
    checks.equal("an order by Enter", (browser.fragment(), active(browser)), ("#table=arrivals&order=Ship", "Ship"))
    width = "return document.querySelector('#rows col:nth-child(4)').getBoundingClientRect().width || parseFloat(document.querySelector('#rows col:nth-child(4)').style.width)"
    before = browser.script(width)
    presses(browser, Keys.SHIFT + Keys.ARROW_RIGHT + Keys.NULL)
    checks.equal("a width by Shift and an arrow", browser.script(width) - before, 16)
    presses(browser, Keys.TAB, Keys.ENTER)
    checks.equal("the menu of a column", browser.text("#popup-heading"), "Ship")
    checks.true("its form", tabs_to(browser, "#popup select"))
    presses(browser, Keys.TAB, "Jun", Keys.ENTER)
    checks.equal("a filter by Enter", browser.chips(), ["Ship contains Jun"])
    browser.script("document.querySelector('[data-menu=Ship]').focus()")
    presses(browser, Keys.ENTER, Keys.ESCAPE)
    time.sleep(0.05)
    checks.equal("Escape closes, and the focus goes back", (browser.all("#popup:popover-open"), active(browser)), ([], "Ship"))
    presses(browser, Keys.ARROW_DOWN, Keys.ARROW_DOWN, Keys.ARROW_LEFT, Keys.ENTER)
    checks.equal("the menu of a cell", browser.text("#popup-heading"), "Day of arrival")
    presses(browser, Keys.ESCAPE, Keys.HOME, Keys.ENTER)
    checks.true("a card", browser.script("return document.querySelector('#card').open"))
    presses(browser, Keys.ESCAPE)
    checks.equal("it is closed", browser.script("return document.querySelector('#card').open"), False)
    browser.script("document.querySelector('.chip-remove').focus()")
    presses(browser, Keys.SPACE)
    checks.equal("a chip is taken away", (browser.chips(), active(browser)), ([], "add-filter"))
    browser.script("document.querySelector('#pager button:nth-child(4)').focus()")
    presses(browser, Keys.ENTER)
    checks.equal("the last rows", (browser.text("#summary"), browser.script("return document.activeElement.ariaLabel")), ("101–160 of 160 rows", "Last rows"))


def tries_progress(browser, checks):
    """What takes over half a second has a line and can be stopped; what is shorter has none. What nginx refuses is explained, and asked again."""
    browser.open("#table=arrivals")
    browser.slow(SLOW)
    at_once, early, words = browser.driver.execute_async_script(STOPPED, "#table=arrivals&order=Tons")
    checks.equal("no line at once, and none in the first half second", (at_once, early), (True, True))
    checks.equal("what is asked for", words, "Asking for the rows of arrivals")
    browser.settle()
    checks.equal("it was stopped", (browser.text("#error"), browser.cells(), browser.find("#progress").is_displayed()), ("The request was stopped.", [], False))
    browser.slow(0)
    browser.click("#again")
    checks.equal("it is asked again", (browser.text("#summary"), browser.text("#error")), ("1–100 of 160 rows", ""))
    browser.slow(SLOW)
    browser.script("location.hash = '#table=arrivals&order=Ship'")
    time.sleep(0.1)
    browser.slow(0)
    browser.goes("#table=arrivals&skip=100")
    time.sleep(SLOW / 1000)
    checks.equal("an older request shows nothing over a newer", browser.text("#summary"), "101–160 of 160 rows")
    browser.command("Network.emulateNetworkConditions", offline=True, latency=0, downloadThroughput=-1, uploadThroughput=-1)
    browser.goes("#table=arrivals&order=Fee")
    checks.equal("no connection", (browser.text("#error"), browser.find("#again").is_displayed()), ("There is no connection to the service.", True))
    browser.slow(0)
    tries_refusals(browser, checks)


def tries_refusals(browser, checks):
    """Replies that nginx gives itself. A script takes the place of the network: the page's own `fetch`."""
    browser.open("#table=arrivals")
    browser.script("""
        window.real = window.fetch;
        window.left = 0;
        window.fetch = (...given) => window.left-- > 0 ? Promise.resolve(new Response('busy', { status: window.status_given, headers: window.fields })) : window.real(...given);
    """)
    for number, (status, fields, left, words) in enumerate((
        (403, {}, 1, "This server does not give so many rows at once; ask for fewer."), (414, {}, 1, "The address is too long; use fewer or shorter conditions."),
        (503, {"Retry-After": "30"}, 1, "The service is busy; try again in 30 seconds."), (429, {"Retry-After": "1"}, 1, ""), (503, {}, 2, ""), (504, {}, 1, "The service took too long."),
    )):
        browser.script("window.status_given = arguments[0]; window.fields = arguments[1]; window.left = arguments[2]", status, fields, left)
        browser.goes(f"#table=arrivals&where=Number%20from&value={number}")
        checks.equal(f"{status} with {fields}, {left} times", browser.text("#error"), words)
        browser.script("window.left = 0")


def opened(browser, view):
    """Goes to a view of the page that is open, and opens what belongs to it."""
    fragment, opens = VIEWS[view]
    browser.script("document.querySelector('#popup').hidePopover(); document.querySelector('#card').close()")
    browser.goes(fragment)
    if opens:
        browser.script("document.querySelector(arguments[0]).click()", opens)
        browser.settle()


def nameless(browser):
    nodes = browser.command("Accessibility.getFullAXTree")["nodes"]
    named = [(node.get("role", {}).get("value"), node.get("name", {}).get("value", "")) for node in nodes if not node.get("ignored")]
    roles = {role for role, _ in named}
    return [role for role, name in named if role in WORKED and not name], roles


def tries_looks(browser, checks):
    """Each view at each width, in light and dark: nothing is wider than the window, each text can be read, and all that can be worked has a name."""
    browser.command("Accessibility.enable")
    for width, height in SIZES:
        browser.resize(width, height)
        browser.open("#table=arrivals")
        for name in VIEWS:
            opened(browser, name)
            where = f"{name} at {width}"
            checks.true(f"{where}: as wide as the window", browser.is_as_wide_as_its_window())
            for scheme in ("light", "dark"):
                browser.colours(scheme)
                checks.equal(f"{where}, {scheme}: contrast", browser.script(CONTRASTS), [])
            unnamed, roles = nameless(browser)
            checks.equal(f"{where}: names", unnamed, [])
            if name == "rows":
                top = browser.script("return document.querySelector('#rows tbody').getBoundingClientRect().top")
                checks.true(f"{where}: the first row is at {top}", top <= 210)
                checks.true(f"{where}: roles {roles}", {"grid", "columnheader", "rowheader", "gridcell", "navigation", "search", "status"} <= roles)
    browser.resize(1280, 900)
    browser.colours("light")


def tries_still(browser, checks):
    """Little moves while rows come late, by Chromium's own measure."""
    for width, height in SIZES:
        browser.resize(width, height)
        browser.slow(SLOW // 5)
        for view in ("rows", "chips", "groups"):
            browser.driver.get("about:blank")
            browser.driver.get(browser.root + VIEWS[view][0])
            browser.script("""window.moved = 0; new PerformanceObserver(list => list.getEntries().forEach(it => window.moved += it.value)).observe({ type: 'layout-shift', buffered: true })""")
            browser.settle()
            browser.wait("return !document.querySelector('#facts').textContent.includes('…')")
            browser.goes(VIEWS[view][0] + "&skip=100")
            moved = browser.script("return window.moved")
            checks.true(f"{view} at {width}: what moved: {moved}", moved < 0.01)
    browser.slow(0)
    browser.resize(1280, 900)


def tries_manners(browser, checks):
    for tries in (tries_nginx, tries_keyboard, tries_progress, tries_looks, tries_still):
        tries(browser, checks)
        checks.equal(f"{tries.__name__}: lines on the console", browser.console(), [])
