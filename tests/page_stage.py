"""The stage on which the page for people is tried: the service over an example, nginx with examples/nginx.conf before it, and a headless Chromium that asks."""

import contextlib
import os
import re
import shutil
import socket
import subprocess
import tempfile
import time

from selenium import webdriver
from selenium.common.exceptions import StaleElementReferenceException
from selenium.webdriver.chrome.service import Service as Driver
from selenium.webdriver.common.by import By
from selenium.webdriver.support.ui import WebDriverWait

TOP = os.path.dirname(os.path.dirname(os.path.abspath(__file__)))
PROGRAM = os.environ.get("PROGRAM", os.path.join(TOP, "crates/odata_listen/out/odata_listen"))
NAME = "data.example.org"
PATIENCE = 20
# The windows in which the page is tried: a telephone, a tablet, a screen.
SIZES = ((360, 740), (768, 1024), (1280, 800))


def free_port():
    with socket.socket() as free:
        free.bind(("127.0.0.1", 0))
        return free.getsockname()[1]


def ends(process):
    process.terminate()
    process.wait(timeout=PATIENCE)


class Service:
    """The program over a folder."""

    def __init__(self, folder):
        self.process = subprocess.Popen([PROGRAM, folder, "--port", "0"], stdout=subprocess.PIPE, text=True)
        self.port = int(self.process.stdout.readline().rsplit(":", 1)[1])

    def end(self):
        ends(self.process)
        self.process.stdout.close()


class Proxy:
    """nginx with the configuration of the examples, of which only ports, paths and, unless `limited`, the limits for one client are replaced."""

    def __init__(self, work, folder, backend, limited):
        self.port = free_port()
        chain, key = os.path.join(work, "chain.pem"), os.path.join(work, "key.pem")
        words = ["openssl", "req", "-x509", "-newkey", "rsa:2048", "-nodes", "-days", "2", "-subj", f"/CN={NAME}", "-keyout", key, "-out", chain]
        subprocess.run(words, check=True, capture_output=True)
        with open(os.path.join(TOP, "examples/nginx.conf"), encoding="utf-8") as file:
            text = replaced(file.read(), [
                (r"127\.0\.0\.1:8081", f"127.0.0.1:{backend}"),
                (r"listen 443 ssl", f"listen 127.0.0.1:{self.port} ssl"),
                (r"/etc/ssl/magpiecoffer/chain\.pem", chain),
                (r"/etc/ssl/magpiecoffer/key\.pem", key),
                (r"/var/cache/(nginx/)?magpiecoffer", os.path.join(work, "cache")),
                (r"/usr/local/share/magpiecoffer", TOP),
                (r"/srv/magpiecoffer/current", folder),
            ])
        # the redirection from HTTP has a port that is not tried here
        text = text.replace("listen 80;", f"listen unix:{work}/redirection;")
        if not limited:
            text = re.sub(r"rate=\d+r/s", "rate=1000r/s", text)
            text = re.sub(r"burst=\d+", "burst=1000", text)
            text = re.sub(r"(limit_conn \w+) \d+;", r"\1 1000;", text)
        with open(os.path.join(work, "server.conf"), "w", encoding="utf-8") as file:
            file.write(text)
        temporary = "".join(f"{what}_temp_path {work}/{what};" for what in ("client_body", "proxy", "fastcgi", "uwsgi", "scgi"))
        user = "user root;" if os.geteuid() == 0 else ""
        with open(os.path.join(work, "main.conf"), "w", encoding="utf-8") as file:
            file.write(f"{user} worker_processes 1; pid {work}/pid; events {{}} http {{ access_log {work}/access.log; {temporary} include {work}/server.conf; }}")
        nginx = shutil.which("nginx", path=os.environ.get("PATH", "") + ":/usr/sbin:/sbin")
        self.process = subprocess.Popen(
            [nginx, "-p", work, "-e", os.path.join(work, "error.log"), "-c", os.path.join(work, "main.conf"), "-g", "daemon off;"], stderr=subprocess.DEVNULL)
        for _ in range(100):
            try:
                socket.create_connection(("127.0.0.1", self.port), timeout=1).close()
                return
            except OSError:
                time.sleep(0.1)
        raise TimeoutError("nginx does not listen")

    def end(self):
        ends(self.process)


def replaced(text, pairs):
    """Replaces each pattern, which has to occur once in the text."""
    for pattern, new in pairs:
        text, count = re.subn(pattern, lambda _, new=new: new, text)
        if count != 1:
            raise ValueError(f"{pattern!r} occurs {count} times in examples/nginx.conf")
    return text


class Browser:
    """Chromium, which takes the certificate of the test and knows where the name is."""

    def __init__(self, port, downloads):
        options = webdriver.ChromeOptions()
        for word in ("--headless=new", "--no-sandbox", "--disable-dev-shm-usage", "--lang=en-US", f"--host-resolver-rules=MAP {NAME} 127.0.0.1"):
            options.add_argument(word)
        options.accept_insecure_certs = True
        options.binary_location = shutil.which("chromium")
        options.set_capability("goog:loggingPrefs", {"browser": "ALL"})
        self.driver = webdriver.Chrome(options=options, service=Driver(shutil.which("chromedriver")))
        self.root = f"https://{NAME}:{port}/"
        self.downloads = downloads
        self.driver.set_script_timeout(2 * PATIENCE)
        self.command("Browser.setDownloadBehavior", behavior="allow", downloadPath=downloads)
        self.command("Browser.grantPermissions", permissions=["clipboardReadWrite", "clipboardSanitizedWrite"])
        self.resize(1280, 900)

    def end(self):
        self.driver.quit()

    def command(self, name, **words):
        return self.driver.execute_cdp_cmd(name, words)

    def resize(self, width, height):
        self.command("Emulation.setDeviceMetricsOverride", width=width, height=height, deviceScaleFactor=1, mobile=False)

    def colours(self, scheme):
        self.command("Emulation.setEmulatedMedia", features=[{"name": "prefers-color-scheme", "value": scheme}])

    def slow(self, milliseconds):
        """Each reply takes so much longer."""
        self.command("Network.enable")
        self.command("Network.emulateNetworkConditions", offline=False, latency=milliseconds, downloadThroughput=-1, uploadThroughput=-1)

    def script(self, text, *words):
        return self.driver.execute_script(text, *words)

    def open(self, fragment=""):
        """The page at a fragment, loaded anew."""
        self.driver.get("about:blank")
        self.driver.get(self.root + fragment)
        self.settle()

    def goes(self, fragment):
        """Another fragment of the page that is open."""
        self.script("location.hash = arguments[0]", fragment)
        self.settle()

    def settle(self):
        """Waits until nothing is asked for: the folder is there, and neither rows nor a profile are awaited."""
        is_still = self.driver.execute_async_script("""
            const done = arguments[0];
            const since = performance.now();
            const look = () => {
                const is_there = document.querySelector('#start:not([hidden]), #table:not([hidden])') !== null;
                const is_busy = document.querySelector('#table[aria-busy=true], #popup:popover-open .profile[aria-busy=true]');
                if ((is_there && !is_busy) || performance.now() - since > 20_000) done(is_there && !is_busy); else setTimeout(look, 10);
            };
            setTimeout(look, 15);
        """)
        if not is_still:
            raise TimeoutError(self.driver.current_url)

    def wait(self, condition):
        WebDriverWait(self.driver, PATIENCE, poll_frequency=0.02, ignored_exceptions=[StaleElementReferenceException]).until(lambda driver: driver.execute_script(condition))

    def find(self, selector):
        return self.driver.find_element(By.CSS_SELECTOR, selector)

    def all(self, selector):
        return self.driver.find_elements(By.CSS_SELECTOR, selector)

    def text(self, selector):
        return self.script("return document.querySelector(arguments[0]).textContent", selector)

    def value(self, selector):
        return self.script("return document.querySelector(arguments[0]).value", selector)

    def click(self, selector):
        self.find(selector).click()
        self.settle()

    def press(self, words, within="#popup"):
        """Clicks the button of these words."""
        self.script("""
            const button = [...document.querySelectorAll(`${arguments[0]} button`)].find(it => it.textContent === arguments[1] || it.ariaLabel === arguments[1]);
            if (!button) throw new Error(`no button ${arguments[1]}`);
            button.click();
        """, within, words)
        self.settle()

    def choose(self, selector, value):
        """Chooses a value of a select, or types a text into a field: by a script, since the keys of the driver have no emoji."""
        self.script("""
            const input = document.querySelector(arguments[0]);
            input.value = arguments[1];
            if (input.value !== arguments[1]) throw new Error(`${arguments[0]} has no ${arguments[1]}`);
            input.dispatchEvent(new Event('input', { bubbles: true }));
            input.dispatchEvent(new Event('change', { bubbles: true }));
        """, selector, value)
        self.settle()

    def is_as_wide_as_its_window(self):
        return self.script("return document.documentElement.scrollWidth <= innerWidth")

    def fragment(self):
        return self.script("return location.hash")

    def cells(self):
        """The rows that are shown, as texts; what style marks is in brackets."""
        return self.script("""return [...document.querySelectorAll('#rows tbody tr')].map(row => [...row.cells].slice(1, -1).map(cell =>
            cell.classList.contains('is-null') ? '[null]' : cell.classList.contains('is-empty') ? '[empty text]' : cell.textContent))""")

    def cell(self, row, place):
        """Clicks a cell; the numbers of rows are a column before the first."""
        self.script("document.querySelector('#rows tbody').rows[arguments[0]].cells[arguments[1] + 1].click()", row, place)
        self.settle()

    def chips(self):
        return self.script("return [...document.querySelectorAll('#chips .chip-words')].map(it => it.textContent)")

    def headers(self):
        return self.script("return [...document.querySelectorAll('#rows thead .words')].map(it => it.textContent)")

    def requests(self):
        """The requests of the page to the service so far, without its own files."""
        return self.script("return performance.getEntriesByType('resource').map(it => it.name).filter(it => !it.includes('/page/'))")

    def console(self):
        """The lines on the console since it was last asked, but those of Chromium itself on replies that were refused."""
        return [line["message"] for line in self.driver.get_log("browser") if line["source"] != "network"]

    def screenshot(self, path):
        self.driver.save_screenshot(path)


@contextlib.contextmanager
def stage_of(folder, limited=False):
    """The browser before nginx and the service over a folder; all of it ends with the block. `limited` keeps the limits for one client."""
    with tempfile.TemporaryDirectory(prefix="page-") as work, contextlib.ExitStack() as ends_last:
        service = Service(folder)
        ends_last.callback(service.end)
        proxy = Proxy(work, folder, service.port, limited)
        ends_last.callback(proxy.end)
        browser = Browser(proxy.port, work)
        ends_last.callback(browser.end)
        browser.service = f"http://127.0.0.1:{service.port}/"
        yield browser
