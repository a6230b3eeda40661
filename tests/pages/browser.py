"""Pages in headless chromium: at two widths, light and dark, with and without JavaScript."""
import base64
import itertools
import os
import time

from selenium import webdriver
from selenium.webdriver.chrome.service import Service
from selenium.webdriver.common.action_chains import ActionChains
from selenium.webdriver.common.by import By
from selenium.webdriver.common.keys import Keys

HERE = os.path.dirname(os.path.realpath(__file__))
WIDTHS = (1280, 390)
HEIGHT = 1600  # a page is looked at as far as two screens show it
SECONDS = 60  # how long something is waited for
MOST_TABS = 16  # how often the key is pressed: a long table has a link in each row


class Browser:
    """A browser for a `with`. `look` gives the faults of a page, and leaves a picture of it."""

    def __enter__(self):
        options = webdriver.ChromeOptions()
        for word in "--headless=new", "--no-sandbox", "--disable-gpu", "--hide-scrollbars", "--disable-dev-shm-usage":
            options.add_argument(word)
        options.set_capability("goog:loggingPrefs", {"browser": "ALL"})
        self.driver = webdriver.Chrome(options=options, service=Service("/usr/bin/chromedriver"))
        self.driver.set_page_load_timeout(120)
        with open(os.path.join(HERE, "looks.js"), encoding="utf-8") as file:
            self.looks = file.read()
        return self

    def __exit__(self, *_):
        self.driver.quit()

    def command(self, name, **values):
        return self.driver.execute_cdp_cmd(name, values)

    def set(self, width, scheme, has_script):
        """From here on pages are opened so."""
        self.command("Emulation.setDeviceMetricsOverride", width=width, height=HEIGHT, deviceScaleFactor=1,
                     mobile=False)
        self.command("Emulation.setEmulatedMedia", features=[{"name": "prefers-color-scheme", "value": scheme}])
        self.command("Emulation.setScriptExecutionDisabled", value=not has_script)

    def open(self, url):
        self.driver.get_log("browser")
        self.driver.get(url)

    def faults(self):
        """What is wrong with the open page, and what the console says of it."""
        return [*self.driver.execute_script(self.looks),
                *(entry["message"] for entry in self.driver.get_log("browser"))]

    def picture(self, path):
        """The page as a reader sees it first."""
        told = self.command("Page.captureScreenshot", optimizeForSpeed=True)
        with open(path, "wb") as file:
            file.write(base64.b64decode(told["data"]))

    def tab_faults(self):
        """The key goes through links and fields in the page's order, and shows where it is."""
        due = self.driver.execute_script(
            "return [...document.querySelectorAll('a[href], button, input, select, summary')]"
            ".filter(element => element.checkVisibility()).slice(0, arguments[0]).map(element => element.outerHTML)",
            MOST_TABS)
        keys = ActionChains(self.driver)
        for text in due:
            keys.send_keys(Keys.TAB).perform()
            shown, style = self.driver.execute_script(
                "const at = document.activeElement; return [at.outerHTML, getComputedStyle(at).outlineStyle]")
            if shown != text:
                return [f"the tab key leads to {shown[:100]} in place of {text[:100]}"]
            if style == "none":
                return [f"{text[:100]} doesn't show that it has the focus"]
        return []

    def texts(self, selector):
        """The texts of elements, as a reader sees them."""
        return self.driver.execute_script(
            "return [...document.querySelectorAll(arguments[0])].filter(element => element.checkVisibility())"
            ".map(element => element.innerText.trim().replace(/\\s+/g, ' '))", selector)

    def counts(self, selector, inner):
        """How many elements of a sort are in each element."""
        return self.driver.execute_script(
            "return [...document.querySelectorAll(arguments[0])]"
            ".map(element => element.querySelectorAll(arguments[1]).length)", selector, inner)

    def type(self, selector, text):
        """Types into a field."""
        self.driver.find_element(By.CSS_SELECTOR, selector).send_keys(text)

    def wait_for(self, selector):
        """The texts of elements once there are some, or nothing after a while."""
        until = time.monotonic() + SECONDS
        while not self.texts(selector) and time.monotonic() < until:
            time.sleep(0.1)
        return self.texts(selector)


def ways():
    """Each way in which a page is opened: its width, its scheme, and whether scripts run."""
    return itertools.product(WIDTHS, ("light", "dark"), (True, False))
