"""A window of the page in headless Chromium, and what is asked of it: for the trial of live/page."""
import os
import sys
import time

from live_running import GIVEN, patience

try:
    from selenium import webdriver
    from selenium.webdriver.chrome.service import Service
    from selenium.webdriver.common.by import By
    from selenium.webdriver.common.keys import Keys
except ModuleNotFoundError:
    sys.exit(print("skipped: python3-selenium is missing"))

CHROMIUM, DRIVER = "/usr/bin/chromium", "/usr/bin/chromedriver"
THREE = "/usr/share/javascript/three/build/three.module.js"
for needed, package in ((CHROMIUM, "chromium"), (DRIVER, "chromium-driver")):
    if not os.path.exists(needed):
        sys.exit(print("skipped: %s is missing" % package))
HOUSE, OTHER = "house-0-0-01", "house-0-0-02"
WORDS = ("--headless=new", "--no-sandbox", "--hide-scrollbars", "--force-device-scale-factor=1", "--no-first-run",
         "--use-angle=swiftshader", "--enable-unsafe-swiftshader", "--disable-accelerated-2d-canvas",
         "--disable-background-networking", "--disable-dev-shm-usage")
AXE = "/usr/share/javascript/axe-core/axe.min.js"


def browser(size="1360,820", dark=False, insecure=False):
    options = webdriver.ChromeOptions()
    options.binary_location = CHROMIUM
    for word in (*WORDS, "--window-size=" + size):
        options.add_argument(word)
    options.set_capability("goog:loggingPrefs", {"browser": "ALL"})
    options.set_capability("acceptInsecureCerts", insecure)
    driver = webdriver.Chrome(service=Service(DRIVER), options=options)
    driver.set_page_load_timeout(patience(60))
    driver.set_script_timeout(patience(60))
    features = [{"name": "prefers-color-scheme", "value": "dark" if dark else "light"}]
    driver.execute_cdp_cmd("Emulation.setEmulatedMedia", {"features": features})
    return driver


def until(what, seconds=15.0):
    """How long it took until `what()` is true."""
    started, most = time.monotonic(), patience(seconds)
    while True:
        found = what()
        if found:
            return time.monotonic() - started
        if time.monotonic() - started > most:
            raise AssertionError("it didn't come true in %.0f seconds" % most)
        time.sleep(0.02)


class Window:
    def __init__(self, running, who, size="1360,820", dark=False, wait=30):
        self.who, self.driver = who, browser(size, dark)
        self.driver.get("http://127.0.0.1:%d/#token=%s" % (running.port, running.tokens[who]))
        until(lambda: self.state() == "live", wait)

    def find(self, css):
        return self.driver.find_elements(By.CSS_SELECTOR, css)

    def state(self):
        return self.driver.find_element(By.ID, "state").text

    def run(self, script, *given):
        return self.driver.execute_script(script, *given)

    def select(self, id=HOUSE):
        self.run("cityed.select(arguments[0])", id)
        until(lambda: self.title() == id and self.find("#object table"))

    def title(self):
        return self.run("return document.querySelector('#object h2')?.textContent")

    def shown(self, name):
        return self.run("const t=[...document.querySelectorAll('#object tr')].find(t=>t.dataset.name===arguments[0]);"
                        "return t ? t.querySelector('.value>button,.value>input')?.textContent ?? null : null", name)

    def row(self, name):
        wanted = "#object tr[data-name='%s']" % name
        until(lambda: self.find(wanted))
        return self.find(wanted)[0]

    def start(self, name, value):
        """Opens the editor of an attribute and types, without Enter."""
        until(lambda: self.row(name).find_element(By.CSS_SELECTOR, ".value > button").is_enabled())
        self.row(name).find_element(By.CSS_SELECTOR, ".value > button").click()
        box = self.row(name).find_element(By.CSS_SELECTOR, "input")
        box.send_keys(Keys.CONTROL, "a")
        box.send_keys(value)
        return box

    def edit(self, name, value):
        self.start(name, value).send_keys(Keys.ENTER)

    def texts(self, css):
        return self.run("return [...document.querySelectorAll(arguments[0])]"
                        ".map(l => l.innerText.replaceAll('\\n', ' '))", css)

    def past(self):
        return self.texts("#history li")

    def toasts(self):
        return self.texts("#toasts div")

    def settle(self):
        """Until all tiles in view are drawn, and all shapes are there."""
        until(lambda: self.run("const p=cityed.app.plan; return p.frame > 0 && !p.jobs.size && !p.drawing"), 30)

    def picture(self, name):
        if GIVEN.pictures:
            self.driver.save_screenshot(os.path.join(GIVEN.pictures, name + ".png"))

    def close(self):
        """What the browser complained of."""
        bad = [it for it in self.driver.get_log("browser") if it["level"] == "SEVERE"]
        self.driver.quit()
        return [it["message"] for it in bad if "WebSocket connection" not in it["message"]]


# Edits of both windows at once, each of what it sees.
EDITS = """
window.won = 0; window.lost = 0;
window.edits = async (n, id) => {
  for (let k = 0; k < n; k++) {
    const seen = cityed.app.city.get(id).object.attributes.storeys;
    (await cityed.app.edits.edit(id, 'storeys', seen, seen + 1)) ? won++ : lost++;
  }
  window.ready = true;
};
"""
# Where an object is in the window.
PLACE = """
const b = cityed.app.city.get(arguments[0]).box, r = document.getElementById('plan').getBoundingClientRect();
const p = cityed.app.plan.screen([(b[0] + b[3]) / 2 - 1, (b[1] + b[4]) / 2 - 1]);
return [p[0] + r.left, p[1] + r.top];
"""
# The texts whose contrast with their ground is below 4.5 (3 where they are disabled), by the page's own colours.
UNREADABLE = """
const channels = (c) => (c.match(/[\\d.]+/g) ?? []).map(Number);
const linear = (n) => n <= 0.03928 ? n / 12.92 : ((n + 0.055) / 1.055) ** 2.4;
const weights = [0.2126, 0.7152, 0.0722];
const light = (c) => channels(c).slice(0, 3).reduce((sum, n, k) => sum + linear(n / 255) * weights[k], 0);
const ground = (it) => {
  for (; it; it = it.parentElement) {
    const c = getComputedStyle(it).backgroundColor, a = channels(c)[3];
    if (a === undefined || a > 0.5) return c;
  }
  return getComputedStyle(document.body).backgroundColor;
};
const hasText = (it) => it.offsetParent
  && (it.placeholder || [...it.childNodes].some((n) => n.nodeType === 3 && n.data.trim()));
return [...document.querySelectorAll('header *, aside *')].filter(hasText).map((it) => {
  const ink = getComputedStyle(it, it.placeholder ? '::placeholder' : null).color;
  const [a, b] = [light(ink), light(ground(it))].sort((x, y) => y - x);
  return [it.placeholder ?? it.textContent.slice(0, 40), (a + 0.05) / (b + 0.05), it.disabled ? 3 : 4.5];
}).filter(([, is, least]) => is < least);
"""
# The controls that a screen reader has no name for.
UNNAMED = """
const controls = [...document.querySelectorAll('button, input, [role=application], [role=listbox], canvas')];
const named = (it) => it.getAttribute('aria-label') || it.textContent.trim() || it.labels?.length;
return controls.filter((it) => it.type !== 'file' && it.offsetParent && !named(it)).map((it) => it.outerHTML);
"""
# A share of the city's width is in view, and drawn.
SHOWN = """
const [share, done] = arguments, plan = cityed.app.plan, b = cityed.app.city.box();
const [x, y] = [(b[0] + b[3]) / 2, (b[1] + b[4]) / 2];
const half = [(b[3] - b[0]) * share / 2, (b[4] - b[1]) * share / 2];
plan.fit([x - half[0], y - half[1], 0, x + half[0], y + half[1], 0], 1);
const still = () => plan.jobs.size || plan.drawing ? setTimeout(still, 50) : done();
setTimeout(still, 300);
"""
# 120 frames of panning; the script time of each.
PANS = """
const [done] = arguments, plan = cityed.app.plan;
let n = 0;
plan.times.length = 0;
const step = () => {
  if (++n > 120) return done(plan.times.slice());
  plan.pan(n <= 60 ? 6 : -6, n % 2 ? 3 : -3);
  requestAnimationFrame(step);
};
step();
"""
