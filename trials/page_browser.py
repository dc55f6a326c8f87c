"""Debian's chromium without a screen: what is wrong with the looks of a page in it, and pictures of pages."""
import os
import subprocess
import sys
import urllib.parse

from script import Failed

try:
    from selenium import webdriver
    from selenium.webdriver.common.by import By
except ImportError:
    sys.exit("page: needs python3-selenium and chromium-driver: apt-get install python3-selenium chromium-driver")

# How many bytes a picture may have.
LIMIT = 150_000
# The elements whose text is paler than it may be, and how wide the page is.
LOOK = """
const parts = text => { const found = text.match(/[0-9.]+/g).map(Number); return found.length < 4 ? [...found, 1] : found; };
const light = ([red, green, blue]) => [red, green, blue].map(one => one / 255)
  .map(one => one <= 0.03928 ? one / 12.92 : ((one + 0.055) / 1.055) ** 2.4)
  .reduce((sum, one, place) => sum + one * [0.2126, 0.7152, 0.0722][place], 0);
const behind = element => {
  for (; element; element = element.parentElement) {
    const colour = parts(getComputedStyle(element).backgroundColor);
    if (colour[3] > 0) return colour;
  }
  return [255, 255, 255, 1];
};
const pale = [];
for (const element of [...document.querySelectorAll("body *")].slice(0, 3000)) {
  if (![...element.childNodes].some(node => node.nodeType === 3 && node.textContent.trim())) continue;
  if (element.closest("svg, script")) continue;
  const both = [light(parts(getComputedStyle(element).color)), light(behind(element))].sort((a, b) => b - a);
  if ((both[0] + 0.05) / (both[1] + 0.05) < 4.5) pale.push(element.tagName + " " + element.textContent.slice(0, 40));
}
return {wide: document.documentElement.scrollWidth, window: window.innerWidth, pale: pale};
"""
# The texts of a page without what its script adds.
TEXTS = """
const copy = document.querySelector("main").cloneNode(true);
copy.querySelectorAll(".filter").forEach(one => one.remove());
return copy.textContent;
"""


def browser():
    words = webdriver.ChromeOptions()
    for word in ("--headless=new", "--no-sandbox", "--disable-gpu", "--disable-dev-shm-usage", "--hide-scrollbars", "--force-device-scale-factor=1"):
        words.add_argument(word)
    words.set_capability("goog:loggingPrefs", {"browser": "ALL"})
    try:
        made = webdriver.Chrome(options=words)
    except Exception as fault:
        raise Failed("no browser: %s" % fault)
    made.set_page_load_timeout(120)
    return made


def size(driver, width, height=1000):
    driver.execute_cdp_cmd("Emulation.setDeviceMetricsOverride", {"width": width, "height": height, "deviceScaleFactor": 1, "mobile": False})


def scheme(driver, name):
    driver.execute_cdp_cmd("Emulation.setEmulatedMedia", {"features": [{"name": "prefers-color-scheme", "value": name}]})


def looked_at(driver, address, name):
    """What is wrong with one page in the browser."""
    wrong = []
    for width in (360, 1600):
        size(driver, width)
        for colours in ("light", "dark"):
            scheme(driver, colours)
            driver.get(address + urllib.parse.quote(name))
            seen = driver.execute_script(LOOK)
            if seen["wide"] > width:
                wrong.append("%s: %d pixels wide at %d" % (name, seen["wide"], width))
            wrong += ["%s: pale in %s: %s" % (name, colours, one) for one in seen["pale"][:3]]
    texts = driver.execute_script(TEXTS)
    driver.execute_cdp_cmd("Emulation.setScriptExecutionDisabled", {"value": True})
    driver.get(address + urllib.parse.quote(name))
    driver.execute_cdp_cmd("Emulation.setScriptExecutionDisabled", {"value": False})
    if driver.execute_script(TEXTS) != texts:
        wrong.append("%s: other texts without JavaScript" % name)
    wrong += ["%s: console: %s" % (name, one["message"]) for one in driver.get_log("browser")]
    return wrong


def filtered(driver, address, name):
    """What is wrong with the filter of a page."""
    driver.get(address + urllib.parse.quote(name))
    field = driver.find_element(By.CSS_SELECTOR, ".filter input")
    rows = driver.find_elements(By.CSS_SELECTOR, "table.filtered tbody tr")
    names = driver.execute_script("return [...document.querySelectorAll('table.filtered tbody tr')].map(row => row.cells[0].textContent)")
    typed = names[len(names) // 2][:6].upper()
    field.send_keys(typed)
    shown = driver.execute_script(
        "return [...document.querySelectorAll('table.filtered tbody tr')].filter(row => row.offsetHeight).map(row => row.cells[0].textContent)"
    )
    wanted = [one for one in names if typed.lower() in one.lower()]
    told = driver.find_element(By.CSS_SELECTOR, ".filter output").text
    field.clear()
    field.send_keys(" ")
    back = driver.execute_script("return [...document.querySelectorAll('table.filtered tbody tr')].filter(row => row.offsetHeight).length")
    if shown != wanted or not wanted or told != "%d of %d" % (len(wanted), len(rows)) or back != len(rows):
        return ["%s: the filter by %s shows %d rows of %d (%s)" % (name, typed, len(shown), len(wanted), told)]
    return []


def picture(driver, address, name, path, width, height):
    """Leaves a picture of a page."""
    size(driver, width, height)
    scheme(driver, "light")
    driver.get(address + urllib.parse.quote(name))
    if not driver.save_screenshot(path):
        raise Failed("%s: no picture" % path)
    if os.path.getsize(path) > LIMIT and subprocess.run(["pngquant", "--force", "--ext", ".png", "32", path], check=False).returncode:
        raise Failed("%s: pngquant is needed: apt-get install pngquant" % path)
    return ["%s: %d bytes" % (path, os.path.getsize(path))] if os.path.getsize(path) > LIMIT else []
