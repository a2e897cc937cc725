"""What pages hold once their scripts have run, in one Chromium by selenium: for each address a line, a string of JSON.
The system's Python runs this, which has selenium where Debian's package is installed."""

import argparse
import json

from selenium import webdriver


def chromium(wide, high):
    """A browser without a window, for pages of so many pixels."""
    options = webdriver.ChromeOptions()
    for word in ("--headless=new", "--no-sandbox", "--disable-gpu", "--hide-scrollbars"):
        options.add_argument(word)
    browser = webdriver.Chrome(options=options)
    resize(browser, wide, high)
    return browser


def resize(browser, wide, high):
    metrics = {"width": wide, "height": high, "deviceScaleFactor": 1, "mobile": False}
    browser.execute_cdp_cmd("Emulation.setDeviceMetricsOverride", metrics)


def main():
    parser = argparse.ArgumentParser(prog="browser.py", description=__doc__)
    parser.add_argument("--picture", help="the file for a picture of the first page")
    parser.add_argument("addresses", nargs="+", metavar="ADDRESS")
    asked = parser.parse_args()
    browser = chromium(1000, 560)
    try:
        for number, address in enumerate(asked.addresses):
            browser.get("about:blank")
            browser.get(address)
            print(json.dumps(browser.page_source))
            if asked.picture and number == 0:
                browser.save_screenshot(asked.picture)
    finally:
        browser.quit()


if __name__ == "__main__":
    main()
