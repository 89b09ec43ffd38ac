#!/usr/bin/env python3
"""replay.py PAGE RECORDING: hands a recording to the page that replays it, in Chromium, and writes what the page says."""
import os
import sys
from selenium import webdriver
from selenium.webdriver.chrome.service import Service
from selenium.webdriver.common.by import By
from selenium.webdriver.support.ui import WebDriverWait


def chromium():
    options = webdriver.ChromeOptions()
    options.add_argument("--headless=new")
    if os.getuid() == 0:
        # Chromium has no sandbox for root
        options.add_argument("--no-sandbox")
    return webdriver.Chrome(service=Service("/usr/bin/chromedriver"), options=options)


def main():
    page, recording = map(os.path.abspath, sys.argv[1:])
    driver = chromium()
    try:
        driver.get("file://" + page)
        said = driver.find_element(By.ID, "said")
        WebDriverWait(driver, 30).until(lambda _: said.text == "ready")
        driver.find_element(By.ID, "recording").send_keys(recording)
        WebDriverWait(driver, 120).until(lambda _: said.text not in ("ready", "at work"))
        print(said.text)
        for entry in driver.get_log("browser"):
            print(entry["message"])
    finally:
        driver.quit()


main()
