"""Walks through a page in Chromium by keys alone: keys.py PAGE.

Tab reaches the links at the head and that of the first sale; Enter there leads to the summary of its month, and Enter opens the fold,
whose text then has a height. Nothing is fetched meanwhile. Without a sale only the links at the head are tried. A difference goes to
standard output, and ends it with status 1.
"""

import base64
import json
import os
import shutil
import socket
import struct
import subprocess
import sys
import tempfile
import time
import urllib.request


class Browser:
    """A page of a headless Chromium, asked over its socket."""

    def __init__(self, page, scratch):
        words = ["chromium", "--headless=new", "--no-sandbox", "--disable-gpu", "--remote-debugging-port=0", f"--user-data-dir={scratch}"]
        self.process = subprocess.Popen([*words, "file://" + os.path.abspath(page)], stdout=subprocess.DEVNULL, stderr=subprocess.DEVNULL)
        self.count = 0
        port = self.patient(lambda: open(os.path.join(scratch, "DevToolsActivePort")).readline().strip())
        listed = self.patient(lambda: [it for it in self.ask(port) if it["type"] == "page" and it["url"].startswith("file:")][0])
        path = listed["webSocketDebuggerUrl"].split(port, 1)[1]
        self.socket = socket.create_connection(("127.0.0.1", int(port)))
        key = base64.b64encode(os.urandom(16)).decode()
        self.socket.sendall(
            f"GET {path} HTTP/1.1\r\nHost: 127.0.0.1:{port}\r\nUpgrade: websocket\r\nConnection: Upgrade\r\n"
            f"Sec-WebSocket-Key: {key}\r\nSec-WebSocket-Version: 13\r\n\r\n".encode())
        self.rest = b""
        while b"\r\n\r\n" not in self.rest:
            self.rest += self.socket.recv(4096)
        self.rest = self.rest.partition(b"\r\n\r\n")[2]

    @staticmethod
    def patient(find):
        for _ in range(300):
            try:
                return find()
            except (OSError, IndexError, ValueError):
                time.sleep(0.2)
        raise SystemExit("keys: the browser doesn't answer")

    @staticmethod
    def ask(port):
        with urllib.request.urlopen(f"http://127.0.0.1:{port}/json/list") as answer:
            return json.load(answer)

    def take(self, length):
        while len(self.rest) < length:
            self.rest += self.socket.recv(65536)
        taken, self.rest = self.rest[:length], self.rest[length:]
        return taken

    def call(self, method, **values):
        self.count += 1
        text = json.dumps({"id": self.count, "method": method, "params": values}).encode()
        head = b"\x81" + (bytes([0x80 | len(text)]) if len(text) < 126 else b"\xfe" + struct.pack(">H", len(text)))
        self.socket.sendall(head + b"\0\0\0\0" + text)
        while True:
            first = self.take(2)
            length = first[1] & 127
            if length == 126:
                length = struct.unpack(">H", self.take(2))[0]
            elif length == 127:
                length = struct.unpack(">Q", self.take(8))[0]
            answer = json.loads(self.take(length))
            if answer.get("id") == self.count:
                return answer.get("result", {})

    def value(self, expression):
        return self.call("Runtime.evaluate", expression=expression, returnByValue=True)["result"].get("value")

    def press(self, key, code):
        text = {"Enter": "\r"}.get(key, "")
        for kind in ("rawKeyDown", "char", "keyUp"):
            if kind != "char" or text:
                self.call("Input.dispatchKeyEvent", type=kind, key=key, code=key, windowsVirtualKeyCode=code, text=text)


def main():
    scratch = tempfile.mkdtemp()
    browser = Browser(sys.argv[1], scratch)
    faults = []
    try:
        while browser.value("document.readyState + location.protocol") != "completefile:":
            time.sleep(0.2)
        hrefs = browser.value("[...document.links].map(a => a.getAttribute('href')).join(' ')").split()
        reached = []
        for _ in range(len(hrefs) + 40):
            browser.press("Tab", 9)
            href = browser.value("document.activeElement.getAttribute('href')")
            if href:
                reached.append(href)
            if href and href.startswith("#m2") or len(reached) >= 200:
                break
        if reached[:6] != hrefs[:6]:
            faults.append(f"Tab reaches {reached[:6]}, not {hrefs[:6]}")
        if len(hrefs) > 6:
            target = reached[-1]
            browser.press("Enter", 13)
            if browser.value("location.hash") != target:
                faults.append(f"Enter leads to {browser.value('location.hash')}, not to {target}")
            if browser.value("document.activeElement.tagName") != "SUMMARY":
                browser.press("Tab", 9)
            if browser.value("'#' + document.activeElement.id") != target:
                faults.append(f"the next element is {browser.value('document.activeElement.outerHTML.slice(0, 60)')}")
            browser.press("Enter", 13)
            if browser.value("document.activeElement.parentElement.open") is not True:
                faults.append("Enter doesn't open the fold")
            if not browser.value("document.activeElement.parentElement.querySelector('pre').offsetHeight"):
                faults.append("the fold shows nothing")
        fetched = browser.value("performance.getEntriesByType('resource').length")
        if fetched:
            faults.append(f"{fetched} things are fetched")
    finally:
        browser.process.kill()
        browser.process.wait()
        shutil.rmtree(scratch, ignore_errors=True)
    for fault in faults:
        print(fault)
    sys.exit(1 if faults else 0)


main()
