#!/usr/bin/env python3
"""Tries the lines for nginx in live/README.md: a proxy with TLS on the loopback before live/gateway.py.

    python3 testing/live_proxy.py PROGRAM [--live WORDS]

The lines are taken from the page as they stand; only ports, names and files are this trial's. The certificate is made
for it. Through the proxy come the page, with the gateway's headers, its WebSocket under the right origin alone, edits,
long messages, and what is shown in Chromium; a connection outlives the proxy's patience, and /metrics stays inside.
Needs python3-aiohttp, nginx and openssl, and for the page chromium, chromium-driver and python3-selenium; what is
missing is told and skipped. All sockets are on 127.0.0.1.
"""
import asyncio
import re
import shutil
import ssl
import subprocess
import sys
import tempfile
import unittest
from pathlib import Path
from urllib.error import HTTPError
from urllib.request import HTTPSHandler, ProxyHandler, build_opener

from live_running import ROOT, Page, Running, aiohttp, asked, free_port, patience

NGINX = shutil.which("nginx") or shutil.which("nginx", path="/usr/sbin")
PAGE = ROOT / "live/README.md"
ORIGIN = "https://city.example"
# What a system's own nginx.conf has around a server.
AROUND = """daemon off; pid %(folder)s/pid; error_log %(folder)s/error.log; worker_processes 1;
events {}
http {
  access_log off; client_body_temp_path %(folder)s/body; proxy_temp_path %(folder)s/proxy;
  fastcgi_temp_path %(folder)s/fastcgi; uwsgi_temp_path %(folder)s/uwsgi; scgi_temp_path %(folder)s/scgi;
%(lines)s
}
"""


def lines_of_page():
    """The block of the page that has a server."""
    blocks = re.findall(r"^```\n(.*?)^```$", PAGE.read_text(encoding="utf-8"), re.M | re.S)
    return next(it for it in blocks if it.startswith("server {"))


class Proxy:
    """nginx with the lines of the page before a gateway."""

    def __init__(self, port, gateway, patience_of_proxy=None):
        self.folder = tempfile.TemporaryDirectory()
        self.path, key = Path(self.folder.name), Path(self.folder.name) / "key.pem"
        self.certificate = self.path / "certificate.pem"
        words = ["openssl", "req", "-x509", "-newkey", "rsa:2048", "-nodes", "-days", "2", "-subj", "/CN=localhost"]
        words += ["-addext", "subjectAltName=DNS:localhost,IP:127.0.0.1", "-keyout", key, "-out", self.certificate]
        subprocess.run(words, stderr=subprocess.DEVNULL, check=True)
        lines = lines_of_page()
        for old, new in (("listen 443 ssl", "listen 127.0.0.1:%d ssl" % port), ("city.example", "localhost"),
                         ("/etc/ssl/city.pem", self.certificate), ("/etc/ssl/city.key", key),
                         ("127.0.0.1:8020", "127.0.0.1:%d" % gateway)):
            assert old in lines, "the page has no " + old
            lines = lines.replace(old, str(new))
        if patience_of_proxy:
            lines = re.sub(r"(proxy_read_timeout) \w+", r"\1 %ds" % patience_of_proxy, lines)
        conf = self.path / "nginx.conf"
        conf.write_text(AROUND % {"folder": self.path, "lines": lines})
        subprocess.run([NGINX, "-q", "-t", "-c", conf], check=True)
        self.process = subprocess.Popen([NGINX, "-c", conf])

    def close(self):
        self.process.terminate()
        self.process.wait(patience(20))
        self.folder.cleanup()


class Proxied(unittest.IsolatedAsyncioTestCase):
    def setUp(self):
        self.port = free_port()
        self.origin = "https://localhost:%d" % self.port
        self.run_ = Running(options=["--save-every", "0", "--heartbeat", "1", "--origin", self.origin])
        self.proxy = Proxy(self.port, self.run_.port, 3)
        self.tls = ssl.create_default_context(cafile=self.proxy.certificate)
        self.opener = build_opener(ProxyHandler({}), HTTPSHandler(context=self.tls))

    def tearDown(self):
        self.proxy.close()
        self.run_.close()

    async def asyncSetUp(self):
        asyncio.get_running_loop().slow_callback_duration = 60
        for _ in range(200):
            try:
                return await asyncio.to_thread(self.get, "/health")
            except OSError:
                await asyncio.sleep(0.05)

    def get(self, path):
        try:
            with self.opener.open(self.origin + path, timeout=patience(5)) as answer:
                return answer.status, answer.headers, answer.read()
        except HTTPError as error:
            return error.code, error.headers, error.read()

    def page(self, who, origin=None):
        page = Page(self.run_, who, ssl=self.tls, headers={"Origin": origin or self.origin})
        page.url = "wss://localhost:%d/live" % self.port
        return page

    async def test_page(self):
        status, headers, text = await asyncio.to_thread(self.get, "/")
        self.assertEqual((status, text), (200, (ROOT / "live/page/index.html").read_bytes()))
        self.assertIn("default-src 'self'", headers["Content-Security-Policy"])
        self.assertEqual((await asyncio.to_thread(self.get, "/metrics"))[0], 404)
        self.assertEqual((await asyncio.to_thread(self.get, "/health"))[0], 200)

    async def test_origin(self):
        for origin in ("https://evil.example", "http://localhost:%d" % self.port, "https://localhost"):
            with self.assertRaises(aiohttp.WSServerHandshakeError) as caught:
                async with self.page("ann", origin):
                    pass
            self.assertEqual(caught.exception.status, 403)

    async def test_edits(self):
        async with self.page("ann") as ann, self.page("eve") as eve:
            await eve.send(follow={})
            await eve.until(lambda it: "followed" in it)
            self.assertEqual(await ann.set(use="orchard", long="x" * 3_000_000), "committed")
            change = (await eve.until(lambda it: "changed" in it))["changed"]
            self.assertEqual(change["objects"]["garden"]["object"]["attributes"]["use"], "orchard")
            with self.assertRaises(asyncio.TimeoutError):  # longer than the proxy waits: signs of life keep it open
                await asyncio.wait_for(ann.until(lambda it: False, 60), 7)
            self.assertEqual(await ann.set(use="meadow"), "committed")

    async def test_chromium(self):
        try:
            from live_windows import By, browser, until
        except SystemExit:
            self.skipTest("the page isn't opened")
        await asyncio.to_thread(self.look, By, browser, until)

    def look(self, By, browser, until):
        driver = browser(insecure=True)
        try:
            driver.get("%s/#token=%s" % (self.origin, self.run_.tokens["ann"]))
            until(lambda: driver.find_element(By.ID, "state").text == "live", 30)
            driver.execute_script("cityed.select('garden')")
            until(lambda: driver.find_elements(By.CSS_SELECTOR, "#object table"))
            driver.execute_script("cityed.app.edits.edit('garden', 'use', 'garden', 'orchard')")
            until(lambda: "orchard" in driver.find_element(By.ID, "history").text)
        finally:
            driver.quit()


def main():
    given = asked(__doc__)
    for needed, there in (("nginx", NGINX), ("openssl", shutil.which("openssl"))):
        if not there:
            sys.exit(print("skipped: %s is missing" % needed))
    unittest.main(argv=[sys.argv[0], *given.tests])


if __name__ == "__main__":
    main()
