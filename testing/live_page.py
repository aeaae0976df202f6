#!/usr/bin/env python3
"""Tries live/page in headless Chromium: two windows on one building, conflicts, undo, shapes, ends, keys, large models.

    python3 testing/live_page.py PROGRAM [--live WORDS] [--pictures FOLDER] [TEST ..]

WORDS start live editing, and are "PROGRAM --live" unless they are given. Needs python3-aiohttp, chromium,
chromium-driver and python3-selenium; without one it says which and ends with status 0. libjs-three is for 3D; without
it the plan alone is tried. Pictures of the page, in both schemes and in a wide and a narrow window, are left in FOLDER.
"""
import json
import os
import signal
import statistics
import sys
import tempfile
import time
import unittest
from pathlib import Path

from live_running import GIVEN, Running, asked, patience
from live_town import write_town
from live_windows import AXE, EDITS, HOUSE, PANS, PLACE, SHOWN, THREE, UNNAMED, UNREADABLE
from live_windows import By, Keys, Window, browser, until


class Pages(unittest.TestCase):
    across = 4

    @classmethod
    def setUpClass(cls):
        cls.folder = tempfile.TemporaryDirectory()
        cls.model = Path(cls.folder.name) / "town.city.json"
        cls.buildings = write_town(cls.model, cls.across)

    @classmethod
    def tearDownClass(cls):
        cls.folder.cleanup()

    def setUp(self):
        self.running, self.windows = Running(self.model, options=["--save-every", "0"], wait=60), []

    def tearDown(self):
        bad = [it for window in self.windows for it in window.close()]
        self.running.close()
        self.assertEqual(bad, [])

    def open(self, who, **more):
        self.windows.append(Window(self.running, who, **more))
        return self.windows[-1]


class Together(Pages):
    def test_two_edit_one_building(self):
        ann, ben = self.open("ann"), self.open("ben")
        until(lambda: len(ann.find("#people li")) == 2)
        for window in (ann, ben):
            window.select()
        before = ben.shown("storeys")
        ann.edit("storeys", "7")
        took = until(lambda: ben.shown("storeys") == "7")
        self.assertLess(took, patience(2))
        until(lambda: ben.texts("#tags span") == ["ann"])
        until(lambda: "storeys: %s → 7" % before in ben.past()[0] and "ann" in ben.past()[0])
        ben.edit("roof", "hip")
        back = until(lambda: ann.shown("roof") == "hip")
        self.assertLess(back, patience(2))
        print("seen after %.0f and %.0f ms, Selenium's own time included" % (took * 1000, back * 1000))

        ben.start("height", "9.20")  # both begin to edit the height; Ann is first
        ann.edit("height", "9.10")
        until(lambda: "ann has just made it 9.10" in ben.row("height").text)
        ben.row("height").find_element(By.CSS_SELECTOR, "input").send_keys(Keys.ENTER)
        until(lambda: ben.find(".conflict"))
        self.assertIn("ann made it 9.10 before your 9.20 arrived", ben.texts(".conflict")[0])
        until(lambda: "refused" in ben.past()[0])
        self.assertEqual(ann.shown("height"), "9.10")
        ben.picture("conflict")
        for window in (ann, ben):
            self.assertEqual(window.run(UNREADABLE), [])
        ben.find(".conflict button")[1].click()
        until(lambda: ann.shown("height") == "9.20")
        until(lambda: not ben.find(".conflict"))

        ann.driver.find_element(By.ID, "undo").click()  # Ann's last edit can't be undone any more, Ben's can
        until(lambda: any("Not undone" in it for it in ann.toasts()))
        self.assertEqual(ben.shown("height"), "9.20")
        ben.driver.find_element(By.ID, "undo").click()
        until(lambda: ann.shown("height") == "9.10" and ben.shown("height") == "9.10")

    def test_attributes_come_and_go(self):
        ann, ben = self.open("ann"), self.open("ben")
        for window in (ann, ben):
            window.select()
        boxes = ann.find("tr.add input")
        boxes[0].send_keys("note", Keys.ENTER)
        boxes[1].send_keys("0.250", Keys.ENTER)
        until(lambda: ben.shown("note") == "0.250")
        until(lambda: ann.find("tr[data-name=note]:not(.pending) .remove"))
        ann.run("document.querySelector('tr[data-name=note] .remove').click()")
        until(lambda: ben.shown("note") is None)
        until(lambda: ann.driver.find_element(By.ID, "undo").is_enabled())
        ann.driver.find_element(By.ID, "undo").click()
        until(lambda: ben.shown("note") == "0.250")
        before = ben.shown("storeys")
        ann.start("storeys", "many").send_keys(Keys.ENTER)  # a wrong number isn't sent
        time.sleep(0.3)
        self.assertEqual(ben.shown("storeys"), before)
        ann.row("storeys").find_element(By.CSS_SELECTOR, "input").send_keys(Keys.ESCAPE)
        was = ben.shown("inspected")
        ann.row("inspected").find_element(By.CSS_SELECTOR, ".value > button").click()
        until(lambda: ben.shown("inspected") == ("false" if was == "true" else "true"))
        ann.picture("history")

    def test_both_at_once(self):
        ann, ben = self.open("ann"), self.open("ben")
        for window in (ann, ben):
            window.select()
            window.run(EDITS)
        first = int(ann.shown("storeys"))
        for window in (ann, ben):
            window.run("edits(40, arguments[0])", HOUSE)
        until(lambda: ann.run("return window.ready") and ben.run("return window.ready"), 60)
        won = [window.run("return [won, lost]") for window in (ann, ben)]
        until(lambda: ann.shown("storeys") == ben.shown("storeys") == str(first + won[0][0] + won[1][0]))
        print("40 edits of each at once: done and refused", won)

    def test_who_only_watches(self):
        eve, ann = self.open("eve"), self.open("ann")
        eve.select()
        self.assertTrue(eve.driver.find_element(By.ID, "may").is_displayed())
        self.assertFalse(eve.find("tr.add, .remove, .shape"))
        self.assertTrue(all(not it.is_enabled() for it in eve.find(".value > button")))
        ann.select()
        ann.edit("storeys", "7")
        until(lambda: eve.shown("storeys") == "7")
        eve.run("cityed.app.edits.edit(arguments[0], 'storeys', 7, 8)", HOUSE)  # not even by hand
        until(lambda: any("may watch" in it for it in eve.toasts()))
        self.assertEqual(ann.shown("storeys"), "7")


class Ends(Pages):
    def test_engine_killed(self):
        ann, ben = self.open("ann"), self.open("ben")
        for window in (ann, ben):
            window.select()
        ann.edit("storeys", "4")
        until(lambda: ben.shown("storeys") == "4")
        started = time.monotonic()
        os.kill(self.running.engine_pid(), signal.SIGKILL)
        until(lambda: ann.state() != "live")
        until(lambda: ann.state() == "live" and ben.state() == "live", 20)
        print("live again %.1f s after the engine was killed" % (time.monotonic() - started))
        until(lambda: ben.shown("storeys") == "4")
        ben.edit("storeys", "5")
        until(lambda: ann.shown("storeys") == "5")

    def test_gateway_restarted(self):
        ann = self.open("ann")
        ann.select()
        ann.edit("storeys", "4")
        until(lambda: any("→ 4" in it for it in ann.past()))
        self.running.process.send_signal(signal.SIGTERM)
        self.running.process.wait(patience(30))
        until(lambda: "lost" in ann.state() or ann.state() == "connecting")
        self.running.start()
        until(lambda: ann.state() == "live", 30)
        until(lambda: ann.shown("storeys") == "4")
        ann.edit("roof", "dome")
        until(lambda: any("→ dome" in it for it in ann.past()))

    def test_unknown_token(self):
        driver = browser()
        try:
            driver.get("http://127.0.0.1:%d/#token=wrong" % self.running.port)
            until(lambda: driver.find_element(By.ID, "state").text == "unknown token")
            self.assertTrue(driver.find_element(By.ID, "veil").is_displayed())
        finally:
            driver.quit()


class Views(Pages):
    def test_click_search_and_keys(self):
        ann = self.open("ann")
        ann.settle()
        at = ann.run(PLACE, HOUSE)
        for kind in ("mousePressed", "mouseReleased"):
            mouse = {"type": kind, "x": at[0], "y": at[1], "button": "left", "clickCount": 1}
            ann.driver.execute_cdp_cmd("Input.dispatchMouseEvent", mouse)
        until(lambda: ann.title() == HOUSE)
        box = ann.driver.find_element(By.ID, "find-text")
        box.send_keys("par")
        until(lambda: ann.texts("#found li b") == ["park"])
        box.send_keys(Keys.ARROW_DOWN, Keys.ENTER)
        until(lambda: ann.title() == "park")
        plan = ann.driver.find_element(By.ID, "plan")
        plan.send_keys("n")
        until(lambda: ann.title() == "plot-0-0")
        plan.send_keys("p")
        until(lambda: ann.title() == "park")
        x, k = ann.run("return [cityed.app.plan.x, cityed.app.plan.k]")
        plan.send_keys(Keys.ARROW_RIGHT, "+")
        until(lambda: ann.run("return cityed.app.plan.x") > x and ann.run("return cityed.app.plan.k") > k)
        plan.send_keys(Keys.ESCAPE)
        until(lambda: ann.title() == "No object selected")
        ann.run("cityed.go(arguments[0])", HOUSE)
        plan.send_keys(Keys.ENTER)
        until(lambda: ann.title() == HOUSE)

    def test_parts(self):
        ann = self.open("ann")
        whole = ann.run("return [...cityed.app.city.below.keys()][0]")
        ann.select(whole)
        part = ann.texts(".links button")[0]
        ann.find(".links button")[0].click()
        until(lambda: ann.title() == part)
        self.assertEqual(ann.texts(".links button"), [whole])

    def test_pictures(self):
        """Both schemes, wide and narrow; nothing is wider than its window, and text is readable on its ground."""
        for size, dark in (("1360,820", False), ("1360,820", True), ("520,900", False), ("520,900", True)):
            name = "%s-%s" % ("narrow" if size < "5300" and size[0] == "5" else "wide", "dark" if dark else "light")
            ann = self.open("ann", size=size, dark=dark)
            ann.settle()
            ann.picture("plan-" + name)
            ann.run("cityed.go(arguments[0])", HOUSE)
            until(lambda: ann.find("#object table"))
            ann.settle()
            ann.picture("object-" + name)
            wide = ann.run("return [document.documentElement.scrollWidth, innerWidth]")
            self.assertLessEqual(wide[0], wide[1])
            self.assertEqual(ann.run(UNREADABLE), [])
            self.assertEqual(ann.run(UNNAMED), [])
            if os.path.exists(AXE):
                ann.run(Path(AXE).read_text())
                script = "axe.run().then(r => arguments[0](r.violations.map(v => v.id)))"
                found = ann.driver.execute_async_script(script)
                self.assertEqual(found, [])
            if os.path.exists(THREE):
                ann.driver.find_element(By.ID, "to-solid").click()
                until(lambda: ann.run("return cityed.app.solid?.shapes.size > 5"), 60)
                time.sleep(1)
                ann.picture("solid-" + name)
        if not os.path.exists(AXE):
            print("axe-core isn't there; names of controls and contrast were looked at by this trial's own rules")

    def test_shapes(self):
        ann, ben = self.open("ann"), self.open("ben")
        for window in (ann, ben):
            window.select()
        shapes = self.shapes()
        took = "cityed.takeFile(new File([arguments[0]], 'x.city.json'), arguments[1])"
        ann.run(took, shapes["open"], HOUSE)
        until(lambda: any("shell is open" in it for it in ann.toasts()))
        if os.path.exists(THREE):
            until(lambda: ann.run("return cityed.app.solid?.open !== null && cityed.app.view === cityed.app.solid"), 60)
            time.sleep(1)
            ann.picture("open-shell")
        box = ben.run("return cityed.app.city.get(arguments[0]).box", HOUSE)
        ann.run(took, shapes["good"], HOUSE)
        until(lambda: ben.run("return cityed.app.city.get(arguments[0]).box", HOUSE)[5] == 20, 20)
        until(lambda: ann.driver.find_element(By.ID, "undo").is_enabled())
        ann.driver.find_element(By.ID, "undo").click()
        until(lambda: ben.run("return cityed.app.city.get(arguments[0]).box", HOUSE) == box)
        ann.run(took, "{}", HOUSE)
        until(lambda: any("isn't a CityJSON model" in it for it in ann.toasts()))

    def shapes(self):
        """A file with a taller house, and one whose roof is missing; in centimetres, with a corner of their own."""
        model = json.loads(self.model.read_text())
        low = [model["vertices"][n] for n in model["CityObjects"][HOUSE]["geometry"][0]["boundaries"][0][0][0]][::-1]
        points = [[p[0] / 10, p[1] / 10, z] for z in (0, 2000) for p in low]
        faces = [[3, 2, 1, 0], [4, 5, 6, 7], [0, 1, 5, 4], [1, 2, 6, 5], [2, 3, 7, 6], [3, 0, 4, 7]]

        def file(faces):
            solid = {"type": "Solid", "lod": "2.2", "boundaries": [[[face] for face in faces]]}
            return json.dumps({"type": "CityJSON", "version": "2.0",
                               "transform": {**model["transform"], "scale": [0.01] * 3},
                               "CityObjects": {"new": {"type": "Building", "geometry": [solid]}},
                               "vertices": [[round(n) for n in point] for point in points]})
        return {"good": file(faces), "open": file(faces[:1] + faces[2:])}


class Large(Pages):
    """20,000 buildings, and a model of 60 MB."""
    across = 64

    def test_large(self):
        size, started = self.model.stat().st_size / 1e6, time.monotonic()
        window = self.open("ann", wait=180)
        print("%.0f MB, %d buildings: live after %.1f s" % (size, self.buildings, time.monotonic() - started))
        window.settle()
        window.picture("large")
        window.run("cityed.go('house-30-30-01')")
        until(lambda: window.find("#object table"), 30)
        until(lambda: window.run("const {city, plan} = cityed.app; "
                                 "return [...city.within(...plan.seen())].every((it) => it.object)"), 30)
        for name, metres in (("20,000", 20_000), ("2,000", 2_000)):
            share = (metres / self.buildings) ** 0.5
            window.driver.execute_async_script(SHOWN, share)
            times = window.driver.execute_async_script(PANS)
            middle, most, load = statistics.median(times), sorted(times)[int(len(times) * 0.95)], os.getloadavg()[0]
            print("panning over about %s buildings: script time of a frame p50 %.1f ms, p95 %.1f, longest %.1f, with a "
                  "load of %.1f" % (name, middle, most, max(times), load))
            if load < os.cpu_count():
                self.assertLessEqual(most, 12)
        window.picture("large-panned")
        window.run("cityed.app.city.forget(0, new Set())")  # what is left is fetched again where it is wanted
        self.assertEqual(window.run("return cityed.app.city.loaded"), 0)
        window.run("cityed.go('house-20-20-01')")
        until(lambda: window.find("#object table") and window.title() == "house-20-20-01", 30)


def main():
    given = asked(__doc__, pictures="FOLDER")
    GIVEN.pictures = given.pictures
    if not os.path.exists(THREE):
        print("libjs-three is missing: the plan alone is tried")
    unittest.main(argv=[sys.argv[0], *given.tests])


if __name__ == "__main__":
    main()
