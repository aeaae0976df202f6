// Names of people beside what they have just changed, and the scale.

import { $, make, person, rgbOf } from "./parts.js";

const MOST = 40, SHOWN = 4000;  // names at once; milliseconds

export class Tags {
  // `app` has city and view
  constructor(app) {
    this.app = app;
    this.tags = new Map();
    setInterval(() => this.fade(), 200);
  }

  show(id, by) {
    let it = this.tags.get(id);
    if (!it) {
      if (this.tags.size >= MOST) return;
      this.tags.set(id, it = make("span"));
      $("tags").append(it);
      this.place();
    }
    if (it.textContent !== person(by)) {
      it.textContent = person(by);
      it.style.setProperty("--who", `rgb(${rgbOf(person(by))})`);
    }
    it.until = Date.now() + SHOWN;
  }

  fade() {
    for (const [id, it] of this.tags) {
      const left = it.until - Date.now();
      it.style.opacity = left < 800 ? 0 : 1;
      if (left <= 0) { it.remove(); this.tags.delete(id); }
    }
  }

  place() {
    const { city, view } = this.app;
    for (const [id, it] of this.tags) {
      const box = city?.boxOf(id);
      const at = box && view.screen([(box[0] + box[3]) / 2, (box[1] + box[4]) / 2, box[5]]);
      it.hidden = !at;
      if (at) { it.style.left = `${at[0]}px`; it.style.top = `${at[1]}px`; }
    }
    this.scale(view.metres());
  }

  scale(k) {
    if (k === this.k) return;
    this.k = k;
    $("scale").hidden = !k;
    if (!k) return;
    let m = 10 ** Math.floor(Math.log10(120 / k));
    for (const by of [5, 2]) if (m * by * k <= 130) { m *= by; break; }
    $("scale").firstElementChild.textContent = m >= 1000 ? `${m / 1000} km` : `${m} m`;
    $("scale").lastElementChild.style.width = `${m * k}px`;
  }
}
