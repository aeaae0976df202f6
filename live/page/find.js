// The search: ids, types, and attributes of what has been looked at.

import { dump } from "./json.js";
import { $, make, toast } from "./parts.js";

const MOST = 8;

export class Find {
  // `app` has city and go(id)
  constructor(app) {
    this.app = app;
    this.at = -1;
    const input = $("find-text");
    input.oninput = () => this.look();
    input.onkeydown = (e) => this.key(e);
    input.onblur = () => setTimeout(() => this.close(), 150);
    $("find").onsubmit = (e) => { e.preventDefault(); this.take(this.found?.[Math.max(0, this.at)]); };
  }

  // The first objects that have the text: those whose id begins with it, then others.
  matches(text) {
    const wanted = text.trim().toLowerCase(), first = [], later = [];
    if (!wanted) return [];
    for (const { id, type, object } of this.app.city?.objects.values() ?? []) {
      const name = id.toLowerCase();
      if (name.startsWith(wanted)) first.push({ id, why: type });
      else if (later.length >= MOST) continue;
      else if (name.includes(wanted)) later.push({ id, why: type });
      else if (object?.attributes) {
        const has = ([, it]) => String(typeof it === "object" ? dump(it) : it).toLowerCase().includes(wanted);
        const hit = Object.entries(object.attributes).find(has);
        if (hit) later.push({ id, why: `${hit[0]}: ${typeof hit[1] === "string" ? hit[1] : dump(hit[1])}` });
      }
      if (first.length >= MOST) break;
    }
    first.sort((a, b) => a.id.length - b.id.length);
    return [...first, ...later].slice(0, MOST);
  }

  look() {
    this.found = this.matches($("find-text").value);
    this.at = -1;
    $("found").replaceChildren(...this.found.map(({ id, why }, k) => {
      const take = (e) => { e.preventDefault(); this.take(this.found[k]); };
      const it = make("li", { id: `found-${k}`, onpointerdown: take },
        make("b", { textContent: id }), make("span", { textContent: why }));
      it.setAttribute("role", "option");
      return it;
    }));
    this.mark();
  }

  mark() {
    const open = !!this.found?.length;
    $("found").hidden = !open;
    $("find-text").setAttribute("aria-expanded", open);
    [...$("found").children].forEach((it, k) => it.setAttribute("aria-selected", k === this.at));
    if (this.at >= 0) $("find-text").setAttribute("aria-activedescendant", `found-${this.at}`);
    else $("find-text").removeAttribute("aria-activedescendant");
  }

  key(e) {
    if (e.key === "Escape") return this.close();
    if (e.key !== "ArrowDown" && e.key !== "ArrowUp" || !this.found?.length) return;
    e.preventDefault();
    const step = e.key === "ArrowDown" ? 1 : this.at < 0 ? 0 : -1;
    this.at = (this.at + step + this.found.length) % this.found.length;
    this.mark();
  }

  take(one) {
    const text = $("find-text").value.trim();
    const exact = this.app.city?.get(text) ? text : one?.id ?? this.matches(text)[0]?.id;
    this.close();
    if (exact !== undefined) this.app.go(exact);
    else if (text) toast(`No object is called ${text}.`);
  }

  close() {
    this.found = [];
    this.mark();
  }
}
