// The history of this session: each commit, by whom, and what it changed.

import { same, dump } from "./json.js";
import { $, make, person, rgbOf, short } from "./parts.js";

const AT_ONCE = 20, SHOWN = 200;

// What is different between two states of an object.
export function differences(id, before, after) {
  if (!after) return [{ id, text: "removed", gone: true }];
  if (!before) return [{ id, text: "added" }];
  const out = [], [a, b] = [before.attributes ?? {}, after.attributes ?? {}];
  const value = (map, name) => map[name] === undefined ? [] : [map[name]];
  for (const name of new Set([...Object.keys(a), ...Object.keys(b)]))
    if (!same(value(a, name), value(b, name))) out.push({ id, name, old: a[name], now: b[name] });
  // positions may be numbered otherwise, so only a change of form is told
  const form = (it) => dump((it.geometry ?? []).map((g) => [g.type, g.lod, g.boundaries.length]));
  if (form(before) !== form(after)) out.push({ id, text: "new shape" });
  for (const list of ["parents", "children"])
    if (!same(before[list] ?? [], after[list] ?? []))
      out.push({ id, text: `${list}: ${(after[list] ?? []).join(", ") || "none"}` });
  return out;
}

export class History {
  constructor(go) {
    this.go = go;
    this.entries = []; this.more = 0; this.wrote = 0; this.writing = null;
  }

  // Adds an entry: { by, told, version, own, refused, undone }. Many at once are drawn together.
  add(entry) {
    this.entries.push({ ...entry, when: new Date() });
    if (this.entries.length > AT_ONCE) { this.entries.shift(); this.more++; }
    this.writing ??= setTimeout(() => this.flush(), Math.max(0, this.wrote + 300 - Date.now()));
  }

  flush() {
    this.writing = null;
    this.wrote = Date.now();
    if (this.more) $("history").prepend(make("li", {}, make("p", { textContent: `and ${this.more} more edits` })));
    this.more = 0;
    for (const entry of this.entries.splice(0)) this.write(entry);
    while ($("history").children.length > SHOWN) $("history").lastElementChild.remove();
  }

  write({ by, told, version, own, refused, undone, when }) {
    const lines = told.slice(0, 6).map((it) => this.line(it));
    if (told.length > 6) lines.push(make("p", { textContent: `and ${told.length - 6} more changes` }));
    if (!told.length) lines.push(make("p", { textContent: "nothing was changed" }));
    if (refused) lines.push(make("p", { textContent: refused }));
    const name = (own ? "you" : person(by)) + (undone ? ", undoing" : "");
    const who = make("span", { className: "who", textContent: name });
    who.style.setProperty("--who", `rgb(${rgbOf(person(by))})`);
    const clock = { hour: "2-digit", minute: "2-digit", second: "2-digit", hour12: false };
    const time = make("time", { dateTime: when.toISOString(), textContent: when.toLocaleTimeString([], clock) });
    time.title = version ? `version ${version}` : "";
    const kind = refused ? "refused" : told.some((it) => it.gone) ? "gone" : "";
    $("history").prepend(make("li", { className: kind }, who, time, ...lines));
  }

  line(it) {
    const shown = (value) => value === undefined ? make("s", { textContent: "nothing" }) : short(value);
    const line = make("p", {}, make("button", { textContent: it.id, onclick: () => this.go(it.id) }), " ");
    if (it.text) line.append(it.text);
    else line.append(`${it.name}: `, shown(it.old), " → ", shown(it.now));
    return line;
  }
}
