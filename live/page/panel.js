// The panel of the selected object: its attributes, to be changed in place.

import { Num, dump, number, parse, same } from "./json.js";
import { key } from "./edits.js";
import { $, make, person, short, toast } from "./parts.js";

const FRESH = 4000, NOTED = 60000;  // milliseconds for which a change by another is marked, and told

const NUMBER = /^-?(0|[1-9][0-9]*)(\.[0-9]+)?([eE][+-]?[0-9]+)?$/;

// What was typed, as a value of the kind that stood there.
function valueOf(text, like) {
  if (typeof like === "string") return text;
  if (typeof like === "number" || like instanceof Num) {
    if (!NUMBER.test(text.trim())) throw new Error("Write a number, such as 3 or 2.50.");
    return number(text.trim());
  }
  if (like === undefined) {
    try { return parse(text); } catch { return text; }
  }
  try { return parse(text); } catch { throw new Error("Write a value of JSON: true, 3, \"text\" …"); }
}

export class Panel {
  // `app` has city, live, may, edits, selected, go(id), load(id), pickFile()
  constructor(app) {
    this.app = app;
    this.editing = { name: null, seen: undefined };
    this.painted = "";
    this.drawn = { id: null };
  }

  // Another object is selected: what is being typed is left.
  leave() {
    this.editing.name = null;
    this.painted = "";
    if ($("object").contains(document.activeElement)) document.activeElement.blur();
  }

  paint() {
    const { app } = this, panel = $("object"), id = app.selected, it = id && app.city?.get(id);
    if (!it) return this.paintNone(panel);
    if (!it.object) return this.paintWaiting(panel, it);
    if (panel.querySelector("tr.editing input") && panel.dataset.id === id) return this.note();
    const typed = panel.contains(document.activeElement) && document.activeElement.tagName === "INPUT";
    if (typed && panel.dataset.id === id) return;
    const { geometry, ...rest } = it.object, signature = this.signature(id, rest, geometry);
    if (signature === this.painted) return;  // a button that is pressed stays
    this.painted = signature;
    panel.dataset.id = id;
    this.paintTable(panel, it);
  }

  paintNone(panel) {
    this.painted = "";
    delete panel.dataset.id;
    const { app } = this, count = app.city?.objects.size.toLocaleString("en");
    const change = app.may === "edit" ? ", and click a value to change it" : "";
    const hint = app.city ? `Click one of the ${count} objects on the map to see its attributes${change}.` : "";
    panel.replaceChildren(make("h2", { textContent: "No object selected" }),
      make("p", { className: "hint", textContent: hint }));
  }

  paintWaiting(panel, it) {
    this.painted = "";
    panel.dataset.id = it.id;
    panel.replaceChildren(make("p", { className: "kind", textContent: it.type }), make("h2", { textContent: it.id }),
      make("p", { className: "hint", textContent: "is being fetched …" }));
  }

  signature(id, rest, geometry) {
    const { app } = this, own = (map) => [...map].filter(([at]) => at.startsWith(`${id}\n`));
    const mark = ([at, value]) => [at, value ?? "removed", value === undefined];
    return dump([id, rest, geometry?.length ?? 0, app.may, app.live.isLive, own(app.edits.pending).map(mark),
      own(app.edits.conflicts).map(([at, { mine }]) => mark([at, mine])),
      own(app.edits.touched).map(([at, { by, at: when }]) => [at, by, when])]);
  }

  paintTable(panel, it) {
    const { app, drawn } = this, { id, object } = it, attributes = object.attributes ?? {};
    const can = app.may === "edit" && app.live.isLive && typeof attributes === "object" && !Array.isArray(attributes);
    const rows = new Map(Object.entries(attributes));
    for (const map of [app.edits.pending, app.edits.conflicts])
      for (const at of map.keys()) {
        const name = at.slice(id.length + 1);
        if (at.startsWith(`${id}\n`) && !rows.has(name)) rows.set(name, undefined);
      }
    if (drawn.id !== id || drawn.can !== can) {
      Object.assign(drawn, { id, can, rows: new Map(), body: make("tbody"), adder: can ? [this.adder(id)] : [] });
      const caption = make("caption", { className: "unseen", textContent: `Attributes of ${id}` });
      drawn.table = make("table", {}, caption, drawn.body);
    }
    const wanted = [...rows].flatMap(([name, value]) => this.rowNodes(id, name, value, can));
    inOrder(drawn.body, [...wanted, ...drawn.adder]);
    const kind = make("p", { className: "kind", textContent: object.type });
    const head = [kind, make("h2", { textContent: id }), ...this.links(object)];
    const foot = this.foot(it, can);
    if (panel.contains(drawn.table)) {
      while (panel.firstChild !== drawn.table) panel.firstChild.remove();
      drawn.table.before(...head);
      while (drawn.table.nextSibling) drawn.table.nextSibling.remove();
      drawn.table.after(...foot);
    } else {
      panel.replaceChildren(...head, drawn.table, ...foot);
    }
  }

  links(object) {
    const words = { parents: "part of ", children: "parts: " };
    const link = (id) => make("button", { textContent: id, onclick: () => this.app.go(id) });
    return Object.keys(words).filter((list) => object[list]?.length).map((list) =>
      make("p", { className: "links" }, words[list], ...object[list].flatMap((id, k) => [k ? ", " : "", link(id)])));
  }

  foot(it, can) {
    const facts = [], box = this.app.city.boxOf(it.id);
    if (box && box[5] - box[2] > 0.05) facts.push(`${(box[5] - box[2]).toFixed(1)} m high`);
    if (it.object.geometry?.length) facts.push(it.object.geometry.map((g) => `${g.type} ${g.lod}`).join(", "));
    const foot = [make("p", { className: "facts", textContent: facts.join(" · ") })];
    const pick = { textContent: "New shape from a file …", onclick: () => this.app.pickFile(),
      title: "Or drop a CityJSON file on the object" };
    if (can) foot.push(make("p", { className: "shape" }, make("button", pick)));
    return foot;
  }

  // The rows of an attribute; they stay where nothing of them is new.
  rowNodes(id, name, value, can) {
    const { pending, conflicts, touched } = this.app.edits, at = key(id, name);
    const of = dump([[value ?? null], value === undefined, pending.has(at), [pending.get(at) ?? null],
      conflicts.has(at), [conflicts.get(at)?.mine ?? null], touched.get(at)?.by, touched.get(at)?.at]);
    if (this.drawn.rows.get(name)?.of !== of) this.drawn.rows.set(name, { of, nodes: this.row(id, name, value, can) });
    return this.drawn.rows.get(name).nodes;
  }

  row(id, name, value, can) {
    const { pending, conflicts, touched } = this.app.edits, at = key(id, name), wait = pending.has(at);
    const shown = wait ? pending.get(at) : value;
    const touch = touched.get(at), age = touch ? Date.now() - touch.at : Infinity;
    const button = make("button", { disabled: !can || wait, onclick: () => this.start(name, value) });
    button.title = can ? "Change it" : "";
    if (shown === undefined) button.append(make("span", { className: "unset", textContent: "removed" }));
    else button.textContent = typeof shown === "string" ? shown : dump(shown);
    if (shown !== null && typeof shown === "object" && !(shown instanceof Num)) button.classList.add("json");
    button.setAttribute("aria-label", `${name}: ${button.textContent}${can ? ", change" : ""}`);
    const cell = make("td", { className: "value" }, button);
    if (can && value !== undefined && !wait) {
      const remove = make("button", { className: "remove", textContent: "×", title: `Remove ${name}` });
      remove.onclick = () => this.app.edits.edit(id, name, value, undefined);
      remove.setAttribute("aria-label", `Remove ${name}`);
      cell.append(remove);
    }
    const kind = `${wait ? "pending" : ""} ${age < FRESH && !wait ? "fresh" : ""}`;
    const head = make("th", { className: "name", textContent: name, scope: "row" });
    const tr = make("tr", { className: kind }, head, cell);
    tr.dataset.name = name;
    const note = () => make("div", { className: "note", textContent: `changed by ${person(touch.by)}` });
    if (age < NOTED && !conflicts.has(at)) cell.append(note());
    return conflicts.has(at) ? [tr, make("tr", {}, this.conflict(id, name, value))] : [tr];
  }

  // Who made it what before, and what one can do.
  conflict(id, name, value) {
    const { edits } = this.app, at = key(id, name), { mine } = edits.conflicts.get(at), by = edits.touched.get(at)?.by;
    const keep = () => { edits.conflicts.delete(at); this.app.render(); };
    const text = make("p", {}, make("b", { textContent: by ? person(by) : "Somebody" }),
      value === undefined ? " removed it" : " made it ",
      value === undefined ? "" : make("b", { textContent: short(value) }), " before your ",
      make("b", { textContent: mine === undefined ? "removal" : short(mine) }), " arrived.");
    const box = make("div", { className: "conflict" }, text,
      make("button", { textContent: value === undefined ? "Leave it out" : `Keep ${short(value)}`, onclick: keep }),
      make("button", { textContent: mine === undefined ? "Remove it all the same" : `Set ${short(mine)} all the same`,
        onclick: () => edits.edit(id, name, value, mine) }));
    box.setAttribute("role", "alert");
    return make("td", { colSpan: 2 }, box);
  }

  rowOf(name) { return [...$("object").querySelectorAll("tr")].find((it) => it.dataset.name === name); }

  // Opens the editor of an attribute. A truth value is turned at once.
  start(name, value) {
    const id = this.app.selected;
    if (typeof value === "boolean") return this.app.edits.edit(id, name, value, !value);
    Object.assign(this.editing, { name, seen: value });
    const tr = this.rowOf(name);
    const text = typeof value === "string" ? value : dump(value);
    const input = make("input", { value: text, spellcheck: false, autocomplete: "off" });
    input.setAttribute("aria-label", name);
    let over = false;
    const end = (save) => {
      if (over) return;
      let made;
      if (save) {
        try { made = valueOf(input.value, value); } catch (error) {
          input.setCustomValidity(error.message);
          return void input.reportValidity();
        }
      }
      over = true;
      this.editing.name = null;
      this.painted = "";
      this.drawn.rows.delete(name);
      tr.classList.remove("editing");
      const focused = document.activeElement === input;
      input.remove();
      if (save && !same([made], [value])) this.app.edits.edit(id, name, value, made); else this.app.render();
      if (focused) setTimeout(() => this.rowOf(name)?.querySelector(".value > button")?.focus());
    };
    input.oninput = () => input.setCustomValidity("");
    input.onkeydown = (e) => {
      if (e.key === "Enter") end(true);
      else if (e.key === "Escape") { e.stopPropagation(); end(false); }
    };
    input.onblur = () => setTimeout(() => end(input.checkValidity()), 0);
    tr.classList.add("editing");
    tr.querySelector("td.value").replaceChildren(input);
    input.focus();
    input.select();
  }

  // While one types, others' changes of the same attribute are told beside it.
  note() {
    const { app } = this, tr = $("object").querySelector("tr.editing"), name = tr.dataset.name;
    const touch = app.edits.touched.get(key(app.selected, name));
    const value = app.city.get(app.selected).object.attributes?.[name];
    if (!touch || same([value ?? null], [this.editing.seen ?? null])) return;
    const cell = tr.querySelector("td.value");
    const note = tr.querySelector(".note") ?? cell.appendChild(make("div", { className: "note" }));
    note.setAttribute("role", "status");
    note.textContent = `${person(touch.by)} has just made it ${value === undefined ? "nothing" : short(value)}`;
  }

  adder(id) {
    const name = make("input", { placeholder: "new attribute", spellcheck: false, autocomplete: "off" });
    const value = make("input", { placeholder: "value", spellcheck: false, autocomplete: "off" });
    name.setAttribute("aria-label", "Name of a new attribute");
    value.setAttribute("aria-label", "Value of the new attribute");
    name.onkeydown = value.onkeydown = (e) => {
      if (e.key !== "Enter" || !name.value.trim()) return;
      if (e.target === name) return value.focus();
      const known = this.app.city.get(id).object.attributes?.[name.value.trim()];
      if (known !== undefined) return toast("There is such an attribute already.", true);
      this.painted = "";
      this.drawn.id = null;
      document.activeElement.blur();
      this.app.edits.edit(id, name.value.trim(), undefined, valueOf(value.value, undefined));
    };
    return make("tr", { className: "add" }, make("td", { className: "name" }, name),
      make("td", { className: "value" }, value));
  }
}

function inOrder(place, nodes) {
  for (const it of [...place.children]) if (!nodes.includes(it)) it.remove();
  nodes.forEach((it, k) => { if (place.children[k] !== it) place.insertBefore(it, place.children[k] ?? null); });
}
