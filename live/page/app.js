// The page: what is selected, what is in view, who is here, and what others do.

import { City } from "./city.js";
import { Edits, key } from "./edits.js";
import { Find } from "./find.js";
import { History, differences } from "./history.js";
import { Live } from "./live.js";
import { Panel } from "./panel.js";
import { $, make, person, rgbOf, say, toast } from "./parts.js";
import { Plan } from "./plan.js";
import { shapeOf } from "./shape_file.js";
import { Tags } from "./tags.js";

const AT_ONCE = 150;  // objects of one request for shapes
const MOST_SHAPES = 6000;  // objects in view for which shapes are asked
const KEPT_SHAPES = 25000;  // shapes that are kept, in view or not

const app = {
  city: null, live: null, me: null, hand: "", may: "watch", selected: null, view: null, solid: null,
  render, go, showOpen, pickFile: () => $("file").click(),
};
app.history = new History(go);
app.edits = new Edits(app);
app.panel = new Panel(app);
app.find = new Find(app);
const hooks = { pick: (id) => select(id), moved: () => tags.place(), wanted: () => fetchSoon() };
const plan = app.plan = app.view = new Plan($("plan"), hooks);
const tags = new Tags(app);
const views = (call) => { for (const it of [plan, app.solid]) if (it) call(it); };

// ---- views

async function show(which) {
  if (which === "solid" && !app.solid) {
    try {
      const { Solid } = await import("./solid.js");
      app.solid = new Solid($("solid"), hooks);
      $("solid").hidden = false;
      app.solid.reset(app.city);
      const box = app.selected && app.city.boxOf(app.selected);
      app.solid.fit(box ? roomy(box) : app.city.box());
      app.solid.select(app.selected ? app.city.family(app.selected) : []);
    } catch (error) {
      console.warn(error);
      $("to-solid").disabled = true;
      return toast("There is no 3D here: three.js or WebGL is missing.", true);
    }
  }
  const to3d = which === "solid";
  $("solid").hidden = !to3d;
  $("plan").hidden = to3d;
  $("to-plan").setAttribute("aria-pressed", !to3d);
  $("to-solid").setAttribute("aria-pressed", to3d);
  app.view = to3d ? app.solid : plan;
  if (to3d) app.solid.gather();
  app.view.draw();
}
$("to-plan").onclick = () => show("plan");
$("to-solid").onclick = () => app.city && show("solid");
$("closer").onclick = () => app.view.zoom(1.5);
$("farther").onclick = () => app.view.zoom(1 / 1.5);
$("all").onclick = () => app.city && app.view.fit(app.city.box());
$("to-object").onclick = () => beside("object");
$("to-past").onclick = () => beside("past");

// In a narrow window one of the two parts beside the map is shown.
function beside(which) {
  document.body.dataset.beside = which;
  $("to-object").setAttribute("aria-pressed", which === "object");
  $("to-past").setAttribute("aria-pressed", which === "past");
}

function roomy([x0, y0, z0, x1, y1, z1]) {
  const room = Math.max(x1 - x0, y1 - y0, 10) * 1.5;
  return [x0 - room, y0 - room, z0, x1 + room, y1 + room, z1];
}

// Edges where a shell is open, in red; in 3D, where there is one.
async function showOpen(lines) {
  if (lines.length) await show("solid");
  views((it) => it.showOpen(lines));
}

// ---- shapes of what is in view

let fetching = 0, fetchTimer = null;
const asked = new Set();

function fetchSoon() { fetchTimer ??= setTimeout(() => { fetchTimer = null; fetchShapes(); }, 80); }

function wantedIds() {
  const { city } = app, ids = [];
  if (app.selected) for (const id of city.family(app.selected)) if (city.get(id) && !city.get(id).object) ids.push(id);
  if (app.view === plan) {
    const [x0, y0, x1, y1] = plan.seen(), inView = city.within(x0, y0, x1, y1);
    if (inView.size <= MOST_SHAPES) for (const it of inView) if (!it.object) ids.push(it.id);
  } else {
    for (const id of app.solid.near) if (!city.get(id)?.object) ids.push(id);
  }
  return ids.filter((id) => !asked.has(id));
}

async function fetchShapes() {
  if (!app.city || !app.live.isLive || fetching >= 2) return;
  const ids = wantedIds().slice(0, AT_ONCE);
  if (!ids.length) return;
  const { city } = app;
  fetching++;
  for (const id of ids) asked.add(id);
  try {
    const answer = await app.live.ask({ look: ids });
    const looked = city === app.city ? Object.entries(answer.look ?? {}) : [];
    for (const [id, found] of looked) if (found) arrived(id, found, answer.version);
  } catch { /* the connection went; it asks again once it is back */ } finally {
    fetching--;
    for (const id of ids) asked.delete(id);
  }
  if (city === app.city) city.forget(KEPT_SHAPES, kept());
  render();
  fetchShapes();
}

// What is in view or selected, whose shapes stay.
function kept() {
  const [x0, y0, x1, y1] = plan.seen(), ids = new Set(app.solid?.near ?? []);
  for (const it of app.city.within(x0, y0, x1, y1)) ids.add(it.id);
  for (const id of app.selected ? app.city.family(app.selected) : []) ids.add(id);
  return ids;
}

function arrived(id, found, version) {
  const it = app.city.get(id);
  if (!it || it.object && it.version >= version) return;
  const before = it.box;
  if (app.city.set(id, found.object, found.vertices, version)) views((view) => view.update(id, before));
}

// ---- the connection

const STATES = {
  connecting: ["wait", "connecting"], live: ["live", "live"], lost: ["wait", "connection lost, trying again"],
  engine: ["wait", "the engine is restarting"], unknown: ["off", "unknown token"],
};

function state(name) {
  const [kind, text] = STATES[name];
  $("state").dataset.state = kind;
  $("state").textContent = text;
  const help = "This page needs an address with a token, which the keeper of the city can give you: #token=…";
  if (name === "unknown") veil(help);
  else if (name === "live" || app.city) veil(null);
  document.body.classList.toggle("off", name !== "live");
  if (name !== "live") app.edits.pending.clear();
  else fetchSoon();
  render();
}

function veil(text) {
  $("veil").hidden = !text;
  $("veil").firstElementChild.textContent = text ?? "";
}

function hello({ user, hand, may }) {
  Object.assign(app, { me: user, hand, may });
  $("may").hidden = may === "edit";
  document.body.classList.toggle("watching", may === "watch");
}

function people(names) {
  $("people").replaceChildren(...names.map((name) => {
    const it = make("li", { textContent: name, className: name === app.me ? "me" : "" });
    it.style.setProperty("--who", `rgb(${rgbOf(name)})`);
    return it;
  }));
}

function came(tree, version) {
  const first = !app.city;
  app.city = new City(tree, version);
  asked.clear();
  document.title = $("title").textContent = app.city.title || "cityed";
  views((it) => it.reset(app.city));
  if (first) plan.fit(app.city.box());
  select(app.selected && app.city.get(app.selected) ? app.selected : null);
  fetchSoon();
}

// A commit, by whomever.
function changed({ by, name, objects, version }) {
  const told = [], own = by.split("/")[0] === app.hand, { city, edits } = app;
  for (const [id, found] of Object.entries(objects)) {
    const before = city.get(id), was = before?.box;
    const unknown = before && !before.object && found;
    told.push(...unknown ? [{ id, text: "changed" }] : differences(id, before?.object, found?.object ?? null));
    const touched = own ? [] : told.filter((it) => it.id === id && it.name !== undefined);
    for (const it of touched) edits.touched.set(key(id, it.name), { by, at: Date.now() });
    if (!found) {
      city.take(id);
      views((it) => it.update(id, was));
      continue;
    }
    if (city.set(id, found.object, found.vertices, version)) views((it) => it.update(id, was));
    if (!own) {
      for (const one of city.family(id)) views((it) => it.flash(one, rgbOf(person(by))));
      tags.show(id, by);
      if (id === app.selected) say(`${person(by)} has changed ${id}`);
    }
  }
  app.history.add({ by, told, version, own, undone: name?.startsWith("undo ") });
  render();
}

// ---- the selection

function select(id) {
  app.selected = id;
  app.panel.leave();
  if (app.city) views((it) => it.select(id ? app.city.family(id) : []));
  if (id) { fetchSoon(); say(`${id} is selected`); }
  render();
}

function go(id) {
  if (!app.city.get(id)) return toast(`${id} isn't there any more.`);
  select(id);
  const box = app.city.boxOf(id);
  if (box) app.view.fit(roomy(box));
}

// The next object by name, or the one before.
function step(by) {
  const ids = [...app.city.objects.keys()].sort(), at = ids.indexOf(app.selected);
  if (ids.length) go(ids[((at < 0 && by < 0 ? 0 : at) + by + ids.length) % ids.length]);
}

// Once for all that came in one message.
let rendering = false;
function render() {
  if (rendering) return;
  rendering = true;
  queueMicrotask(() => {
    rendering = false;
    $("undo").disabled = !app.edits.mine.length || app.may !== "edit" || !app.live?.isLive;
    app.panel.paint();
  });
}

// ---- keys, and files

$("undo").onclick = () => app.edits.undo();
addEventListener("keydown", (e) => {
  const typing = /INPUT|TEXTAREA/.test(document.activeElement.tagName);
  if ((e.ctrlKey || e.metaKey) && e.key === "z" && !typing) { e.preventDefault(); app.edits.undo(); }
  else if (e.key === "Escape" && !typing && app.selected) select(null);
  else if (e.key === "/" && !typing) { e.preventDefault(); $("find-text").focus(); }
});
const KEYS = {
  ArrowLeft: () => app.view.pan(-80, 0), ArrowRight: () => app.view.pan(80, 0),
  ArrowUp: () => app.view.pan(0, 80), ArrowDown: () => app.view.pan(0, -80),
  "+": () => app.view.zoom(1.5), "=": () => app.view.zoom(1.5), "-": () => app.view.zoom(1 / 1.5),
  0: () => app.view.fit(app.city.box()),
  Enter: () => app.view === plan && select(plan.hit([plan.canvas.clientWidth / 2, plan.canvas.clientHeight / 2])),
  n: () => step(1), p: () => step(-1),
};
$("map").addEventListener("keydown", (e) => {
  if (!app.city || e.ctrlKey || e.metaKey || e.altKey || !KEYS[e.key] || e.target.tagName === "BUTTON") return;
  e.preventDefault();
  KEYS[e.key]();
});

async function takeFile(file, id) {
  if (!file || !id) return;
  if (app.may !== "edit") return toast("You may watch, but not edit.", true);
  try {
    const { geometry, vertices } = shapeOf(await file.text(), id, app.city);
    await app.edits.reshape(id, geometry, vertices);
  } catch (error) {
    toast(error.message, true);
  }
}
$("file").onchange = () => { takeFile($("file").files[0], app.selected); $("file").value = ""; };
addEventListener("dragover", (e) => e.preventDefault());
addEventListener("drop", (e) => {
  e.preventDefault();
  const frame = $("plan").getBoundingClientRect(), file = e.dataTransfer.files[0];
  const at = [e.clientX - frame.left, e.clientY - frame.top];
  const under = app.view === plan && e.target === $("plan") ? plan.hit(at) : null;
  const id = under ?? app.selected;
  if (!id) return toast("Drop the file on an object.", true);
  if (id !== app.selected) select(id);
  takeFile(file, id);
});

// ---- the start

const given = new URLSearchParams(location.hash.slice(1)).get("token");
if (given) { sessionStorage.setItem("token", given); history.replaceState(null, "", location.pathname); }
veil("Loading the city …");
beside("object");
app.live = new Live(given ?? sessionStorage.getItem("token") ?? "", {
  state: (name) => setTimeout(() => state(name)), hello, people, city: came, change: changed,
});
window.cityed = { app, select, go, takeFile };  // for the trials, and the curious
