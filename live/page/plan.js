// The city from above, on a canvas. It is drawn in tiles, as maps are: moving it draws pictures that are there already.

import { LAYERS, colour, scheme } from "./shapes.js";

const SUN = [-0.45, 0.35, 0.82];
const SIDE = 256;  // pixels of a tile
const BUDGET = 5;  // milliseconds of a frame for tiles that are missing
const KEPT = 160;  // tiles
const FINE = 2.5;  // pixels from which an object is drawn by its faces, and not by its box

export class Plan {
  constructor(canvas, { pick, moved, wanted }) {
    Object.assign(this, { canvas, pick, moved, wanted });
    this.marks = new Map(); this.selected = []; this.over = null; this.lines = [];
    this.tiles = new Map(); this.jobs = new Map(); this.times = [];
    this.x = 0; this.y = 0; this.k = 4;  // the point in the middle, and pixels for a metre
    this.listen();
    new ResizeObserver(() => this.draw()).observe(canvas);
    scheme.addEventListener("change", () => this.forget());
  }

  reset(city) {
    this.city = city;
    this.forget();
  }

  forget() {
    for (const it of this.city?.objects.values() ?? []) it.drawn = null;
    this.tiles.clear(); this.jobs.clear();
    this.draw();
  }

  // What is drawn of an object: paths with colours, and how high it lies.
  drawn(it) {
    if (it.drawn) return it.drawn;
    const layer = LAYERS.indexOf(it.type), round = it.type === "SolitaryVegetationObject", paths = [];
    for (const face of it.faces ?? []) {
      if (face.normal[2] <= 0.02 && !it.flat) continue;
      const n = face.normal[2] < 0 ? [0, 0, 1] : face.normal;
      const light = it.flat ? 1 : 0.62 + 0.4 * Math.max(0, n[0] * SUN[0] + n[1] * SUN[1] + n[2] * SUN[2]);
      const path = new Path2D();
      for (const ring of face.rings) {
        ring.forEach((p, k) => k ? path.lineTo(p[0], p[1]) : path.moveTo(p[0], p[1]));
        path.closePath();
      }
      const z = Math.max(...face.rings[0].map((p) => p[2]));
      paths.push({ path, z, fill: rgb(colour(it.type, face, it.flat), light) });
    }
    paths.sort((a, b) => a.z - b.z);
    it.at = layer >= 0 ? layer - 1000 : it.box[5];
    const line = scheme.matches ? "rgba(0,0,0,.6)" : "rgba(70,50,40,.55)";
    return it.drawn = { paths, line: layer >= 0 || round ? null : line };
  }

  // ---- tiles

  // Tiles of level z have 2^z pixels for a metre.
  level() { return Math.round(Math.log2(this.k * this.ratio())); }

  ratio() { return devicePixelRatio || 1; }

  tileBox(z, x, y) {
    const m = SIDE / 2 ** z;
    return [x * m, y * m, 0, (x + 1) * m, (y + 1) * m, 0];
  }

  // Draws a piece of a tile, and says whether it is whole.
  work(job, until) {
    if (!job.items) {
      job.items = [...this.city.within(job.box[0], job.box[1], job.box[3], job.box[4])];
      for (const it of job.items) if (it.at === undefined || it.faces) this.heightOf(it);
      job.items.sort((a, b) => a.at - b.at);
      const canvas = job.canvas = document.createElement("canvas");
      canvas.width = canvas.height = SIDE;
      const g = job.g = canvas.getContext("2d"), s = 2 ** job.z;
      g.setTransform(s, 0, 0, -s, -job.box[0] * s, job.box[4] * s);
      job.next = 0;
    }
    const { g, items } = job, s = 2 ** job.z;
    while (job.next < items.length) {
      this.paintObject(g, items[job.next++], s);
      if (job.next % 16 === 0 && performance.now() > until) return job.next >= items.length;
    }
    return true;
  }

  heightOf(it) {
    const layer = LAYERS.indexOf(it.type);
    it.at = layer >= 0 ? layer - 1000 : it.box[5];
  }

  paintObject(g, it, s) {
    const [x0, y0, , x1, y1] = it.box;
    if (it.faces && Math.max(x1 - x0, y1 - y0) * s >= FINE) {
      const { paths, line } = this.drawn(it);
      g.lineWidth = 0.8 / s;
      for (const { path, fill } of paths) {
        g.fillStyle = fill;
        g.fill(path, "evenodd");
        if (line && s > 0.8) { g.strokeStyle = line; g.stroke(path); }
      }
    } else {
      g.fillStyle = it.plain ??= rgb(colour(it.type, { normal: [0, 0, 1], type: "" }, LAYERS.includes(it.type)), 1);
      g.globalAlpha = it.faces ? 1 : 0.7;
      g.fillRect(x0, y0, Math.max(x1 - x0, 1 / s), Math.max(y1 - y0, 1 / s));
      g.globalAlpha = 1;
    }
  }

  // The picture of a tile, or of a coarser one; asks for what is missing.
  tile(z, x, y) {
    const key = `${z} ${x} ${y}`, found = this.tiles.get(key);
    if (!found || found.stale) {
      if (!this.jobs.has(key)) this.jobs.set(key, { key, z, x, y, box: this.tileBox(z, x, y) });
      this.jobs.get(key).frame = this.frame;
    }
    if (found) found.frame = this.frame;
    return found;
  }

  finish() {
    const until = performance.now() + BUDGET;
    let made = 0;
    for (const [key, job] of this.jobs) {
      if (job.frame !== this.frame) { this.jobs.delete(key); continue; }  // out of view
      if (!this.work(job, until)) break;
      this.jobs.delete(key);
      made++;
      this.tiles.set(key, { canvas: job.canvas, frame: this.frame, z: job.z, x: job.x, y: job.y });
      if (performance.now() > until) break;
    }
    if (this.tiles.size > KEPT)
      for (const [key, it] of this.tiles)
        if (it.frame < this.frame - 30 && this.tiles.size > KEPT) this.tiles.delete(key);
    if (made || this.jobs.size) this.draw();
  }

  // What lies in a box has changed.
  spoil(box) {
    if (!box) return;
    const meets = (b) => b[0] <= box[3] && b[3] >= box[0] && b[1] <= box[4] && b[4] >= box[1];
    for (const [key, it] of this.tiles) if (meets(this.tileBox(it.z, it.x, it.y))) it.stale = true;
    for (const [key, job] of this.jobs) if (meets(job.box)) this.jobs.delete(key);
    this.draw();
  }

  update(id, before) {
    this.spoil(before);
    this.spoil(this.city.get(id)?.box);
  }

  select(ids) { this.selected = ids; this.draw(); }

  // A colour for an object for a while: `strength` of a mark falls from 1 to 0.
  flash(id, rgb) {
    this.marks.set(id, { rgb, until: performance.now() + 4000 });
    this.draw();
  }

  showOpen(lines) { this.lines = lines; this.draw(); }

  // ---- the view

  fit([x0, y0, , x1, y1], room = 0.92) {
    const { clientWidth: w, clientHeight: h } = this.canvas;
    [this.x, this.y] = [(x0 + x1) / 2, (y0 + y1) / 2];
    this.k = Math.min(400, (w || 800) / Math.max(x1 - x0, 8) * room, (h || 600) / Math.max(y1 - y0, 8) * room);
    this.draw();
  }

  zoom(by, at = [this.canvas.clientWidth / 2, this.canvas.clientHeight / 2]) {
    const before = this.ground(at);
    this.k = Math.min(400, Math.max(0.005, this.k * by));
    const after = this.ground(at);
    this.x += before[0] - after[0]; this.y += before[1] - after[1];
    this.draw();
  }

  pan(dx, dy) { this.x += dx / this.k; this.y += dy / this.k; this.draw(); }

  ground([px, py]) {
    const { clientWidth: w, clientHeight: h } = this.canvas;
    return [this.x + (px - w / 2) / this.k, this.y - (py - h / 2) / this.k];
  }

  screen([x, y]) {
    return [(x - this.x) * this.k + this.canvas.clientWidth / 2, -(y - this.y) * this.k + this.canvas.clientHeight / 2];
  }

  metres() { return this.k; }

  seen() {
    const { clientWidth: w, clientHeight: h } = this.canvas;
    const [x0, y1] = this.ground([0, 0]), [x1, y0] = this.ground([w, h]);
    return [x0, y0, x1, y1];
  }

  draw() {
    if (this.drawing || this.canvas.hidden) return;
    this.drawing = requestAnimationFrame((now) => {
      this.drawing = null;
      const started = performance.now();
      this.paint(now);
      if (this.times.push(performance.now() - started) > 2000) this.times.shift();
    });
  }

  paint(now) {
    const { canvas } = this, ratio = this.ratio(), [w, h] = [canvas.clientWidth, canvas.clientHeight];
    if (!this.city || !w || !h) return;
    if (canvas.width !== Math.round(w * ratio) || canvas.height !== Math.round(h * ratio)) {
      canvas.width = Math.round(w * ratio); canvas.height = Math.round(h * ratio);
    }
    this.frame = (this.frame ?? 0) + 1;
    const g = this.g ??= canvas.getContext("2d"), s = this.k * ratio;
    g.setTransform(1, 0, 0, 1, 0, 0);
    g.fillStyle = scheme.matches ? "#1c1f22" : "#eeede8";
    g.fillRect(0, 0, canvas.width, canvas.height);
    const place = (x, y) => [canvas.width / 2 + (x - this.x) * s, canvas.height / 2 - (y - this.y) * s];
    this.paintTiles(g, place, s);
    g.setTransform(s, 0, 0, -s, canvas.width / 2 - this.x * s, canvas.height / 2 + this.y * s);
    const more = this.paintMarks(g, now);
    this.finish();
    this.moved();
    this.wanted?.();
    if (more) this.fading ??= setTimeout(() => { this.fading = null; this.draw(); }, 60);
  }

  paintTiles(g, place, s) {
    const z = this.level(), m = SIDE / 2 ** z, [x0, y0, x1, y1] = this.seen();
    const missing = [], there = [];
    for (let x = Math.floor(x0 / m); x <= Math.floor(x1 / m); x++)
      for (let y = Math.floor(y0 / m); y <= Math.floor(y1 / m); y++) {
        const found = this.tile(z, x, y);
        if (found) there.push(found); else missing.push([x * m, y * m, (x + 1) * m, (y + 1) * m]);
      }
    const put = (it) => {
      const box = this.tileBox(it.z, it.x, it.y);
      const [left, top] = place(box[0], box[4]), [right, bottom] = place(box[3], box[1]);
      const [l, t] = [Math.round(left), Math.round(top)];
      g.drawImage(it.canvas, l, t, Math.round(right) - l, Math.round(bottom) - t);
    };
    if (missing.length)  // tiles of other levels, until it has its own
      for (const it of this.others(z)) {
        const box = this.tileBox(it.z, it.x, it.y);
        if (missing.some((b) => b[0] < box[3] && b[2] > box[0] && b[1] < box[4] && b[3] > box[1])) put(it);
      }
    for (const it of there) put(it);
  }

  // The tiles of other levels that are there, coarse ones first.
  others(z) {
    const near = [...this.tiles.values()].filter((it) => it.z !== z && it.z > z - 4 && it.z < z + 2);
    return near.sort((a, b) => a.z - b.z);
  }

  // What is selected, under the pointer, or just changed by somebody; whether a mark still fades.
  paintMarks(g, now) {
    const over = (id, fill, line, width) => {
      const it = this.city.get(id);
      if (!it?.box) return;
      let paths = it.faces ? this.drawn(it).paths.map((one) => one.path) : [];
      if (!paths.length) {
        const path = new Path2D(), [x0, y0, , x1, y1] = it.box;
        path.rect(x0, y0, x1 - x0, y1 - y0);
        paths = [path];
      }
      for (const path of paths) {
        if (fill) { g.fillStyle = fill; g.fill(path, "evenodd"); }
        if (line) { g.strokeStyle = line; g.lineWidth = width / this.k; g.stroke(path); }
      }
    };
    let more = false;
    for (const [id, mark] of this.marks) {
      const left = (mark.until - now) / 4000;
      if (left <= 0) { this.marks.delete(id); continue; }
      over(id, `rgba(${mark.rgb},${0.75 * Math.min(1, left * 1.6)})`, `rgba(${mark.rgb},${Math.min(1, left * 2)})`, 2);
      more = true;
    }
    const accent = scheme.matches ? "130,185,240" : "35,82,124";
    if (this.over && !this.selected.includes(this.over))
      over(this.over, `rgba(${accent},.14)`, `rgba(${accent},.55)`, 1.4);
    for (const id of this.selected) over(id, `rgba(${accent},.30)`, `rgb(${accent})`, 2.4);
    g.strokeStyle = "#e5342b";
    g.lineWidth = 3 / this.k;
    for (const [a, b] of this.lines) { g.beginPath(); g.moveTo(a[0], a[1]); g.lineTo(b[0], b[1]); g.stroke(); }
    return more;
  }

  hit(at) {
    if (!this.g || !this.city) return null;
    const [x, y] = this.ground(at);
    const under = [...this.city.within(x, y, x, y)];
    for (const it of under) this.heightOf(it);
    under.sort((a, b) => b.at - a.at);
    this.g.save();
    this.g.setTransform(1, 0, 0, 1, 0, 0);
    const has = ({ path }) => this.g.isPointInPath(path, x, y, "evenodd");
    const found = under.find((it) => !it.faces || this.drawn(it).paths.some(has));
    this.g.restore();
    return found?.id ?? null;
  }

  // ---- hands

  listen() {
    const { canvas } = this;
    let from = null, went = 0;
    canvas.addEventListener("pointerdown", (e) => {
      from = [e.offsetX, e.offsetY];
      went = 0;
      canvas.setPointerCapture(e.pointerId);
    });
    canvas.addEventListener("pointermove", (e) => {
      if (from) {
        const [dx, dy] = [e.offsetX - from[0], e.offsetY - from[1]];
        went += Math.abs(dx) + Math.abs(dy);
        if (went > 4) { canvas.classList.add("grab"); this.pan(-dx, dy); }
        from = [e.offsetX, e.offsetY];
      } else {
        const over = this.hit([e.offsetX, e.offsetY]);
        if (over !== this.over) { this.over = over; canvas.classList.toggle("over", !!over); this.draw(); }
      }
    });
    canvas.addEventListener("pointerup", (e) => {
      canvas.classList.remove("grab");
      if (from && went <= 4) this.pick(this.hit([e.offsetX, e.offsetY]));
      from = null;
    });
    canvas.addEventListener("pointercancel", () => { from = null; canvas.classList.remove("grab"); });
    canvas.addEventListener("pointerleave", () => { if (this.over) { this.over = null; this.draw(); } });
    canvas.addEventListener("wheel", (e) => {
      e.preventDefault();
      this.zoom(Math.exp(-e.deltaY * 0.0015), [e.offsetX, e.offsetY]);
    }, { passive: false });
  }
}

function rgb(channels, light) {
  return `rgb(${channels.map((c) => Math.min(255, Math.round(c * light))).join(",")})`;
}
