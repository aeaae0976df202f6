// The city: where each object lies, and the shapes of those that were looked at, in metres from the middle.

import { dump } from "./json.js";
import { around, circle, extent, faces } from "./shapes.js";

export class City {
  constructor({ frame, objects }, version) {
    this.scale = frame.transform.scale.map(Number);
    this.translate = frame.transform.translate.map(Number);
    this.title = String(frame.metadata?.title ?? "");
    this.objects = new Map();
    this.below = new Map();  // id -> ids of parts, as the rows have them
    this.cells = new Map();
    this.wide = new Set();  // what lies in too many cells
    this.loaded = 0;  // objects that were looked at
    const all = around(objects.map((row) => row[2]).filter(Boolean)) ?? [0, 0, 0, 0, 0, 0];
    this.middle = [0, 1, 2].map((k) => k < 2 ? (all[k] + all[k + 3]) / 2 : all[2]);
    const box = this.metres(all);
    this.cell = Math.max(20, Math.hypot(box[3] - box[0], box[4] - box[1]) / 200);
    for (const [id, type, box, parents] of objects) {
      for (const parent of parents ?? []) this.below.set(parent, [...this.below.get(parent) ?? [], id]);
      const place = { box: box && this.metres(box), parents: parents ?? [] };
      this.put({ id, type, ...place, object: null, faces: null, flat: false, version });
    }
  }

  // A box of the grid in metres from the middle; and a vertex.
  metres(box) { return box.map((n, k) => (n - this.middle[k % 3]) * this.scale[k % 3]); }

  place(vertex) { return vertex.map((n, k) => (n - this.middle[k]) * this.scale[k]); }

  // ---- where objects lie

  *cellsOf([x0, y0, , x1, y1]) {
    const c = this.cell;
    for (let x = Math.floor(x0 / c); x <= Math.floor(x1 / c); x++)
      for (let y = Math.floor(y0 / c); y <= Math.floor(y1 / c); y++) yield x * 65536 + y;
  }

  isWide([x0, y0, , x1, y1]) { return (x1 - x0) / this.cell > 8 || (y1 - y0) / this.cell > 8; }

  put(it) {
    this.objects.set(it.id, it);
    if (!it.box) return;
    if (this.isWide(it.box)) return void this.wide.add(it);
    for (const cell of this.cellsOf(it.box)) {
      if (!this.cells.has(cell)) this.cells.set(cell, new Set());
      this.cells.get(cell).add(it);
    }
  }

  drop(id) {
    const it = this.objects.get(id);
    this.objects.delete(id);
    if (!it?.box) return;
    this.wide.delete(it);
    for (const cell of this.cellsOf(it.box)) this.cells.get(cell)?.delete(it);
  }

  // The objects whose boxes meet a rectangle.
  within(x0, y0, x1, y1) {
    const found = new Set(), meets = ({ box }) => box[0] <= x1 && box[3] >= x0 && box[1] <= y1 && box[4] >= y0;
    for (const it of this.wide) if (meets(it)) found.add(it);
    const count = ((x1 - x0) / this.cell + 1) * ((y1 - y0) / this.cell + 1);
    if (count > this.cells.size) {
      for (const set of this.cells.values()) for (const it of set) if (meets(it)) found.add(it);
    } else {
      for (const cell of this.cellsOf([x0, y0, 0, x1, y1]))
        for (const it of this.cells.get(cell) ?? []) if (meets(it)) found.add(it);
    }
    return found;
  }

  box() { return around([...this.objects.values()].map((it) => it.box).filter(Boolean)) ?? [-50, -50, 0, 50, 50, 10]; }

  // ---- objects

  get(id) { return this.objects.get(id); }

  // An object as it is at a version; whether it has to be drawn anew.
  set(id, object, vertices, version) {
    const old = this.objects.get(id);
    if (old?.object && old.version > version) return false;
    if (!old?.object) this.loaded++;
    this.below.set(id, object.children ?? []);
    const looks = dump([object.type, object.geometry ?? [], vertices, object.geographicalExtent ?? []]);
    if (old?.looks === looks) {
      Object.assign(old, { object, version });
      return false;
    }
    this.drop(id);
    const it = { id, type: object.type, object, vertices, looks, version, parents: object.parents ?? [] };
    it.faces = faces(object, (n) => this.place(vertices[n]));
    it.box = extent(it.faces.flatMap((face) => face.rings[0]));
    if (!it.box && object.geographicalExtent?.length === 6) {
      const from = [0, 1, 2].map((k) => this.translate[k] + this.middle[k] * this.scale[k]);
      it.box = object.geographicalExtent.map((n, k) => Number(n) - from[k % 3]);
      it.faces = [circle(it.box)];
    }
    it.flat = !it.box || it.box[5] - it.box[2] < 0.05;
    this.put(it);
    return true;
  }

  take(id) {
    if (this.objects.get(id)?.object) this.loaded--;
    this.drop(id);
  }

  // Leaves the shapes of all but some objects, where there are more than so many; where they lie stays.
  forget(most, keep) {
    if (this.loaded <= most) return;
    for (const it of this.objects.values()) {
      if (!it.object || keep.has(it.id)) continue;
      Object.assign(it, { object: null, vertices: null, faces: null, looks: null, drawn: null });
      this.loaded--;
    }
  }

  // An object and all below it: a building often has its shape in its parts.
  family(id) {
    const ids = [id];
    for (const it of ids) {
      const known = this.objects.get(it)?.object;
      const children = known ? known.children ?? [] : this.below.get(it) ?? [];
      for (const child of children) if (!ids.includes(child)) ids.push(child);
    }
    return ids;
  }

  boxOf(id) { return around(this.family(id).map((it) => this.objects.get(it)?.box).filter(Boolean)); }
}
