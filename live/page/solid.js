// The city in three dimensions, by three.js of Debian (libjs-three, release 111).

import * as THREE from "/three/build/three.module.js";
import { OrbitControls } from "/three/examples/jsm/controls/OrbitControls.js";
import { colour, scheme } from "./shapes.js";

const MOST = 2500;  // objects that are shown at once: those nearest to what is looked at

export class Solid {
  constructor(place, { pick, moved, wanted }) {
    Object.assign(this, { place, pick, moved, wanted });
    this.marks = new Map(); this.shapes = new Map(); this.selected = []; this.open = null;
    this.renderer = new THREE.WebGLRenderer({ antialias: true });
    this.renderer.setPixelRatio(devicePixelRatio || 1);
    place.append(this.renderer.domElement);
    this.renderer.domElement.setAttribute("role", "img");
    this.renderer.domElement.setAttribute("aria-label", "The city in three dimensions");
    this.scene = new THREE.Scene();
    this.sky = new THREE.HemisphereLight(0xffffff, 0xc4bdb1, 0.74);
    const sun = new THREE.DirectionalLight(0xffffff, 0.34);
    sun.position.set(-0.5, -0.75, 1.2);
    this.scene.add(this.sky, sun);
    this.camera = new THREE.PerspectiveCamera(38, 1, 1, 40000);
    this.camera.up.set(0, 0, 1);
    this.controls = new OrbitControls(this.camera, this.renderer.domElement);
    this.controls.maxPolarAngle = Math.PI * 0.49;
    this.controls.screenSpacePanning = false;
    this.controls.addEventListener("change", () => this.draw());
    new ResizeObserver(() => this.draw()).observe(place);
    scheme.addEventListener("change", () => this.city && this.reset(this.city));
    this.listen();
  }

  reset(city) {
    this.city = city;
    this.renderer.setClearColor(scheme.matches ? 0x1c1f22 : 0xe9edf0);
    for (const shape of this.shapes.values()) this.scene.remove(shape);
    this.shapes.clear();
    this.near = new Set();
    this.gather();
  }

  // The objects near what is looked at: their shapes are shown, or asked for.
  gather() {
    if (!this.city) return;
    const { x, y } = this.controls.target;
    const far = Math.max(60, this.camera.position.distanceTo(this.controls.target) * 1.6);
    let found = [...this.city.within(x - far, y - far, x + far, y + far)];
    if (found.length > MOST) {
      const distance = ({ box }) => Math.hypot((box[0] + box[3]) / 2 - x, (box[1] + box[4]) / 2 - y);
      found = found.map((it) => [distance(it), it]).sort((a, b) => a[0] - b[0]).slice(0, MOST).map(([, it]) => it);
    }
    const near = new Set(found.map((it) => it.id));
    for (const id of [...this.shapes.keys()]) if (!near.has(id)) this.remove(id);
    this.near = near;
    for (const it of found) if (it.faces && !this.shapes.has(it.id)) this.make(it);
    this.wanted?.();
  }

  update(id) {
    this.remove(id);
    const it = this.city.get(id);
    if (it?.faces && this.near.has(id)) this.make(it);
  }

  // A mesh for each object, with a colour for each face, and the edges of buildings.
  make(it) {
    const at = [], colours = [], lines = [];
    const level = it.flat ? { LandUse: 0.02, WaterBody: 0.08, PlantCover: 0.04, Road: 0.06 }[it.type] ?? 0.05 : 0;
    for (const face of it.faces) {
      if (face.normal[2] < -0.99 && !it.flat) continue;  // nobody sees it from below
      const c = colour(it.type, face, it.flat).map((n) => n / 255);
      for (const p of triangles(face)) { at.push(p[0], p[1], p[2] + level); colours.push(...c); }
      if (/^Building|^Bridge/.test(it.type))
        for (const ring of face.rings) ring.forEach((p, k) => lines.push(...p, ...ring[(k + 1) % ring.length]));
    }
    if (!at.length) return;
    const geometry = new THREE.BufferGeometry();
    geometry.setAttribute("position", new THREE.Float32BufferAttribute(at, 3));
    geometry.setAttribute("color", new THREE.Float32BufferAttribute(colours, 3));
    geometry.computeVertexNormals();
    const mesh = new THREE.Mesh(geometry, new THREE.MeshLambertMaterial({ vertexColors: THREE.VertexColors,
      side: it.flat ? THREE.DoubleSide : THREE.FrontSide, polygonOffset: true, polygonOffsetFactor: 1,
      polygonOffsetUnits: 1 }));
    mesh.userData.id = it.id;
    if (lines.length) {
      const edges = new THREE.BufferGeometry();
      edges.setAttribute("position", new THREE.Float32BufferAttribute(lines, 3));
      mesh.add(new THREE.LineSegments(edges, new THREE.LineBasicMaterial({ color: scheme.matches ? 0x000000 : 0x5a4a40,
        transparent: true, opacity: 0.45 })));
    }
    this.shapes.set(it.id, mesh);
    this.scene.add(mesh);
    this.tint(it.id);
    this.draw();
  }

  remove(id) {
    const mesh = this.shapes.get(id);
    if (!mesh) return;
    this.scene.remove(mesh);
    mesh.traverse((it) => it.geometry?.dispose());
    this.shapes.delete(id);
    this.draw();
  }

  tint(id) {
    const mesh = this.shapes.get(id);
    if (!mesh) return;
    const mark = this.marks.get(id), left = mark ? Math.max(0, (mark.until - performance.now()) / 4000) : 0;
    mesh.material.emissive.setRGB(0, 0, 0);
    mesh.material.color.setRGB(1, 1, 1);
    if (this.selected.includes(id)) {
      mesh.material.color.setRGB(0.42, 0.66, 0.95);
      mesh.material.emissive.setRGB(0.0, 0.05, 0.16);
    }
    if (left > 0) {
      const s = Math.min(1, left * 1.6), rgb = mark.rgb.split(",").map((n) => Number(n) / 255);
      mesh.material.color.setRGB(...rgb.map((c) => 1 - s + s * c));
      mesh.material.emissive.setRGB(...rgb.map((c) => c * 0.25 * s));
    }
  }

  select(ids) {
    const before = this.selected;
    this.selected = ids;
    for (const id of [...before, ...ids]) this.tint(id);
    this.draw();
  }

  flash(id, rgb) { this.marks.set(id, { rgb, until: performance.now() + 4000 }); this.draw(); }

  // Edges of a shell that is open, in red, before all else.
  showOpen(lines) {
    if (this.open) this.scene.remove(this.open);
    this.open = null;
    if (lines.length) {
      const edges = new THREE.BufferGeometry();
      edges.setAttribute("position", new THREE.Float32BufferAttribute(lines.flat(2), 3));
      const red = new THREE.LineBasicMaterial({ color: 0xe5342b, linewidth: 3, depthTest: false });
      this.open = new THREE.LineSegments(edges, red);
      this.open.renderOrder = 9;
      for (const [a, b] of lines) this.open.add(this.tube(a, b));
      this.scene.add(this.open);
    }
    this.draw();
  }

  // A line is one pixel wide whatever is asked for, so a thin tube goes with it.
  tube(a, b) {
    const path = new THREE.LineCurve3(new THREE.Vector3(...a), new THREE.Vector3(...b));
    const red = new THREE.MeshBasicMaterial({ color: 0xe5342b, depthTest: false });
    const tube = new THREE.Mesh(new THREE.TubeBufferGeometry(path, 1, 0.12, 6), red);
    tube.renderOrder = 9;
    return tube;
  }

  fit([x0, y0, z0, x1, y1, z1]) {
    const middle = new THREE.Vector3((x0 + x1) / 2, (y0 + y1) / 2, (z0 + z1) / 2);
    const far = Math.max(x1 - x0, y1 - y0, 3 * (z1 - z0), 20) * 1.34;
    this.controls.target.copy(middle);
    this.camera.position.set(middle.x - far * 0.36, middle.y - far * 0.88, middle.z + far * 0.64);
    this.controls.update();
    this.gather();
    this.draw();
  }

  zoom(by) {
    this.camera.position.sub(this.controls.target).multiplyScalar(1 / by).add(this.controls.target);
    this.controls.update();
    this.draw();
  }

  pan(dx, dy) {
    const far = this.camera.position.distanceTo(this.controls.target) / 900;
    for (const it of [this.camera.position, this.controls.target]) { it.x += dx * far; it.y += dy * far; }
    this.controls.update();
    this.draw();
  }

  screen([x, y, z]) {
    const p = new THREE.Vector3(x, y, z).project(this.camera);
    const { clientWidth: w, clientHeight: h } = this.place;
    return p.z > 1 ? null : [(p.x + 1) / 2 * w, (1 - p.y) / 2 * h];
  }

  metres() { return null; }

  draw() {
    if (this.drawing || this.place.hidden) return;
    this.drawing = requestAnimationFrame(() => {
      this.drawing = null;
      const { clientWidth: w, clientHeight: h } = this.place;
      if (!w || !h) return;
      if (this.w !== w || this.h !== h) {
        [this.w, this.h] = [w, h];
        this.renderer.setSize(w, h);
        this.camera.aspect = w / h;
        this.camera.updateProjectionMatrix();
      }
      for (const [id, mark] of this.marks) {
        this.tint(id);
        if (mark.until < performance.now()) { this.marks.delete(id); this.tint(id); }
      }
      this.renderer.render(this.scene, this.camera);
      this.moved();
      this.gathering ??= setTimeout(() => { this.gathering = null; this.gather(); }, 200);
      if (this.marks.size) this.fading ??= setTimeout(() => { this.fading = null; this.draw(); }, 60);
    });
  }

  listen() {
    const canvas = this.renderer.domElement, ray = new THREE.Raycaster();
    let from = null;
    canvas.addEventListener("pointerdown", (e) => { from = [e.offsetX, e.offsetY]; });
    canvas.addEventListener("pointerup", (e) => {
      if (!from || Math.hypot(e.offsetX - from[0], e.offsetY - from[1]) > 4) return;
      ray.setFromCamera(new THREE.Vector2(e.offsetX / this.w * 2 - 1, 1 - e.offsetY / this.h * 2), this.camera);
      const [hit] = ray.intersectObjects([...this.shapes.values()]);
      this.pick(hit ? hit.object.userData.id : null);
    });
  }
}

// The corners of triangles that make up a face.
function triangles({ rings, normal }) {
  const [a, b] = Math.abs(normal[2]) > 0.5 ? [0, 1] : Math.abs(normal[0]) > Math.abs(normal[1]) ? [1, 2] : [0, 2];
  const flat = rings.map((ring) => ring.map((p) => new THREE.Vector2(p[a], p[b])));
  const points = rings.flat(), out = [];
  for (const [i, j, k] of THREE.ShapeUtils.triangulateShape(flat[0], flat.slice(1))) {
    const [p, q, r] = [points[i], points[j], points[k]];
    if (!p || !q || !r) continue;
    const u = [q[0] - p[0], q[1] - p[1], q[2] - p[2]], v = [r[0] - p[0], r[1] - p[1], r[2] - p[2]];
    const across = [u[1] * v[2] - u[2] * v[1], u[2] * v[0] - u[0] * v[2], u[0] * v[1] - u[1] * v[0]];
    const dot = across[0] * normal[0] + across[1] * normal[1] + across[2] * normal[2];
    out.push(...(dot >= 0 ? [p, q, r] : [p, r, q]));
  }
  return out;
}
