// A new shape for an object, from a CityJSON file: its points come into the city's grid.

import { parse } from "./json.js";

// The geometry of an object of the file: of the same id, or the only one that has a shape.
function shaped(model, id) {
  const objects = model.CityObjects ?? {};
  if (objects[id]?.geometry?.length) return objects[id];
  const some = Object.values(objects).filter((it) => it.geometry?.length);
  if (some.length === 1) return some[0];
  throw new Error(some.length ? `The file has ${some.length} objects with shapes, and none is called ${id}.`
    : "The file has no object with a shape.");
}

// Geometry and vertices for a reshape of an object, from the text of a file.
export function shapeOf(text, id, city) {
  let model;
  try { model = parse(text.trim()); } catch { throw new Error("The file isn't JSON."); }
  const isModel = model?.type === "CityJSON" && model.transform && Array.isArray(model.vertices);
  if (!isModel) throw new Error("The file isn't a CityJSON model.");
  const [scale, translate] = [model.transform.scale.map(Number), model.transform.translate.map(Number)];
  const numbers = new Map(), vertices = [];
  const number = (n) => {
    const metres = model.vertices[n].map((p, k) => Number(p) * scale[k] + translate[k]);
    const at = metres.map((p, k) => Math.round((p - city.translate[k]) / city.scale[k]));
    const known = at.join(" ");
    if (!numbers.has(known)) { numbers.set(known, vertices.length); vertices.push(at); }
    return numbers.get(known);
  };
  const placed = (item) => Array.isArray(item) ? item.map(placed) : number(item);
  const inGrid = ({ material, texture, ...rest }) => ({ ...rest, boundaries: placed(rest.boundaries) });
  const geometry = shaped(model, id).geometry.map(inGrid);
  return { geometry, vertices };
}
