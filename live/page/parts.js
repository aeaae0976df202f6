// Small parts that all others use: elements, colours of people, short texts, and what is said to the person.

import { dump } from "./json.js";

export const $ = (id) => document.getElementById(id);

export function make(tag, members = {}, ...children) {
  const it = Object.assign(document.createElement(tag), members);
  it.append(...children);
  return it;
}

const HUES = [
  "200,95,10", "13,140,128", "140,50,220", "215,35,75", "84,130,20", "190,40,140", "140,84,40", "14,116,144",
];

// Whose hand it is.
export const person = (hand) => hand.split("#")[0];

export function rgbOf(name) {
  let sum = 0;
  for (const c of name) sum = (sum * 33 + c.codePointAt(0)) % 9973;
  return HUES[sum % HUES.length];
}

export function short(value) {
  const text = typeof value === "string" ? value : dump(value);
  return text.length > 60 ? `${text.slice(0, 57)}…` : text;
}

// A note in the corner, which is read out too.
export function toast(text, bad = false) {
  const it = make("div", { textContent: text, className: bad ? "bad" : "" });
  $("toasts").append(it);
  while ($("toasts").children.length > 4) $("toasts").firstElementChild.remove();
  setTimeout(() => it.remove(), bad ? 9000 : 5000);
}

// What only a screen reader tells.
export function say(text) { $("said").textContent = text; }
