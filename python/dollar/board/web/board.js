/* Draws a board: circles for vertices with their dollars, lines for edges, and the dollars that move along them. */

import { shortened, wordsPlace } from "./places.js";
import { t } from "./texts.js";
import { dollars, flows } from "./words.js";

// What a picture may have beside amounts, edges and added edges: q, what is said at vertices, a move whose arrows are drawn, and those that burn.
const BARE = { q: null, says: new Map(), script: null, burnt: [] };

const SVG = "http://www.w3.org/2000/svg";
export const still = window.matchMedia("(prefers-reduced-motion: reduce)");
const TRAVEL = 1100, LETTER = 7, BESIDE = 13;
let boards = 0;

export function draw(tag, given, parent, text) {
  const made = document.createElementNS(SVG, tag);
  for (const [name, value] of Object.entries(given)) made.setAttribute(name, value);
  if (text !== undefined) made.textContent = text;
  parent.append(made);
  return made;
}

export class Board {
  svg; hands; layout; turn; until; chosen; picture; hatch; held; travels;
  /* A board in an element <svg>. The layout says where the vertices stand; `hands` is true if they can be clicked. */
  constructor(svg, hands = false) {
    Object.assign(this, { svg, hands, layout: null, turn: 0, until: 0, chosen: new Set(), picture: BARE, held: null,
      travels: false, hatch: `hatch${boards++ || ""}` });
  }

  place(name) {
    return this.layout.places.get(name);
  }

  /* Shows a picture until there is another. */
  show(picture) {
    this.picture = { ...BARE, ...picture };
    [this.held, this.travels] = [null, false];
    this.draw();
  }

  /* Draws the picture, in the layout as it is. Whoever had the focus keeps it. */
  draw() {
    const { picture } = this;
    this.turn++;
    const active = /** @type {any} */ (document.activeElement), held = this.svg.contains(active) ? active.dataset.name : null;
    this.svg.replaceChildren();
    this.svg.setAttribute("viewBox", `0 0 ${this.layout.width} ${this.layout.height}`);
    this.svg.setAttribute("aria-label", t("board.label", [...picture.amounts].map((pair) => pair.join(" ")).join(", ")));
    this.signs();
    this.edges(picture);
    const pairs = [...picture.edges.keys()].map((key) => key.split(" "));
    for (const [name, amount] of picture.amounts) this.vertex(name, amount, pairs);
    picture.burnt.forEach((name, i) => this.badge(name, i + 1));
    if (picture.script) this.arrows(picture);
    if (held) this.focus(held);
  }

  focus(name) {
    const found = [...this.svg.querySelectorAll(".vertex")].find((at) => at.dataset.name === name);
    if (found) found.focus({ preventScroll: true });
  }

  signs() {
    const given = { id: this.hatch, class: "hatching", width: 6, height: 6, patternUnits: "userSpaceOnUse", patternTransform: "rotate(45)" };
    const hatch = draw("pattern", given, draw("defs", {}, this.svg));
    draw("path", { d: "M0 0 V6" }, hatch);
  }

  strands(u, v, count) {
    const [x, y] = this.place(u), [z, w] = this.place(v), long = Math.hypot(z - x, w - y) || 1;
    const drawn = count > this.layout.strands ? 1 : count;
    return Array.from({ length: drawn }, (_, i) => {
      const bow = (i - (drawn - 1) / 2) * Math.min(36, 252 / drawn);
      const bent = [(x + z) / 2 - (bow * (w - y)) / long, (y + w) / 2 + (bow * (z - x)) / long];
      const middle = [(x + z) / 4 + bent[0] / 2, (y + w) / 4 + bent[1] / 2];
      return { path: `M${x} ${y} Q${bent[0]} ${bent[1]} ${z} ${w}`, middle };
    });
  }

  edges(state) {
    for (const [key, count] of state.edges) {
      const strands = this.strands(...key.split(" "), count), added = state.added.get(key) || 0;
      strands.forEach(({ path, middle }, i) => {
        const kind = `edge${count > strands.length ? " many" : ""}${i >= strands.length - added ? " added" : ""}`;
        draw("path", { class: kind, d: path, "data-pair": key }, this.svg);
        if (count > strands.length) this.words(middle[0], middle[1] - 12, t("board.edges", count));
      });
    }
  }

  vertex(name, amount, pairs) {
    const [x, y] = this.place(name), r = this.layout.radius, { q, burnt, says: all } = this.picture, isQ = name === q, says = all.get(name);
    const shown = this.held ? this.held.get(name) : amount;
    const kinds = ["vertex", shown < 0 && "debt", this.chosen.has(name) && "chosen", burnt.includes(name) && "burnt"];
    const held = t(amount < 0 ? "said.owes" : "board.has", name, dollars(Math.abs(amount)));
    const label = [held, isQ && t("board.ring"), says].filter(Boolean).join(", ");
    // While a set is chosen, each vertex is in it or not.
    const pressed = this.chosen.size > 0 && { "aria-pressed": this.chosen.has(name) };
    const hands = { tabindex: 0, role: "button", "aria-label": label, ...pressed };
    const given = { class: kinds.filter(Boolean).join(" "), "data-name": name, ...(this.hands && hands) };
    const group = draw("g", given, this.svg);
    if (this.hands) draw("circle", { class: "reach", cx: x, cy: y, r: r + 9 }, group);
    if (isQ) draw("circle", { class: "ring", cx: x, cy: y, r: r + 4 }, group);
    draw("circle", { class: "round", cx: x, cy: y, r }, group);
    draw("circle", { class: "hatch", fill: `url(#${this.hatch})`, cx: x, cy: y, r }, group);
    const { zoom = 1, least = 0, room } = this.layout, size = this.layout.sizes.get(name), called = Math.max(size, least);
    draw("text", { class: "name inside", x, y: y - Math.max(6 * zoom, 0.1 * called), "font-size": called }, group,
      called > size ? shortened(name, called, 2 * r) : name);
    const high = Math.max(least, Math.min(16 * zoom, room / (0.7 * String(shown).length)));
    draw("text", { class: "amount inside", x, y: y + Math.max(10 * zoom, 0.85 * high), "font-size": high, "font-weight": "bold" }, group, shown);
    if (says) this.words(...wordsPlace(this.layout, pairs, name, LETTER * says.length * Math.max(1, (this.layout.least || 0) / 11)), says, group);
  }

  /* Words around a place. */
  words(x, y, text, parent = this.svg) {
    const { least = 0 } = this.layout;
    draw("text", { class: "says plated", x, y: y + 4, "font-size": Math.max(11, least) }, parent, text);
  }

  badge(name, number) {
    const [x, y] = this.place(name), r = this.layout.radius;
    const group = draw("g", { class: "badge" }, this.svg);
    draw("circle", { cx: x + r, cy: y - r, r: 10 }, group);
    draw("text", { x: x + r, y: y - r + 4, "font-size": 12 }, group, number);
  }

  /* The ways that dollars take in a move, which run from who lends. */
  ways({ edges, script }) {
    return flows(edges, script).flatMap(({ from, key, each, count }) => {
      const drawn = [...this.svg.querySelectorAll("path.edge")].filter((path) => path.dataset.pair === key);
      const label = drawn.length < count ? each * count : each;
      return drawn.map((path) => ({ path, label, back: key.split(" ")[0] !== from, length: path.getTotalLength() }));
    });
  }

  pointOn({ path, back, length }, part) {
    return path.getPointAtLength(length * (back ? 1 - part : part));
  }

  arrows(picture) {
    for (const way of this.ways(picture)) {
      const place = this.pointOn(way, 0.62), ahead = this.pointOn(way, 0.64);
      const turn = (Math.atan2(ahead.y - place.y, ahead.x - place.x) * 180) / Math.PI;
      const transform = `translate(${place.x} ${place.y}) rotate(${turn})`;
      draw("path", { class: "arrow", d: "M8 0 L-5 6 L-5 -6 Z", transform }, this.svg);
      if (way.label > 1) this.words(...this.beside(place, ahead), way.label);
    }
  }

  /* Where words are beside an arrow, and above it if it lies flat. */
  beside({ x, y }, { x: z, y: w }) {
    const far = (BESIDE * Math.max(1, (this.layout.least || 0) / 11)) / Math.hypot(z - x, w - y), side = z < x ? -far : far;
    return [x + side * (w - y), y - side * (z - x)];
  }

  coins() {
    return this.ways(this.picture).map((way) => {
      const coin = draw("g", { class: "coin" }, this.svg), text = String(way.label);
      draw("circle", { r: Math.max(8, 3 + 3.4 * text.length) }, coin);
      draw("text", { y: 4, "font-size": 11 }, coin, text);
      return { way, coin };
    });
  }

  /* Lets the dollars of a move go along the edges, from the amounts before it: they are less where dollars leave, and more once those have
     landed. Then `landed` is called. While moves come faster than they go, none go. */
  travel(before, landed) {
    const start = performance.now(), busy = start < this.until, { edges, script } = this.picture;
    this.until = start + TRAVEL;
    if (busy) return;
    this.held = new Map(before);
    for (const { from, each, count } of flows(edges, script)) this.held.set(from, this.held.get(from) - each * count);
    this.travels = true;
    this.draw();
    const coins = this.coins(), { turn } = this;
    const move = (time) => {
      if (turn !== this.turn) return;
      const part = Math.min(1, Math.max(0, (time - start) / TRAVEL));
      for (const { way, coin } of coins) {
        // From rim to rim, so that no amount is covered.
        const rim = this.layout.radius / way.length, { x, y } = this.pointOn(way, rim + part * (1 - 2 * rim));
        coin.setAttribute("transform", `translate(${x} ${y})`);
        if (part === 1) coin.remove();
      }
      if (part < 1) return requestAnimationFrame(move);
      [this.held, this.travels] = [null, false];
      this.draw();
      landed();
    };
    move(start);
  }
}
