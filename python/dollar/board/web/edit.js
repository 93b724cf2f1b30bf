/* The editor: a draft of a table, on the board and in two lists. Whether it is a table says the program, when it is done. */

import { GRAMMAR } from "./grammar.js";
import { SMALL, freePlace, placesText } from "./places.js";
import { t } from "./texts.js";
import { bind, button, choose, element, made, refuse } from "./viewer.js";
import { Game, nameWords } from "./words.js";

const MOST_VERTICES = GRAMMAR.limits["dg_graph::MAX_VERTICES"], ROOM = [620, 440], NARROW = [340, 300], LETTERS_HIGH = 11, STEP = 10;

export class Editor {
  viewer; hands; done; draft; kept; handled;
  /* `done` is called with the text of the table and the places, and gives what is refused, null if it is done, or false if it is not. */
  constructor(viewer, hands, done) {
    Object.assign(this, { viewer, hands, done, draft: null });
    bind({
      "add-vertex": () => this.addVertex(), "add-edge": () => this.addEdge(element("edge-from").value, element("edge-to").value),
      "edit-done": () => this.finish(), "edit-cancel": () => this.close(), "edit-clear": () => this.clear(),
    });
    document.addEventListener("keydown", ({ key }) => {
      if (key === "Escape" && this.draft) this.close();
    });
  }

  open() {
    const { game, now, board } = this.viewer;
    this.viewer.stop();
    [this.kept, this.handled] = [board.layout, board.hands];
    board.hands = true;
    board.layout = this.wider(board.layout.original || board.layout);
    this.draft = structuredClone(game.tableAt(now));
    this.hands.other = this;
    this.shown(true);
    this.fill();
    this.tool().focus({ preventScroll: true });
    // What stood above the button is hidden now, and the board may be out of sight. Firefox scrolls once the shorter page was drawn.
    requestAnimationFrame(() => requestAnimationFrame(() => element("board").scrollIntoView({ block: "nearest" })));
  }

  /* A layout with room around it, for what is to come. */
  wider(layout) {
    const small = window.innerWidth < SMALL, room = small ? NARROW : ROOM;
    const width = Math.max(layout.width, room[0]), height = Math.max(layout.height, room[1]);
    const moved = ([x, y]) => [Math.round(x + (width - layout.width) / 2), Math.round(y + (height - layout.height) / 2)];
    const places = new Map([...layout.places].map(([name, place]) => [name, moved(place)]));
    return { ...layout, width, height, places, sizes: new Map(layout.sizes), least: small ? (LETTERS_HIGH * width) / window.innerWidth : 0 };
  }

  shown(open) {
    element("editor").hidden = !open;
    document.body.classList.toggle("editing", open);
    refuse("edit-refused", null);
  }

  close() {
    this.viewer.board.layout = this.kept;
    this.leave();
    this.viewer.show(this.viewer.now);
    element("edit").focus();
  }

  leave() {
    this.viewer.board.hands = this.handled;
    this.hands.other = null;
    this.draft = null;
    this.shown(false);
  }

  /* Where the vertices of the game are: the board may show those of a draft. */
  gameLayout() {
    return this.draft ? this.kept : this.viewer.board.layout;
  }

  text() {
    return `${JSON.stringify(this.draft, null, 1)}\n`;
  }

  async finish() {
    const bad = element("edit-vertices").querySelector(":invalid");
    if (bad) return bad.reportValidity();
    const refused = await this.done(this.text(), placesText(this.viewer.board.layout));
    if (refused === false) return null;
    if (refused !== null) return refuse("edit-refused", refused);
    this.leave();
    this.viewer.board.focus(this.viewer.game.names[0]);
    return null;
  }

  /* Begins with an empty board. */
  clear() {
    this.draft = { vertices: [], edges: [], amounts: [], q: "" };
    this.viewer.board.layout.places.clear();
    this.fill();
  }

  /* On the board. */

  tool() {
    return element("editor").querySelector("input[name=tool]:checked");
  }

  drag(press, at) {
    if (press.name === null) return;
    if (this.tool().value === "edge") return this.hands.line(this.viewer.board.place(press.name), at);
    if (this.tool().value === "move") this.move(press.name, at);
  }

  up(press, at, to) {
    const tool = this.tool().value;
    if (tool === "edge" && press.name !== null && to !== null && to !== press.name) this.addEdge(press.name, to);
    if (tool === "remove" && press.name !== null && !press.moved) this.removeVertex(press.name);
    if (tool === "move" && press.name === null && !press.moved) this.addVertex(at);
  }

  move(name, [x, y]) {
    const { layout } = this.viewer.board, edge = layout.radius + 6;
    const inside = (part, most) => Math.round(Math.min(Math.max(part, edge), most - edge));
    layout.places.set(name, [inside(x, layout.width), inside(y, layout.height)]);
    this.draw();
  }

  /* Moves a vertex by a key. */
  nudge(name, [right, down]) {
    const [x, y] = this.viewer.board.place(name);
    this.move(name, [x + STEP * right, y + STEP * down]);
  }

  draw() {
    this.viewer.board.show({ ...new Game(this.draft).states[0], q: this.draft.q });
  }

  /* In the lists. A row stays where it is, so that the focus does; what it shows is that of its number. */

  fill() {
    const { vertices, edges } = this.draft;
    this.rows("edit-vertices", vertices.length, (i) => this.vertexRow(i), (row, i) => this.showVertex(row, i));
    this.rows("edit-edges", edges.length, (i) => this.edgeRow(i), (row, i) => this.showEdge(row, i));
    ["edge-from", "edge-to"].forEach((id, i) => choose(id, vertices, i));
    element("add-vertex").disabled = vertices.length >= MOST_VERTICES;
    this.draw();
  }

  rows(id, count, row, show) {
    const body = element(id).tBodies[0], held = body.contains(document.activeElement);
    while (body.rows.length > count) body.deleteRow(-1);
    while (body.rows.length < count) body.append(row(body.rows.length));
    [...body.rows].forEach(show);
    if (held && !body.contains(document.activeElement)) (body.querySelector("tr:last-child button") || element("add-edge")).focus();
  }

  input(type, change) {
    const field = made("input", undefined, { type });
    field.addEventListener("change", () => change(field));
    return field;
  }

  /* A field for a number: what is none is not taken. */
  number(change) {
    return this.input("number", (field) => {
      if (field.value !== "" && Number.isInteger(Number(field.value))) change(Number(field.value));
      this.fill();
    });
  }

  row(...cells) {
    const row = made("tr");
    for (const cell of cells) row.insertCell().append(cell);
    return row;
  }

  label(field, words, value) {
    field.setAttribute("aria-label", words);
    if (value !== undefined && field.value !== String(value)) field.value = value;
  }

  vertexRow(i) {
    const named = this.input("text", (field) => {
      if (field.reportValidity()) this.rename(this.draft.vertices[i], field.value);
    });
    const q = this.input("radio", () => {
      this.draft.q = this.draft.vertices[i];
      this.draw();
    });
    named.addEventListener("input", () => {
      named.setCustomValidity(nameWords(named.value, this.draft.vertices.filter((_, j) => j !== i)));
      if (named.value) named.reportValidity();
    });
    Object.assign(named, { size: 10, maxLength: 16 });
    q.name = "q";
    return this.row(named, this.number((amount) => { this.draft.amounts[i] = amount; }), q,
      button(t("editor.remove"), () => this.removeVertex(this.draft.vertices[i])));
  }

  showVertex(row, i) {
    const [named, dollars, q, remove] = row.querySelectorAll("input, button"), name = this.draft.vertices[i];
    this.label(named, t("editor.name-of", name), name);
    named.setCustomValidity("");
    this.label(dollars, t("editor.dollars-of", name), this.draft.amounts[i]);
    this.label(q, t("editor.q-is", name));
    this.label(remove, t("editor.remove-it", name));
    q.checked = name === this.draft.q;
  }

  edgeRow(i) {
    return this.row("", this.number((count) => { this.draft.edges[i][2] = count; }), button(t("editor.remove"), () => {
      this.draft.edges.splice(i, 1);
      this.fill();
    }));
  }

  showEdge(row, i) {
    const [count, remove] = row.querySelectorAll("input, button"), [u, v, times] = this.draft.edges[i], words = `${u} - ${v}`;
    row.cells[0].textContent = words;
    this.label(count, t("editor.edges-of", words), times);
    this.label(remove, t("editor.remove-it", words));
  }

  rename(name, other) {
    const { draft } = this, { layout } = this.viewer.board, renamed = (each) => (each === name ? other : each);
    if (name !== other) {
      draft.vertices = draft.vertices.map(renamed);
      draft.edges = draft.edges.map((edge) => edge.map(renamed));
      draft.q = renamed(draft.q);
      layout.places.set(other, layout.places.get(name));
      layout.sizes.set(other, Math.min(11, (11 * 6) / Math.max(other.length, 1)));
      layout.places.delete(name);
    }
    this.fill();
  }

  freeName() {
    const { vertices } = this.draft;
    return [..."abcdefghijklmnopqrstuvwxyz"].find((name) => !vertices.includes(name)) || `v${vertices.length}`;
  }

  addVertex(at) {
    const { draft } = this, { layout } = this.viewer.board;
    if (draft.vertices.length >= MOST_VERTICES) return;
    const name = this.freeName();
    draft.vertices.push(name);
    draft.amounts.push(0);
    if (draft.vertices.length === 1) draft.q = name;
    layout.sizes.set(name, 11);
    this.move(name, at || freePlace(layout));
    this.fill();
  }

  removeVertex(name) {
    const { draft } = this, at = draft.vertices.indexOf(name);
    draft.vertices.splice(at, 1);
    draft.amounts.splice(at, 1);
    draft.edges = draft.edges.filter((edge) => !edge.includes(name));
    if (draft.q === name && draft.vertices.length) [draft.q] = draft.vertices;
    this.viewer.board.layout.places.delete(name);
    this.fill();
  }

  addEdge(u, v) {
    const found = this.draft.edges.find((edge) => edge.includes(u) && edge.includes(v) && u !== v);
    if (found) found[2] += 1;
    else this.draft.edges.push([u, v, 1]);
    this.fill();
  }
}
