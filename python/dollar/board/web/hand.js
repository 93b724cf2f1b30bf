/* What a hand does on the board and with the buttons, as lines of the program: a click on a is `lend a`. */

import { draw } from "./board.js";
import { vertexAhead, vertexAt } from "./places.js";
import { t } from "./texts.js";
import { below, bind, element, refuse, say } from "./viewer.js";
import { joined, movesWords, planned } from "./words.js";

const LONG_PRESS = 550, FAR_ENOUGH = 9, PATIENT = 1000;

export class Hands {
  viewer; board; play; pointed; press; other; joins;
  /* `play` is called with a line, and `pointed` when others are chosen. */
  constructor(viewer, play) {
    Object.assign(this, { viewer, play, pointed: () => {}, board: viewer.board, press: null, other: null, joins: true });
    this.onBoard();
    this.onKeys();
    bind({
      fire: () => this.play(`fire ${viewer.game.names.filter((name) => this.board.chosen.has(name)).join(",")}`),
      claim: () => play("claim"), look: () => play("look"), commit: () => play("commit"), "line-form": () => play(element("line-in").value),
    });
  }

  /** @returns {[number, number]} where a pointer is, in the picture's own measure */
  point(event) {
    const at = new DOMPoint(event.clientX, event.clientY).matrixTransform(this.board.svg.getScreenCTM().inverse());
    return [at.x, at.y];
  }

  vertexAt(point) {
    const { places, radius } = this.board.layout;
    return vertexAt(places, point, radius + 9);
  }

  onBoard() {
    const { svg } = this.board;
    svg.addEventListener("pointerdown", (event) => this.down(event));
    svg.addEventListener("pointermove", (event) => this.move(event));
    svg.addEventListener("pointerup", (event) => this.up(event));
    svg.addEventListener("pointercancel", () => this.drop());
    // What a screen reader or a voice sends is a click without a pointer.
    svg.addEventListener("click", (event) => {
      const at = event.detail === 0 && event.target.closest(".vertex");
      if (at && !this.other) this.act(at.dataset.name, event);
    });
    svg.addEventListener("contextmenu", (event) => event.preventDefault());
    // A finger scrolls the page, but in the editor.
    svg.addEventListener("touchstart", (event) => {
      if (this.other) event.preventDefault();
    }, { passive: false });
  }

  down(event) {
    this.drop();
    const at = this.point(event), name = this.vertexAt(at);
    if (event.button !== 0 || (name === null && !this.other)) return;
    event.preventDefault();
    this.board.svg.setPointerCapture(event.pointerId);
    this.press = { at, name, start: [event.clientX, event.clientY], moved: false, done: false };
    if (name !== null) this.board.focus(name);
    if (name === null || this.other) return;
    this.press.timer = setTimeout(() => {
      this.press.done = true;
      this.play(`borrow ${name}`);
    }, LONG_PRESS);
  }

  move(event) {
    const { press } = this;
    if (!press || press.done) return;
    press.moved = press.moved || Math.hypot(event.clientX - press.start[0], event.clientY - press.start[1]) > FAR_ENOUGH;
    if (!press.moved) return;
    clearTimeout(press.timer);
    if (this.other) return this.other.drag(press, this.point(event));
    if (press.name !== null && this.draws(event)) this.line(this.board.place(press.name), this.point(event));
  }

  line([x, y], [z, w]) {
    this.clearLine();
    draw("path", { class: "drawn", d: `M${x} ${y} L${z} ${w}` }, this.board.svg);
  }

  clearLine() {
    for (const at of this.board.svg.querySelectorAll(".drawn")) at.remove();
  }

  up(event) {
    const { press } = this, to = press && this.vertexAt(this.point(event));
    this.drop();
    if (!press || press.done) return;
    if (this.other) return this.other.up(press, this.point(event), to);
    if (!press.moved || to === press.name) this.act(press.name, event);
    else if (to !== null && this.draws(event)) this.play(`join ${press.name} ${to}`);
  }

  /* Whether a line from one vertex to another is meant as an edge: a finger may have wanted to scroll. */
  draws(event) {
    return this.joins && event.pointerType !== "touch";
  }

  /* A click on a vertex. */
  act(name, { ctrlKey, metaKey, shiftKey }) {
    if (ctrlKey || metaKey || element("choosing").checked) this.choose(name);
    else this.moves(name, shiftKey);
  }

  /* A vertex lends, or borrows if that is wanted. */
  moves(name, other) {
    this.play(`${other !== element("borrowing").checked ? "borrow" : "lend"} ${name}`);
  }

  drop() {
    if (this.press) clearTimeout(this.press.timer);
    this.press = null;
    this.clearLine();
  }

  choose(name) {
    const { chosen } = this.board;
    if (!chosen.delete(name)) chosen.add(name);
    element("fire").hidden = chosen.size === 0;
    this.board.draw();
    this.pointed();
  }

  unchoose() {
    const [first] = this.board.chosen;
    this.board.chosen.clear();
    if (document.activeElement === element("fire")) this.board.focus(first);
    element("fire").hidden = true;
  }

  /* Lets a button be used, or not. If it had the focus, the board has it then. */
  enable(id, can) {
    if (!can && document.activeElement === element(id)) this.board.focus(this.viewer.game.names[0]);
    element(id).disabled = !can;
  }

  onKeys() {
    // Whoever uses keys sees where the focus is.
    for (const kind of ["pointerdown", "keydown"]) {
      document.addEventListener(kind, () => document.body.classList.toggle("by-pointer", kind === "pointerdown"), { capture: true });
    }
    this.board.svg.addEventListener("keydown", (event) => {
      const name = event.target.dataset && event.target.dataset.name;
      if (name === undefined || event.altKey || event.ctrlKey || event.metaKey) return;
      const aside = { ArrowLeft: [-1, 0], ArrowRight: [1, 0], ArrowUp: [0, -1], ArrowDown: [0, 1] }[event.key];
      if (aside && event.shiftKey && this.other) this.other.nudge(name, aside);
      else if (aside) this.board.focus(vertexAhead(this.board.layout.places, name, aside));
      else if (this.other) return;
      else if (event.key === "Enter") this.moves(name, event.shiftKey);
      else if (event.key === " ") this.choose(name);
      else if (event.key === "Escape") this.forget();
      else return;
      event.preventDefault();
    });
  }

  /* Forgets what was chosen. */
  forget() {
    this.unchoose();
    this.tell("");
    this.board.draw();
  }

  /* What is promised, and a word if that takes its time. */
  async patient(promise) {
    const timer = setTimeout(() => this.tell(t("play.late")), PATIENT);
    try {
      return await promise;
    } finally {
      clearTimeout(timer);
    }
  }

  /* Says something beside the buttons, until the board shows something else. */
  note(words) {
    if (element("note").textContent !== words) element("note").textContent = words;
  }

  /* Shows one move: its vertex, and 1 if that lends or -1 if it borrows; 0 if nobody has to move, and null if no move helps. */
  hint({ name, count, left }) {
    if (!count) return this.note(t(count === null ? "play.no-help" : "play.no-debt"));
    this.note(joined(t(count > 0 ? "play.lend" : "play.borrow", name), left && t("play.will-do", movesWords(left))));
    this.board.show(this.viewer.picture({ says: below(new Map([[name, count]]), planned) }));
  }

  /* Says why a line was not taken, with the program's own words. */
  tell(words, own) {
    say("refused", words, own);
  }

  /* Says what the program has refused, if it has. */
  refuse(fault) {
    refuse("refused", fault);
  }
}
