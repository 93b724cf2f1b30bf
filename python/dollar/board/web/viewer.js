/* Walks through a game: the board, the step and its answer in words, a slider with ticks, and the list of all lines. */

import { Board, still } from "./board.js";
import { fitted } from "./places.js";
import { t } from "./texts.js";
import { commandWords, debtWords, faultWords, flowWords, madeWords, often, planned, reachedWords, replyWords, starsOf, starsText,
  startWords } from "./words.js";

export const element = (id) => /** @type {any} */ (document.getElementById(id));
const BETWEEN = 2200, LISTED = 400;

export function made(tag, text, given = {}) {
  const part = document.createElement(tag);
  for (const [name, value] of Object.entries(given)) part.setAttribute(name, value);
  if (text !== undefined) part.textContent = text;
  return part;
}

export function button(text, act, given) {
  const part = made("button", text, { type: "button", ...given });
  part.addEventListener("click", act);
  return part;
}

/* What is done at a click on a button, when a form is sent, or when a field has changed, by their ids. */
export function bind(acts) {
  const kinds = { FORM: "submit", INPUT: "change", SELECT: "change" };
  for (const [id, act] of Object.entries(acts)) {
    element(id).addEventListener(kinds[element(id).tagName] || "click", (event) => {
      event.preventDefault();
      act(event);
    });
  }
}

/* A list of a page, from which one of these is chosen. */
export function choose(id, names, at = 0) {
  element(id).replaceChildren(...names.map((name) => new Option(name, name)));
  element(id).selectedIndex = Math.min(at, names.length - 1);
}

/* Words in a box that is there if there are any, and the program's own. */
export function say(id, words, own = "") {
  const box = element(id);
  box.hidden = !words;
  box.querySelector("span").textContent = words;
  box.querySelector("code").textContent = own;
}

/* Says in the box what the program has refused, or else the server, or nothing if there is nothing. */
export function refuse(id, fault) {
  const words = faultWords(fault || "", "");
  say(id, words || fault, words && `dollar: ${fault}`);
}

/* A row, whose first cell says what it is about. */
export function tableRow(cells) {
  const row = made("tr");
  row.append(...cells.map((cell, i) => made(i ? "td" : "th", cell, i ? {} : { scope: "row" })));
  return row;
}

/* What is said below the vertices of which a map has another number than 0. */
export function below(counts, words) {
  return new Map([...counts].filter(([, count]) => count).map(([name, count]) => [name, words(count)]));
}

export const lost = (count) => t("said.lost", count);

export class Viewer {
  board; game; flaws; who; speaks; reached; now; timer; listed; afterShow; wide;
  /* `flaws` has what the program prints, for each step that has another line; `who` says of a step who played it, `speaks` whether a
     screen reader is to speak of it, and `reached` what is known of the table beside the game. */
  constructor(game, layout, /** @type {any} */ given = {}) {
    const { hands = false, flaws = {}, who = (seat) => t("said.seat", seat), speaks = () => true, reached = () => ({}) } = given;
    Object.assign(this, { game, flaws, who, speaks, reached, now: 0, timer: null, listed: [0, 0], afterShow: () => {} });
    this.board = new Board(document.querySelector("#board svg"), hands);
    this.fit(layout);
    this.bind();
  }

  bind() {
    const ways = {
      first: () => this.go(0), back: () => this.go(this.now - 1), play: () => this.play(), on: () => this.go(this.now + 1),
      last: () => this.go(this.game.length),
    };
    const keys = { Home: ways.first, ArrowLeft: ways.back, " ": ways.play, ArrowRight: ways.on, End: ways.last };
    document.addEventListener("keydown", (event) => {
      const at = /** @type {any} */ (event.target), taken = at.closest && at.closest("input:not([type=range]), select, textarea, dialog, .vertex");
      const onButton = ["BUTTON", "SUMMARY", "A", "LABEL"].includes(at.tagName);
      if (event.ctrlKey || event.altKey || event.metaKey || !keys[event.key] || taken || (event.key === " " && onButton)) return;
      event.preventDefault();
      keys[event.key]();
    });
    element("slider").addEventListener("input", () => this.go(Number(element("slider").value)));
    bind(ways);
    window.addEventListener("resize", () => this.refit());
    const door = element("more");
    if (!door) return;
    door.addEventListener("toggle", () => {
      document.body.classList.toggle("open", door.open);
      this.refit();
      if (door.open && door.getBoundingClientRect().top > window.innerHeight / 2) door.scrollIntoView();
    });
  }

  /* Has the board fill its place on the page, whose height the style limits or gives. */
  fit(layout) {
    const { svg } = this.board, { clientWidth, clientHeight } = svg.parentNode;
    this.wide = clientWidth;
    this.board.layout = fitted(layout, clientWidth || window.innerWidth,
      parseFloat(getComputedStyle(svg).maxHeight) || clientHeight || window.innerHeight);
  }

  /* Fits the board anew if its place is wider or narrower now. */
  settle() {
    const { clientWidth } = this.board.svg.parentNode;
    if (clientWidth && clientWidth !== this.wide) this.refit();
  }

  /* The place has another size now. An editor's layout stays as it is. */
  refit() {
    if (!this.board.layout.original) return;
    this.fit(this.board.layout);
    this.board.draw();
  }

  /* Shows another game, or the same after it has grown or was cut, at a step. */
  reset(game, index, layout) {
    this.stop();
    this.game = game;
    if (layout) this.fit(layout);
    this.filled(index);
  }

  filled(index) {
    this.ticks();
    this.list(index - LISTED / 2);
    this.show(index);
    const flawed = Object.keys(this.flaws).length;
    element("flawed").textContent = flawed ? t("said.flawed", flawed) : "";
  }

  /* Shows a game that has grown: at its last step, if it is followed, and else where it was. */
  grown(follows) {
    const { length } = this.game, [low, high] = this.listed, list = document.querySelector("#whole ol");
    this.ticks();
    if (follows || length - low <= LISTED) {
      const over = Math.max(0, length - low - LISTED);
      for (let index = high; index < length; index++) list.append(this.item(index));
      for (let index = 0; index < over; index++) list.firstChild.remove();
      this.listed = [low + over, length];
    }
    if (follows) this.show(length);
    else this.showPlace();
  }

  says(index) {
    if (index === 0) return new Map();
    const { word, given, script } = this.game.steps[index - 1], reply = this.game.replies[index - 1];
    if (reply.kind === "given") return new Map([[given[0], t(Number(given[1]) < 0 ? "said.taken" : "said.given", Math.abs(given[1]))]]);
    if (reply.loss) return below(reply.loss, lost);
    return below(reply.script || (reply.kind === "moved" ? script : []), word === "commit" ? planned : often);
  }

  show(index) {
    const next = Math.min(Math.max(index, 0), this.game.length), { states, replies } = this.game;
    const moving = next === this.now + 1 && replies[next - 1].kind === "moved" && !still.matches;
    this.now = next;
    this.board.show(this.picture());
    if (moving) this.board.travel(states[next - 1].amounts, () => this.showEnd());
    this.showText();
    this.showScript(next ? replies[next - 1] : {}, states[next].amounts);
    this.showPlace();
    this.afterShow();
  }

  /* The picture of the step, with its arrows and signs, or with others. */
  picture(given) {
    const { states, steps, replies, table } = this.game, moved = this.now && replies[this.now - 1].kind === "moved";
    const own = { says: this.says(this.now), script: moved ? steps[this.now - 1].script : null };
    return { ...states[this.now], q: table.q, ...(given || own) };
  }

  showText() {
    const index = this.now, { game } = this, state = game.states[index], flaw = this.flaws[index];
    const step = game.steps[index - 1], reply = game.replies[index - 1];
    document.querySelector("#now [aria-live]").setAttribute("aria-live", !index || this.speaks(step) ? "polite" : "off");
    this.showEnd();
    element("place").textContent = index ? t("said.step", index, game.length) : startWords(game.length);
    element("step").textContent = index ? `${this.who(step.seat, index)}: ${commandWords(step)}` : t("said.table");
    // Who plays is told at the start who owes, and no more.
    for (const id of ["place", "step"]) element(id).hidden = this.board.hands && !index;
    element("moves").textContent = index && reply.kind === "moved" ? flowWords(state.edges, step.script) : "";
    element("answer").textContent = index ? replyWords(reply, state.amounts, game.table.q) : debtWords(state.amounts);
    element("asked").textContent = index ? step.line : "";
    element("said").textContent = index ? reply.line : "";
    element("differs").hidden = flaw === undefined;
    element("differs").textContent = flaw === undefined ? "" : t("said.differs", flaw);
  }

  /* Says what was reached, if anything was. */
  showEnd() {
    const { game, now } = this, won = game.isWon(now), { moves, helped } = game.states[now];
    const known = this.reached(won && !helped ? moves : null), words = reachedWords({ won, moves, helped, ...known }), stars = starsOf(known);
    // The joy comes when the dollars have arrived.
    document.body.classList.toggle("joy", won && !this.board.travels);
    element("won").hidden = !words;
    element("won").textContent = words;
    if (element("stars")) {
      element("stars").hidden = !words || !stars;
      element("stars").textContent = starsText(stars);
      element("stars").setAttribute("aria-label", t("reached.stars", stars));
    }
    if (element("count")) element("count").textContent = madeWords(moves);
  }

  showScript({ script, reduced }, amounts) {
    const box = element("verdict"), rows = [...(script || [])].map(([name, count]) => [name, often(count), amounts.get(name), reduced.get(name)]);
    box.hidden = !script;
    box.open = Boolean(script);
    box.querySelector("tbody").replaceChildren(...rows.map(tableRow));
  }

  showPlace() {
    const slider = element("slider"), index = this.now;
    slider.value = index;
    slider.setAttribute("aria-valuetext", `${element("place").textContent}. ${element("step").textContent}`);
    for (const id of ["first", "back"]) element(id).disabled = index === 0;
    for (const id of ["on", "last"]) element(id).disabled = index === this.game.length;
    if (index) element("place").textContent = t("said.step", index, this.game.length);
    const [low, high] = this.listed;
    if ((low > 0 && index <= low) || index > high) this.list(index - LISTED / 2);
    this.point();
  }

  point() {
    for (const at of document.querySelectorAll("[aria-current=step]")) at.removeAttribute("aria-current");
    const line = document.querySelector(`#whole [data-index="${this.now}"]`);
    if (line) line.setAttribute("aria-current", "step");
  }

  stop() {
    clearInterval(this.timer);
    this.timer = null;
    element("play").textContent = t("history.play");
  }

  play() {
    if (this.timer !== null) return this.stop();
    if (this.now === this.game.length) this.show(0);
    element("play").textContent = t("history.stop");
    this.timer = setInterval(() => {
      this.show(this.now + 1);
      if (this.now === this.game.length) this.stop();
    }, BETWEEN);
  }

  go(index) {
    this.stop();
    this.show(index);
  }

  /* The list has a part of the lines, so that a long history opens at once. */
  list(from) {
    const low = Math.max(0, Math.min(from, this.game.length - LISTED)), high = Math.min(low + LISTED, this.game.length);
    document.querySelector("#whole ol").replaceChildren(...Array.from({ length: high - low }, (_, i) => this.item(low + i)));
    this.listed = [low, high];
    this.point();
  }

  item(index) {
    const item = made("li"), both = button("", () => this.go(index + 1), { "data-index": index + 1 });
    both.append(made("code", this.game.steps[index].line), " ", made("code", this.game.replies[index].line));
    item.append(both);
    return item;
  }

  /* The slider goes through all steps, and has ticks at some that are no moves. */
  ticks() {
    const told = this.game.replies.flatMap(({ kind }, i) => (kind === "moved" && this.flaws[i + 1] === undefined ? [] : [i + 1]));
    element("slider").max = this.game.length;
    element("ticks").replaceChildren(...told.slice(0, LISTED).map((index) => made("option", undefined, { value: index })));
  }
}
