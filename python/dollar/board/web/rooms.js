/* What a page of a class knows: the tables that were handed out, what came to each room, and who is there; and which room it shows large. */

import { layoutOf } from "./places.js";
import { t } from "./texts.js";
import { element } from "./viewer.js";
import { Game, called } from "./words.js";

const SOON = 16, MEANWHILE = 200;
const CHANGES = ["moved", "given", "joined"];

export class Rooms {
  given; rooms; state; me; shownRoom; viewer; hands; questions; editor; link; received; waiting; shows; turns; frame; took; last; missed;
  /* `shows` are called after something came, and `turns` when another table was handed out. */
  constructor() {
    Object.assign(this, { given: null, rooms: new Map(), state: null, me: null, shownRoom: 1, viewer: null, hands: null, questions: null,
      editor: null, link: null, received: 0, waiting: [], shows: [], turns: [], frame: null, took: 0, last: 0, missed: false });
  }

  get teaches() {
    return this.given.role === "teacher";
  }

  get stages() {
    return [this.given, ...this.given.later];
  }

  get shown() {
    return this.roomOf(this.shownRoom);
  }

  stageWords(stage) {
    return t("class.stage", stage + 1, this.stages.length);
  }

  playersOf(number) {
    return Object.values(this.state.names).filter(({ room }) => room === number).map(({ name }) => name);
  }

  /* What was handed out: a table, or several, on which each room goes on at its own speed. All games begin. */
  handed(thing) {
    Object.assign(this.given, { later: [] }, thing);
    [this.received, this.waiting] = [0, []];
    this.rooms.clear();
    if (this.editor && this.editor.draft) this.editor.leave();
    this.shownRoom = thing.room || 1;
    this.turns.forEach((turn) => turn());
    this.begins();
  }

  /* The room that is shown is on another table. */
  begins() {
    const { game, stage } = this.shown, { name, layout } = this.stages[stage];
    const { later } = this.given, own = later.length && this.me ? `${this.stageWords(stage)}, ${name}` : name;
    // On a wall boards may be on several tables, each of which has a title of its own.
    const told = later.length && !this.me && !this.teaches ? t("page.title") : called(own);
    element("title").textContent = document.title = t(this.teaches ? "teacher.of" : "page.of", told);
    this.viewer.board.chosen.clear();
    this.viewer.reset(game, game.length, layoutOf(layout));
    this.hands.forget();
    if (this.questions) this.questions.clear();
  }

  /* A room on one of the tables: its game, with the items that made it, what was taken back, and what the server says was reached. */
  roomOn(stage, number) {
    const { tables } = this.stages[stage], game = new Game(JSON.parse(tables[(number - 1) % tables.length]));
    return { number, stage, game, items: [], undone: [], is_new: true, is_done: false, is_right: false, best: null, least: null, hints: 0,
      wrongs: 0, backs: 0 };
  }

  roomOf(number) {
    if (!this.rooms.has(number)) this.rooms.set(number, this.roomOn(0, number));
    return this.rooms.get(number);
  }

  taken(from, come) {
    const fresh = from > this.received ? [] : come.slice(this.received - from);
    this.waiting.push(...fresh);
    this.received += fresh.length;
    this.soon();
  }

  /* What comes is drawn at once, and what comes soon after it together, however much; a browser that is slow to draw draws seldom. */
  soon() {
    if (this.frame === null) this.frame = setTimeout(() => this.flush(), Math.max(0, this.last + Math.max(SOON, 4 * this.took) - performance.now()));
  }

  flush() {
    this.frame = null;
    const start = performance.now(), { viewer } = this, follows = viewer.now === viewer.game.length, drafts = this.editor && this.editor.draft;
    let grown = false, leapt = null, turned = false;
    for (const item of this.waiting) {
      const room = this.roomOf(item.room), words = this.take(room, item);
      if (item.room === this.shownRoom) [grown, leapt, turned] = [true, words || leapt, turned || item.kind === "onward"];
      this.missed = this.missed || (item.room === this.shownRoom && item.kind === "rewound");
    }
    this.waiting = [];
    // What comes while the teacher draws a table is shown after it.
    this.missed = this.missed || Boolean(drafts);
    if (drafts) {
      this.frame = setTimeout(() => this.flush(), MEANWHILE);
      return;
    }
    if (turned) this.begins();
    else if (this.missed) viewer.reset(viewer.game, viewer.game.length);
    else if (grown) viewer.grown(follows);
    this.missed = false;
    if (leapt) this.hands.note(leapt);
    if (this.state) this.shows.forEach((show) => show());
    this.link.drew();
    this.last = performance.now();
    this.took = this.last - start;
  }

  /* Takes an item, with what changed by it. Gives words on it, if there are any. */
  take(room, item) {
    const { number, name } = item, own = this.me && name === this.me.name;
    let words = null;
    room.is_new = true;
    if (item.kind === "played") {
      this.add(room, item);
      room.undone = [];
    }
    if (item.kind === "rewound") words = this.leap(room, item, own);
    if (item.kind === "helped") room.game.help();
    if (item.kind === "judged" && !number) words = own ? t("play.can") : t("class.wrong", name);
    if (item.kind === "onward") Object.assign(room, this.roomOn(number, room.number));
    Object.assign(room, item.now);
    return words;
  }

  add({ game, items }, item) {
    game.add(`${item.seat} ${item.line}`, item.answer);
    items.push(item);
  }

  /* Goes back or on to so many entries, and says who has done it. */
  leap(room, { left, name }, own) {
    const { game, items, undone } = room;
    if (left > game.length) {
      undone.pop().forEach((item) => this.add(room, item));
      return t(own ? "class.you-again" : "class.again", name);
    }
    undone.push(items.splice(left));
    game.cut(left);
    return t(own ? "class.you-back" : "class.back", name);
  }

  canUndo() {
    return this.shown.game.replies.some(({ kind }) => CHANGES.includes(kind));
  }
}

export const lesson = new Rooms();
