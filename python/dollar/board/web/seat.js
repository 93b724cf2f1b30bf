/* A pupil's seat: the way in, and what is played from it. */

import { Link, fetched, store, stored, sure, wordsOnce } from "./page.js";
import { lesson } from "./rooms.js";
import { t } from "./texts.js";
import { bind, button, element, say } from "./viewer.js";
import { faultWords } from "./words.js";

const LETTERS = 24, PATIENCE = 10000, AGAIN = 2000;
const SEATS = `dollar ${location.pathname.replaceAll("-", "").toLowerCase()}`;
let known = [];

/* A seat is kept over a reload. A browser has one; in a class that is kept it may be shared, and asks who is there. */
function keepSeat(seat) {
  known = [...(seat ? [seat] : []), ...known.filter(({ key }) => !lesson.me || key !== lesson.me.key)];
  lesson.me = seat;
  store("localStorage", SEATS, known);
  store("sessionStorage", SEATS, seat && seat.key);
}

/* The seat that this page had, or null. */
export function seatBefore() {
  known = [stored("localStorage", SEATS) || []].flat();
  return (lesson.given.kept ? known.find(({ key }) => key === stored("sessionStorage", SEATS)) : known[0]) || null;
}

export function askName() {
  const { me } = lesson;
  element("watch").hidden = Boolean(me);
  element("take-seat").textContent = t(me ? "seat.rename" : "seat.take");
  element("known").hidden = Boolean(me) || known.length === 0;
  element("known").replaceChildren(t("seat.known"), ...known.map((seat) => button(seat.name, () => {
    keepSeat(seat);
    sit();
  })));
  element("entrance").hidden = false;
  element("was-here").hidden = true;
  element("your-name").value = me ? me.name : "";
  element("your-name").focus();
}

function browser() {
  const own = stored("localStorage", "dollar browser")
    || [...crypto.getRandomValues(new Uint8Array(LETTERS))].map((byte) => (byte % 36).toString(36)).join("");
  store("localStorage", "dollar browser", own);
  return known.length ? `${own}.${Math.random().toString(36).slice(2, 8)}` : own;
}

/* Takes a seat, or the one of before by its word. If somebody of the name is away, that is asked first. */
async function takeSeat(more) {
  const submit = element("take-seat"), name = element("your-name").value, { link } = lesson;
  submit.disabled = true;
  const timer = setTimeout(() => say("join-refused", t("seat.crowd")), 1000);
  const got = await link.post("join", { name, browser: browser(), ...more });
  clearTimeout(timer);
  submit.disabled = false;
  say("join-refused", got.refused);
  if (got.refused) return;
  if (got.away) {
    element("was-here").hidden = false;
    element("are-you").textContent = t("seat.are-you", got.away);
    element("your-word").value = "";
    element("your-word").focus();
    return;
  }
  keepSeat(got);
  sit();
}

async function rename() {
  const { me, link } = lesson, got = await link.post("rename", { name: element("your-name").value, key: me.key });
  say("join-refused", got.refused);
  if (got.refused) return;
  keepSeat({ ...me, ...got });
  element("entrance").hidden = true;
}

async function leave() {
  if (await sure(t("seat.leave-sure"))) lesson.link.post("leave", { key: lesson.me.key });
}

/* Lets somebody else take the place before the screen. */
function changeOver() {
  store("sessionStorage", SEATS, null);
  location.reload();
}

function leaveSeat(words) {
  keepSeat(null);
  lesson.link.close();
  // What is still to be drawn says nothing over these words.
  lesson.state = null;
  enter("outside");
  notice(words);
}

/* The page is one of these: outside at the entrance, playing, watching or teaching. */
export function enter(kind) {
  const inside = kind !== "outside";
  element("entrance").hidden = inside;
  document.body.dataset.page = kind;
  lesson.viewer.refit();
  notice("");
  if (!inside) askName();
}

export function sit() {
  enter("playing");
  lesson.link.listen(() => place(`events?key=${lesson.me.key}&`));
}

export const place = (path) => `${path}from=${lesson.given.feed}.${lesson.received}`;

/* What stands above the board as long as it holds, and maybe a way out. */
export function notice(words, way = null) {
  const box = element("notice");
  if (box.textContent !== words) box.textContent = words;
  if (way) box.append(" ", way);
  box.hidden = !words;
}

/* What comes from the server. */

const tellBreak = () => notice(t("class.lost"));

export function linked() {
  return new Link(PATIENCE, {
    table: (thing) => lesson.handed(thing), entries: (come) => lesson.taken(...come), beat() {},
    state(now) {
      lesson.state = now;
      lesson.soon();
    },
    freed: () => leaveSeat(t("seat.freed")),
    asleep() {
      lesson.link.close();
      lesson.state = null;
      notice(t("seat.elsewhere"), button(t("seat.here"), sit));
    },
  }, (refused) => (refused ? checkSeat() : tellBreak()));
}

/* A page that was not let in: its seat was freed, or the game is gone. If the server itself does not say so, it is tried again. */
async function checkSeat() {
  try {
    const got = await fetched("start");
    if (got.ok && lesson.me) return leaveSeat(t("seat.lost"));
    if (got.status === 404 && (await got.text()) === t("requests.nothing")) return notice(t("class.gone"));
  } catch {
    /* It is tried again. */
  }
  tellBreak();
  setTimeout(() => lesson.link.source && lesson.link.listen(lesson.link.place), AGAIN);
  return null;
}

/* What is beside the own name in the list of all. */
export function ownParts() {
  const other = lesson.given.kept ? [" ", button(t("seat.other"), changeOver)] : [], { word } = lesson.me;
  return [t("seat.you"), " ", button(t("seat.new-name"), askName), " ", button(t("seat.leave"), leave), ...other,
    ...(word ? [` ${t("seat.word", word)}`] : [])];
}

/* What a seat plays. */

export async function playLine(line) {
  const { viewer, hands } = lesson;
  if (viewer.now < viewer.game.length) {
    viewer.go(viewer.game.length);
    return hands.note(t("class.earlier"));
  }
  return sent("line", { line });
}

/* One move that helps. */
async function askHint() {
  const got = await sent("hint", {});
  if (!got) return;
  lesson.viewer.go(lesson.viewer.game.length);
  lesson.hands.hint(got.hint);
}

/* Nothing is played while the page does not hear what comes of it, and each line only when the one before it is drawn. */
function sent(path, thing) {
  const { me, link, hands, given, shown } = lesson;
  if (!me) return hands.tell(t("seat.first"));
  if (!link.hears) return hands.tell(t("class.deaf"));
  return link.inTurn(() => lesson.me && hands.patient(sentNow(path, { key: me.key, feed: given.feed, stage: shown.stage, ...thing })));
}

async function sentNow(path, thing) {
  const { link, hands, given } = lesson, got = await link.post(path, thing);
  if (got.status === 404) return checkSeat();
  if (got.status === null) return hands.tell(t("class.unsure", got.refused));
  if (got.refused) return hands.tell(got.refused);
  await link.until(() => given.feed !== thing.feed || lesson.received - lesson.waiting.length >= got.items);
  const bad = got.answer && got.answer.startsWith("bad ");
  hands.tell(bad ? faultWords(got.answer) : "", bad ? got.answer : "");
  if (!bad) hands.unchoose();
  return got;
}

/* What the teacher does not permit is not offered. */
function permit() {
  const { edges, questions, undo, hints } = lesson.state.may, { undone, is_done, stage } = lesson.shown, { hands } = lesson;
  const next = is_done && stage < lesson.given.later.length;
  const parts = { "draw-hint": edges, look: questions, commit: questions, undo, redo: undo, hint: hints, next };
  for (const [id, permitted] of Object.entries(parts)) element(id).hidden = !permitted;
  hands.joins = edges;
  hands.enable("undo", lesson.canUndo());
  hands.enable("redo", undone.length > 0);
}

export function seated(watch) {
  lesson.shows.push(permit);
  bind({ join: () => (lesson.me ? rename() : takeSeat({ word: "" })), watch,
    "was-here": () => takeSeat({ word: element("your-word").value }), "take-other": () => takeSeat({}),
    undo: () => sent("undo", {}), redo: () => sent("redo", {}), hint: askHint, cant: () => sent("cant", {}),
    async next() {
      await sent("next", {});
      lesson.viewer.board.focus(lesson.viewer.game.names[0]);
    } });
}

/* The words of the first minute. */
export const taught = () => (lesson.me ? wordsOnce(lesson.viewer.game, lesson.viewer.now) : "");
