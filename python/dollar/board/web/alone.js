/* Playing alone: the page keeps the table and the steps, and the program answers each question of it. */

import { Questions } from "./ask.js";
import { Editor } from "./edit.js";
import { Hands } from "./hand.js";
import { Link, fetched, fewest, save, startPage, store, stored, sure, wordsOnce } from "./page.js";
import { layoutOf, placesText } from "./places.js";
import { speak, t } from "./texts.js";
import { Viewer, bind, element } from "./viewer.js";
import { Game, answerOf, called, linesOf } from "./words.js";

const SOON = 400;
export let table, fileName, examples, viewer, hands, questions, editor;
const link = new Link();
let key = null, keeping = null, undone = false, shortest = null, right = false, wrongs = 0;

const ask = (question) => link.ask(question);
const stepsText = (length) => viewer.game.steps.slice(0, length).map(({ line }) => `${line}\n`).join("");

/* Lines are played one after another, each on what came of the one before. */
export function play(line) {
  return link.inTurn(() => playNow(line));
}

async function playNow(line) {
  const { game, now } = viewer;
  if (line.includes("\n")) return hands.tell(t("play.newline"));
  const dropped = game.length - now;
  if (dropped && !undone && !(await sure(t("play.later", dropped)))) return null;
  const step = `1 ${line}`;
  const said = await hands.patient(answered(now, step));
  if (said.status !== 0) return hands.refuse(said.err);
  game.cut(now);
  game.add(step, linesOf(said.out)[0]);
  hands.tell("");
  hands.unchoose();
  questions.clear();
  viewer.stop();
  if (dropped) viewer.reset(game, now + 1);
  else viewer.grown(true);
  keep();
  if (shortest === null && game.isWon(now + 1)) measure();
  return null;
}

/* What is known of the table beside the game, which may have reached so many moves. */
function reached(moves) {
  const best = fewest(table, moves);
  return { best, least: shortest, is_right: right, is_done: best !== null || isDone(), wrongs };
}

const isDone = () => right || viewer.game.states.some((_, index) => viewer.game.isWon(index));

/* In how few moves the table can be won. */
async function measure() {
  const asked = table, said = await ask({ command: "hint", table });
  if (said.status !== 0 || asked !== table) return;
  shortest = JSON.parse(said.out).left || null;
  viewer.showText();
}

/* The player says that it can't be done. */
async function cant() {
  const said = await questions.answer({ command: "judge" });
  if (said === null) return;
  right = answerOf(linesOf(said)[0]).kind === "unwinnable";
  wrongs += right ? 0 : 1;
  viewer.showText();
  showWays();
  hands.note(right ? "" : t("play.can"));
}

/* What the program says to a step after the first so many. If the server no longer has the game of this page, it is begun again. */
async function answered(count, line) {
  if (key !== null) {
    const said = await ask({ command: "play", key, count, line });
    if (!said.gone) return said;
  }
  const begun = await ask({ command: "begin", table, steps: stepsText(count) });
  key = begun.status === 0 ? begun.key : null;
  return key === null ? begun : ask({ command: "play", key, count, line });
}

/* The game outlasts a reload of the page. It is kept when the page is left, and after a while without a step. */

const KEPT = `dollar ${location.pathname}`;

function keep() {
  clearTimeout(keeping);
  keeping = setTimeout(keepNow, SOON);
}

/* The places that somebody has given, if anybody has. */
function ownPlaces(layout) {
  return layout.turns ? undefined : placesText(layout);
}

function keepNow() {
  if (keeping === null) return;
  clearTimeout(keeping);
  keeping = null;
  store("sessionStorage", KEPT, { table, fileName, steps: stepsText(viewer.game.length), places: ownPlaces(editor.gameLayout()) });
}

/* What was kept, with what the program prints of it, or null. */
async function kept() {
  const before = stored("sessionStorage", KEPT);
  if (!before) return null;
  const placed = await ask({ command: "layout", table: before.table, places: before.places });
  const said = await ask({ command: "begin", table: before.table, steps: before.steps });
  if (placed.status !== 0 || said.status !== 0) return null;
  key = said.key;
  return { ...before, layout: placed.layout, printed: said.out };
}

/* A step back and on again. What was taken back is dropped by the next move, without a question. */
function goBack() {
  if (viewer.now === 0) return;
  viewer.go(viewer.now - 1);
  undone = true;
  showWays();
}

function goOn() {
  viewer.go(viewer.now + 1);
  undone = viewer.now < viewer.game.length;
  showWays();
}

function showWays() {
  const { game, now } = viewer;
  hands.enable("undo", now > 0);
  hands.enable("redo", now < game.length);
  element("next").hidden = !isDone();
}

function shown() {
  undone = false;
  questions.clear();
  hands.note(wordsOnce(viewer.game, viewer.now));
  showWays();
}

/* One move that helps. */
async function hint() {
  const said = await questions.answer({ command: "hint" });
  if (said === null) return;
  viewer.game.help();
  hands.hint(JSON.parse(said));
}

/* Another table. What the program refuses is told, and nothing changes. */
export async function openTable(text, file, places) {
  const said = await ask({ command: "layout", table: text, places });
  if (said.status !== 0) return said.err;
  const { length } = viewer.game;
  if (length && !isDone() && !(await sure(t("tables.lost", length)))) return null;
  [table, fileName, key] = [text, file, null];
  begin(layoutOf(said.layout));
  keep();
  return null;
}

function begin(layout) {
  const game = new Game(JSON.parse(table));
  [shortest, right, wrongs] = [null, false, 0];
  element("title").textContent = document.title = t("page.of", called(fileName));
  if (viewer) {
    hands.forget();
    questions.clear();
    viewer.reset(game, 0, layout);
  } else {
    viewer = new Viewer(game, layout, { hands: true, reached, who: () => t("play.you") });
    hands = new Hands(viewer, play);
    questions = new Questions(viewer, ask, play, () => viewer.game.help());
    editor = new Editor(viewer, hands, (text, places) => openTable(text, t("tables.edited"), places));
    viewer.filled(0);
    viewer.afterShow = shown;
    shown();
  }
}

/* A puzzle: other dollars on a graph, of which the program has said whether it can be won; or the first of a chapter. */
async function puzzle() {
  const [graph, chapter] = element("puzzle-graph").value.split("#");
  if (chapter) return atStep(Number(chapter));
  return puzzleOn({ graph, level: element("puzzle-level").value }, graph ? undefined : ownPlaces(viewer.board.layout));
}

async function puzzleOn(given, places) {
  const said = await ask({ command: "puzzle", table, ...given });
  if (said.status !== 0) return hands.refuse(said.err);
  hands.refuse(await openTable(said.table, said.name, places));
  return null;
}

/* The way through the chapters, on which this browser goes on where it was. */
const WAY = "dollar step";

async function atStep(step) {
  const before = table;
  await puzzleOn({ graph: "chapters", level: String(step) });
  if (table !== before) store("localStorage", WAY, [step, table]);
}

/* After a puzzle that was solved the next one comes, and after one with help another like it. The button goes, and the focus with it to the
   board. */
async function next() {
  const [step, last] = stored("localStorage", WAY) || [-1, null], { helped } = viewer.game.states[viewer.now];
  await atStep(last === table && helped ? step : step + 1);
  viewer.board.focus(viewer.game.names[0]);
}

function bindAll() {
  element("example").append(...Object.keys(examples).map((file) => new Option(file, file)));
  bind({
    "take-table": () => save("table.json", table), "take-steps": () => save("steps.txt", stepsText(viewer.game.length)),
    "take-now": () => save("now.json", questions.now()), "take-places": () => save("places.txt", placesText(viewer.board.layout)),
    async "take-page"() {
      const said = await ask({ command: "replay", table, steps: stepsText(viewer.game.length), name: fileName });
      if (said.status === 0) save("game.html", said.page, "text/html");
      else hands.refuse(said.err);
    },
    edit: () => editor.open(), "puzzle-form": puzzle, next, undo: goBack, redo: goOn, hint, cant,
    async example({ target }) {
      const file = target.value;
      target.value = "";
      if (file) hands.refuse(await openTable(examples[file], file));
    },
    async open({ target }) {
      const [file, places] = [...target.files].sort((one, other) => Number(other.name.endsWith(".json")) - Number(one.name.endsWith(".json")));
      const fault = file && (file.size > 1 << 20 ? "file too long" : await openTable(await file.text(), file.name, places && await places.text()));
      hands.refuse(fault && `${fault}, in ${file.name}`);
      target.value = "";
    },
    houses({ target }) {
      speak(target.checked);
      viewer.show(viewer.now);
    },
  });
}

async function start() {
  const given = await (await fetched("start")).json();
  ({ table, examples, name: fileName } = given);
  element("puzzle-graph").append(...given.graphs.map((name) => new Option(t(`graphs.${name}`), name)),
    ...given.chapters.map(([name, step]) => new Option(name, `chapters#${step}`)));
  const before = await kept();
  if (before) ({ table, fileName } = before);
  begin(layoutOf((before || given).layout));
  if (before) {
    const printed = linesOf(before.printed), { game } = viewer;
    linesOf(before.steps).forEach((line, i) => game.add(line, printed[i]));
    viewer.reset(game, game.length);
  }
  bindAll();
  window.addEventListener("pagehide", keepNow);
}

startPage(start);
