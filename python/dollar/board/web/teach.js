/* What only the teacher's page has. */

import { Questions } from "./ask.js";
import { Board, draw } from "./board.js";
import { Editor } from "./edit.js";
import { post, save, sure } from "./page.js";
import { layoutOf } from "./places.js";
import { lesson } from "./rooms.js";
import { inLanguage, t } from "./texts.js";
import { below, bind, button, choose, element, made, refuse } from "./viewer.js";
import { Game, called, commandWords, debtWords, joined, linesOf, often, replyOf, stepOf } from "./words.js";

// Of a fire the wall has so many reasons, the newest.
const GROUPS = [0, 1, 2, 3, 4, 5, 6], REASONS = 12;

function freeing(seat, name, bars = false) {
  return button(t(bars ? "teacher.bar" : "teacher.free"), async () => {
    if (await sure(t(bars ? "teacher.bar-sure" : "teacher.free-sure", name))) command("free", { seat: Number(seat), bar: bars });
  }, { "aria-label": t(bars ? "teacher.bar-seat" : "teacher.free-seat", name) });
}

/* What is beside a name in the list of all: the word by which its pupil comes back, and what the teacher may do. */
export const namedParts = (seat, { name, word }) => [t("teacher.word", word), " ", freeing(seat, name), " ", freeing(seat, name, true)];

/* A move for show: this page and the wall show the board after it, and no game is changed. */
export function demonstrate(line) {
  return lesson.link.inTurn(() => demonstrateNow(line));
}

async function demonstrateNow(line) {
  const { viewer, hands, questions, link } = lesson;
  const trial = [...(viewer.board.picture.trial || []), line], step = stepOf(`1 ${line}`);
  const said = await link.ask({ command: "rehearse", table: questions.now(), steps: trial.map((each) => `1 ${each}\n`).join("") });
  const reply = /** @type {any} */ (said.status === 0 ? replyOf(linesOf(said.out)[trial.length - 1]) : {});
  if (reply.kind !== "moved") return hands.refuse(said.err || t("teacher.only-moves"));
  hands.tell("");
  hands.unchoose();
  questions.tell(`${commandWords(step)}. ${debtWords(reply.amounts)}`, reply.line);
  questions.show({ trial, amounts: reply.amounts, script: step.script, says: below(step.script, often) });
}

async function command(path, thing) {
  const got = await post(path, thing);
  refuse("teacher-refused", got.refused || null);
  return got;
}

export function showCommands() {
  const { over, ends, paused, open, may, shown, size, names, seats, address, fault, picture } = lesson.state;
  const end = over ? { status: 0 } : ends[lesson.shownRoom];
  element("pause").textContent = t(paused ? "teacher.resume" : "teacher.pause");
  element("door").textContent = t(open ? "teacher.shut" : "teacher.open");
  element("pause").disabled = element("end").disabled = Boolean(end);
  element("again").hidden = !end || end.text === "the history is full";
  element("unshow").hidden = !picture;
  element("unkept").hidden = !fault;
  element("unkept").textContent = fault ? t("teacher.unkept", fault) : "";
  for (const [name, is] of Object.entries(may)) element(`may-${name}`).checked = is;
  const known = [...new Set(Object.values(names).map(({ room }) => room))].sort((one, other) => one - other);
  const wanted = [["all", t(size ? "teacher.all-boards" : "teacher.the-board")], ...(size ? [["done", t("teacher.who-done")]] : []),
    ...(size ? known.map((room) => [String(room), t("teacher.board-of", lesson.playersOf(room).join(", "))]) : [])];
  const box = element("show");
  if ([...box.options].map(({ text }) => text).join() !== wanted.map(([, text]) => text).join()) {
    box.replaceChildren(...wanted.map(([value, text]) => new Option(text, value)));
  }
  box.value = shown;
  if (document.activeElement !== element("most")) element("most").value = seats;
  offerPlaces();
  element("which").value = address.split("/")[2];
}

/* The addresses from which the teacher chooses; there is a choice unless the one that there is is shown. */
function offerPlaces() {
  const { places, address } = lesson.given, { host } = new URL(address);
  if (places.join() !== [...element("which").options].map(({ value }) => value).join()) choose("which", places, places.indexOf(host));
  element("which").parentElement.hidden = places.length < 2 && places[0] === host;
}

/* The next table: one of those that were named, a puzzle on a graph, or a file. */
function offer() {
  const { named, graphs, size } = lesson.given, all = named.length > 1 ? [[t("teacher.in-turn"), "all"]] : [];
  const group = (label, options) => {
    const part = made("optgroup", undefined, { label });
    part.append(...options.map(([text, value]) => new Option(text, value)));
    return part;
  };
  element("next-table").replaceChildren(
    group(t("tables.label"), [[t("teacher.same"), "again"], ...all, ...named.map((name) => [called(name), `named ${name}`])]),
    group(t("teacher.puzzles"), [[t("teacher.chapters"), "graph chapters"], [t("teacher.on-same"), "graph "],
      [t("teacher.on-random"), "graph random"], ...graphs.map(({ name }) => [t(`graphs.${name}`), `graph ${name}`])]));
  const sizes = GROUPS.map((count) => t(["teacher.shared", "teacher.alone"][count] || "teacher.groups", count));
  element("next-size").replaceChildren(...sizes.map((words, count) => new Option(words, String(count))));
  element("next-size").value = size;
  document.querySelector("#graphs .gallery").replaceChildren(...graphs.map(inGallery));
  choosesTable();
}

function inGallery({ name, table, layout }) {
  const part = button("", () => {
    element("next-table").value = `graph ${name}`;
    element("graphs").open = false;
    choosesTable();
    element("next-table").focus();
  });
  part.append(draw("svg", { "aria-hidden": "true" }, part), made("span", t(`graphs.${name}`)));
  const board = new Board(part.querySelector("svg"));
  board.layout = layoutOf(layout);
  board.show(new Game(table).states[0]);
  return part;
}

function choosesTable() {
  const { value } = element("next-table"), isPuzzle = value.startsWith("graph ");
  element("level").hidden = !isPuzzle || value === "graph chapters";
  element("each").hidden = !isPuzzle || element("next-size").value === "0";
}

/* Gives what is refused, nothing if it was handed out, and false if the teacher would rather not. Many puzzles take a while. */
async function handOut(thing) {
  const played = [...lesson.rooms.values()].some(({ game }) => game.length > 0), submit = element("hand-out");
  if (played && !(await sure(t("teacher.next-sure")))) return false;
  submit.disabled = true;
  submit.textContent = t("teacher.making");
  const got = await command("table", { size: Number(element("next-size").value), ...thing });
  submit.disabled = false;
  submit.textContent = t("teacher.hand");
  return got.refused || null;
}

function handOutChosen() {
  const [, kind, name] = /^(\w+) ?(.*)$/.exec(element("next-table").value);
  if (kind === "graph") return handOut({ graph: name, level: element("next-level").value, each: element("next-each").checked });
  return handOut({ named: { named: name }, all: { all: true } }[kind] || {});
}

/* What the teacher has asked about a board is shown on the wall too. */
function showsAll({ amounts, says, burnt, script }) {
  const { viewer, shownRoom, hands, link } = lesson;
  const words = element("told-words").textContent, reasons = [...element("told-fire").children].map((at) => at.textContent);
  const picture = { room: shownRoom, amounts: [...amounts], says: [...says], burnt, script: script && [...script],
    chosen: [...viewer.board.chosen], words: joined(words, ...reasons.slice(-REASONS)) };
  element("now").hidden = true;
  // Where the answer stands already it is not said twice.
  hands.note(element("more").open ? "" : words);
  link.inTurn(() => command("picture", picture));
}

export function teach() {
  const { viewer, hands, link } = lesson;
  element("teacher").hidden = false;
  document.querySelector("main").after(element("class"));
  for (const id of ["undo", "redo", "hint", "look", "commit", "next", "draw-hint"]) element(id).hidden = true;
  hands.joins = false;
  element("take-results").href = inLanguage("results.csv");
  bind({
    pause: () => command("pause", { paused: !lesson.state.paused }), door: () => command("door", { open: !lesson.state.open }),
    again: () => command("again", {}), "hand-form": handOutChosen, unshow: () => command("show", { what: lesson.state.shown }),
    async end() {
      if (await sure(t("teacher.end-sure"))) command("end", {});
    },
    async move() {
      const { secret } = await command("move", {});
      if (secret) location.replace(`/${secret}/`);
    },
    async "take-page"() {
      const got = await command("replay", { room: lesson.shownRoom });
      if (got.page) save("game.html", got.page, "text/html");
    },
    "next-table": choosesTable, "next-size": choosesTable, edit: () => lesson.editor.open(),
    async "next-file"({ target }) {
      if (target.files[0]) await handOut({ name: target.files[0].name, table: await target.files[0].text() });
      target.value = "";
    },
    show: ({ target }) => command("show", { what: target.value }), which: ({ target }) => command("place", { place: target.value }),
    most: ({ target }) => command("seats", { count: Number(target.value) }),
  });
  for (const { id } of document.querySelectorAll("[id^=may-]")) {
    bind({ [id]: ({ target }) => command("may", { [id.slice("may-".length)]: target.checked }) });
  }
  lesson.questions = new Questions(viewer, (question) => link.ask(question), () => {}, showsAll);
  hands.pointed = () => lesson.questions.show(viewer.board.picture);
  lesson.editor = new Editor(viewer, hands, (table, places) => handOut({ table, places, name: t("teacher.drawn") }));
  element("edit-done").textContent = t("teacher.hand");
  offer();
  lesson.shows.push(showCommands);
}
