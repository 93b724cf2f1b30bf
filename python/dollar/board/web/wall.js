/* All boards of a class, small, and the way in: on a wall, which nobody scrolls, and on the teacher's page. */

import { Board, draw } from "./board.js";
import { fetched } from "./page.js";
import { fitted, layoutOf } from "./places.js";
import { lesson } from "./rooms.js";
import { t } from "./texts.js";
import { button, element, made } from "./viewer.js";
import { madeWords, starsOf, starsText } from "./words.js";

let preview = [140, 110], pictured = "null";

export function showRooms() {
  const { rooms, state } = lesson, shown = lesson.teaches ? "all" : state.shown, { size } = state, box = element("rooms");
  const numbers = [...new Set([...rooms.keys(), ...Object.values(state.names).map(({ room }) => room)])].sort((one, other) => one - other);
  const done = numbers.map((number) => lesson.roomOf(number)).reduce((sum, room) => sum + room.stage + room.is_done, 0), one = Number(shown);
  const stages = lesson.stages.length;
  element("done").textContent = stages > 1 ? t("class.solved", done) : t("class.done", done, numbers.length);
  box.hidden = size === 0;
  element("done").hidden = size === 0 || Boolean(one);
  document.body.dataset.rooms = size === 0 ? "none" : one ? "one" : lesson.teaches ? "beside" : "all";
  if (size === 0) return;
  if (one && one !== lesson.shownRoom) enlarge(one);
  box.classList.toggle("list", shown === "done");
  const drawn = shown === "all" || lesson.teaches, show = () => numbers.map((number) => showRoom(lesson.roomOf(number), drawn)), parts = show();
  if (parts.length !== box.children.length || parts.some((part, i) => part !== box.children[i])) box.replaceChildren(...parts);
  if (drawn && !lesson.teaches && parts.length && spread(box, parts.length)) show();
}

/* On a wall all boards are to be seen at once, and have the place that the style leaves. Says whether they have another size now. */
function spread(box, count) {
  box.style.setProperty("--across", Math.max(1, Math.round(Math.sqrt((count * box.clientWidth) / Math.max(1, box.clientHeight)))));
  const { clientWidth, clientHeight } = box.querySelector("svg"), before = preview;
  preview = [Math.max(1, clientWidth), Math.max(1, clientHeight)];
  if (String(before) === String(preview)) return false;
  lesson.rooms.forEach((room) => Object.assign(room, { is_new: true }));
  return true;
}

/* A small board, with the names of those who play there, in how many moves, and whether it is done. The teacher's are buttons. */
function showRoom(room, drawn) {
  const { game, number, stage, backs, is_done, best, is_right, hints } = room, state = game.states[game.length], { given } = lesson;
  if (!room.part) {
    const named = { class: "room", "data-room": number };
    room.part = lesson.teaches ? button("", () => enlarge(number), named) : made("div", "", named);
    const who = made("span", "", { class: "who", translate: "no" }), how = made("span", "", { class: "how" });
    room.part.append(draw("svg", { "aria-hidden": "true" }, room.part), who, how);
    room.board = new Board(room.part.querySelector("svg"));
  }
  const [who, how] = room.part.querySelectorAll("span"), names = lesson.playersOf(number).join(", ") || t("class.room", number);
  who.textContent = names;
  const done = is_right ? t("class.cant") : best !== null ? madeWords(best) : is_done ? t("class.helped") : madeWords(state.moves);
  const parts = [done, hints && t("class.hints", hints), backs && t("class.backs", backs)].filter(Boolean).join(", ");
  how.textContent = [given.later.length && t("class.at", stage + 1, lesson.stages.length), is_done && starsText(starsOf(room)), parts]
    .filter(Boolean).join(" ");
  room.part.classList.toggle("done", is_done);
  if (lesson.teaches) room.part.setAttribute("aria-current", number === lesson.shownRoom);
  if (room.is_new && drawn) {
    room.board.layout = fitted(layoutOf(lesson.stages[stage].layout), ...preview);
    room.board.show({ ...state, q: game.table.q });
    room.is_new = false;
  }
  return room.part;
}

/* Shows the board of a room large. */
function enlarge(number) {
  lesson.shownRoom = number;
  lesson.begins();
  for (const at of document.querySelectorAll("#tables a[data-room]")) /** @type {any} */ (at).search = `room=${number}`;
  if (lesson.teaches) element("board").scrollIntoView({ block: "nearest" });
  lesson.soon();
}

/* What the teacher shows, by an answer, a move or a house that is pointed at, is drawn on its board until the teacher shows something else. */
export function showPicture() {
  const { viewer, hands, state } = lesson, told = JSON.stringify(state.picture), is_new = told !== pictured;
  if (told === "null" && !is_new) return;
  const { room, amounts, says, burnt, script, chosen, words } = JSON.parse(told) || {};
  pictured = told;
  if (!room && is_new) {
    viewer.board.chosen.clear();
    viewer.show(viewer.now);
  }
  if (room !== lesson.shownRoom) return;
  viewer.board.chosen = new Set(chosen);
  viewer.board.show(viewer.picture({ amounts: new Map(amounts), says: new Map(says), burnt, script: script && new Map(script) }));
  element("now").hidden = true;
  hands.note(words);
}

export function showWay() {
  const { given } = lesson, box = element("code"), lines = given.code, { origin } = new URL(given.address);
  box.replaceChildren();
  element("way").hidden = false;
  element("here").hidden = !/^http:\/\/(localhost|127\.|\[::1\])/.test(given.address);
  element("address").textContent = given.address;
  // The address may break before its code, and nowhere else if there is room.
  element("short").replaceChildren(origin, made("wbr"), `/${given.short}`);
  if (!lines) return;
  box.setAttribute("viewBox", `-4 -4 ${lines.length + 8} ${lines.length + 8}`);
  draw("rect", { x: -4, y: -4, width: lines.length + 8, height: lines.length + 8, class: "paper" }, box);
  const dots = lines.flatMap((line, y) => [...line].flatMap((dot, x) => (dot === "1" ? [`M${x} ${y}h1v1h-1z`] : [])));
  draw("path", { d: dots.join(""), class: "dot" }, box);
  box.removeAttribute("hidden");
}

/* The address that the teacher has chosen, which the page may have to be told again. The way in is shown until all are in, and small once
   somebody plays. */
export async function keepWay() {
  const { given, state, rooms } = lesson;
  document.body.classList.toggle("begun", given.turn > 1 || [...rooms.values()].some(({ game }) => game.length > 0));
  element("way").classList.toggle("full", !state.open || Object.keys(state.names).length >= state.seats);
  if (state.address === given.address) return;
  const { address, code, places } = await (await fetched("start")).json();
  Object.assign(given, { address, code, places });
  showWay();
}
