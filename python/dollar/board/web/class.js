/* A class: a click is a line, and the board shows what came back. A pupil's page shows its room, all others all rooms, and one large. */

import { Hands } from "./hand.js";
import { fetched, startPage } from "./page.js";
import { layoutOf } from "./places.js";
import { lesson } from "./rooms.js";
import { enter, linked, notice, ownParts, place, playLine, seatBefore, seated, sit, taught } from "./seat.js";
import { demonstrate, namedParts, teach } from "./teach.js";
import { speak, t } from "./texts.js";
import { Viewer, element, made } from "./viewer.js";
import { keepWay, showPicture, showRooms, showWay } from "./wall.js";

let stopped = false;

/* Who plays. The rows stay as long as they say the same, so that their buttons can be clicked while others play. */
function showNames() {
  const list = element("names"), rows = Object.entries(lesson.state.names).map(([seat, who]) => rowOf(seat, who));
  if (list.innerHTML !== rows.map((row) => row.outerHTML).join("")) list.replaceChildren(...rows);
}

function rowOf(seat, who) {
  const { name, here, room } = who, row = made("li", "", { value: seat, class: here ? "" : "away" }), { me, state } = lesson;
  row.append(made("b", name, { translate: "no" }), state.size > 1 ? ` ${t("seat.room", room)} ` : " ", here ? "" : `${t("seat.away")} `);
  if (me && Number(seat) === me.seat) row.append(...ownParts());
  if (lesson.teaches) row.append(...namedParts(seat, who));
  return row;
}

function endWords({ status, text }) {
  if (status === 0) return t("class.over");
  if (text === "the history is full") return t("class.full");
  return t("class.died", text || t(status < 0 ? "class.killed" : "class.status", status));
}

function showState() {
  const { over, ends, paused, may } = lesson.state, end = over ? { status: 0 } : ends[lesson.shownRoom], { viewer, hands } = lesson;
  if (speak(may.houses)) viewer.show(viewer.now);
  if (stopped && !paused && !end) hands.tell("");
  stopped = paused || Boolean(end);
  notice(end ? endWords(end) : paused ? t("class.paused") : "");
  showNames();
}

/* What stands on all pages at the end of what they show. */
function fits() {
  lesson.viewer.settle();
  lesson.viewer.showText();
}

/* A page that shows all rooms: that of the teacher, or a wall without a seat, which shows the way in as well. */
function showsAllRooms(kind, ...more) {
  element("tools").hidden = !lesson.teaches;
  enter(kind);
  showWay();
  lesson.turns.push(() => element("rooms").replaceChildren());
  lesson.shows.push(keepWay, showRooms, ...more, fits);
  window.addEventListener("resize", () => lesson.soon());
  lesson.link.listen(() => place("events?"));
}

/* Whether a screen reader is to speak of what another has done: in a small room, where one hears what others do. */
const FEW = 3;

function speaks({ seat }) {
  const { me, state } = lesson;
  return me !== null && (Number(seat) === me.seat || (state !== null && lesson.playersOf(lesson.shownRoom).length <= FEW));
}

async function start() {
  lesson.given = { later: [], ...await (await fetched("start")).json() };
  const { game } = lesson.roomOf(1);
  lesson.link = linked();
  const viewer = lesson.viewer = new Viewer(game, layoutOf(lesson.given.layout), {
    hands: true, who: (_, index) => lesson.shown.items[index - 1].name, speaks, reached: () => lesson.shown });
  viewer.filled(0);
  viewer.afterShow = () => {
    // The words of a step are not said beside the picture of an answer.
    element("now").hidden = false;
    lesson.hands.note(taught());
  };
  lesson.hands = new Hands(viewer, lesson.teaches ? demonstrate : playLine);
  lesson.begins();
  lesson.shows.push(showState);
  if (lesson.teaches) {
    teach();
    return showsAllRooms("teaching");
  }
  seated(() => showsAllRooms("watching", showPicture));
  lesson.shows.push(() => lesson.me && fits());
  lesson.me = seatBefore();
  return lesson.me ? sit() : enter("outside");
}

export { lesson };
export const play = playLine;

startPage(start);
