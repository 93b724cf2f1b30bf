/* The page of a game that was played: its table, steps and history stand in the page. */

import { layoutOf } from "./places.js";
import { t } from "./texts.js";
import { Viewer, element } from "./viewer.js";
import { Game, linesOf } from "./words.js";

const read = (id) => element(id).textContent;
const game = new Game(JSON.parse(read("table")));
const printed = linesOf(read("printed")), names = JSON.parse(read("names"));
linesOf(read("steps")).forEach((line, i) => game.add(line, printed[i]));
const viewer = new Viewer(game, layoutOf(JSON.parse(read("layout"))), {
  flaws: JSON.parse(read("flaws")), who: (seat, index) => names[index - 1] || t("said.seat", seat),
});
viewer.filled(0);
// For people who look at the page from its console.
element("board").viewer = viewer;
