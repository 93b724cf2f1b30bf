/* Tests of what the pages' modules do without a page: words and places. `failures` gives what does not hold. */

import { GRAMMAR } from "./grammar.js";
import { fitted, freePlace, layoutOf, placesText, shortened, vertexAhead, vertexAt, wordsPlace } from "./places.js";
import { TEXTS } from "./table.js";
import {
  Game, answerOf, called, commandWords, faultWords, firstWords, flows, linesOf, movesWords, nameWords, numbersOf, rankWords, reachedWords, replyOf,
  replyWords, starsOf, starsText, startWords, stepOf,
} from "./words.js";

const failures_ = [];
const AMOUNTS = new Map([["a", 2], ["b", -1]]);
const TABLE = { vertices: ["b", "a", "2"], edges: [["b", "a", 2], ["a", "2", 1]], amounts: [1, -1, 0], q: "b" };

function plain(thing) {
  return JSON.stringify(thing, (_, value) => (value instanceof Map ? [...value] : value));
}

function equal(found, wanted, what) {
  if (plain(found) !== plain(wanted)) failures_.push(`${what}: found ${plain(found)}, wanted ${plain(wanted)}`);
}

/* Each form of the grammar is read, and has words. */
function replies() {
  for (const form of GRAMMAR.replies) {
    const text = form.split(" ").map((part) => ({ P: "a=2 b=-1", g: 3, k: 2 }[part] || part)).join(" "), reply = replyOf(`7 ${text}`);
    equal([reply.line, reply.kind === "unread"], [`7 ${text}`, false], `the reply ${text}`);
    equal(Boolean(replyWords(reply, AMOUNTS, "a")), true, `the words of ${text}`);
    for (const [part, field] of [["g", "gifts"], ["k", "degree"]]) {
      if (form.split(" ").includes(part)) equal(reply[field], { g: 3, k: 2 }[part], `${field} of ${text}`);
    }
  }
  const moved = answerOf("moved a=2 b=-1"), verdict = answerOf("unwinnable by a=0 b=1 to a=-3 b=0"), loss = answerOf("rank below 1 at a=0 b=1");
  equal([moved.kind, moved.amounts], ["moved", AMOUNTS], "the amounts of a move");
  equal([verdict.script, verdict.reduced], [new Map([["a", 0], ["b", 1]]), new Map([["a", -3], ["b", 0]])], "the two lists of a verdict");
  equal([loss.kind, loss.degree, loss.loss], ["rank", 1, new Map([["a", 0], ["b", 1]])], "the loss of a rank test");
  equal(replyWords(loss, AMOUNTS, "a"), "The rank is below 1: if 1 dollar at b is taken away, it can't be won.", "the words of a loss");
  for (const text of ["", "moved", "moved a", "won ", "refused", "stale x", "lent a"]) {
    equal(answerOf(text).kind, "unread", `what is no reply: ${text}`);
  }
  equal(replyWords(replyOf("7 looked 1 a=2 b=-1"), AMOUNTS, "a").startsWith("It sees the board after 1 gift, levy or new edge."), true,
    "the words of one change");
  equal(replyOf("moved a=1").kind, "unread", "a reply without its number");
  equal(Object.keys(TEXTS.refusals).sort(), GRAMMAR.refusals.map((text) => text.split(" ")[1]).sort(), "the causes of refusals");
}

function commands() {
  const words = { vertex: "a", vertices: "a,b", script: "a=1,b=-2", degree: "2", dollars: "-3" };
  for (const [word, kinds] of Object.entries(GRAMMAR.commands)) {
    const line = [word, ...kinds.map((kind) => words[kind])].join(" "), said = commandWords(stepOf(`12 ${line}`));
    equal([stepOf(`12 ${line}`).seat, said !== word, said.includes("undefined")], ["12", true, false], `the words of ${line}`);
  }
  equal(commandWords(stepOf("1 fire a,b")), "a and b lend, all at once", "the words of a firing");
  equal(commandWords(stepOf("1 gift a -3")), "a levy of 3 dollars at a", "the words of a levy");
}

function faults() {
  const met = [...GRAMMAR.tables, ...GRAMMAR.bad, ...Object.keys(GRAMMAR.faults)];
  for (const text of [...GRAMMAR.tables, ...GRAMMAR.bad, "the history is full", "file too long", "too many trials"]) {
    equal(faultWords(text.replace("#", "4")) === faultWords("?"), false, `the words of ${text}`);
  }
  for (const text of Object.keys(TEXTS.faults)) equal(met.includes(text), true, `the text ${text} is one of the program`);
  const names = ["a", "a b", "b", "_9", "x".repeat(16), "x".repeat(17), ""].map((name) => nameWords(name, ["a"]) !== "");
  equal(names, [true, true, false, false, false, true, true], "names that a vertex beside a can't have");
  equal(faultWords("edge 0 is a loop"), "Edge 1 of the list leads from a vertex to itself.", "a fault with its number");
  equal(faultWords("edge 2 is empty: ['a', 'b', 0], in x.json"), "Edge 3 of the list has the number 0.", "a fault with a value and a file");
}

function games() {
  const game = new Game(TABLE);
  equal([...game.states[0].amounts.keys()], TABLE.vertices, "the order of the names");
  const strange = ["constructor", "__proto__", "2", "1", "toString"];
  const named = new Game({ vertices: strange, edges: [["2", "__proto__", 1]], amounts: [1, -1, 0, 2, 3], q: "2" });
  named.add("1 script __proto__=2,constructor=-1", "0 moved constructor=2 __proto__=-3 2=1 1=2 toString=3");
  equal([named.tableAt(1).amounts, [...named.steps[0].script]], [[2, -3, 1, 2, 3], [["__proto__", 2], ["constructor", -1]]], "strange names");
  game.add("1 lend b", "0 moved b=-1 a=1 2=0");
  game.add("1 join 2 a", "1 joined 1 b=-1 a=1 2=0");
  equal(game.tableAt(1), { ...TABLE, amounts: [-1, 1, 0] }, "a table in a game");
  equal(game.tableAt(2).edges, [["b", "a", 2], ["a", "2", 2]], "an edge that was added");
  equal(flows(game.states[0].edges, stepOf("1 lend a").script).map(({ from, to, each, count }) => [from, to, each, count]),
    [["a", "b", 1, 2], ["a", "2", 1, 1]], "where dollars go");
  equal(flows(game.states[0].edges, stepOf("1 fire a,b").script).length, 1, "no dollar goes between two that lend");
  equal(game.states.map(({ moves, helped }) => [moves, helped]), [[0, false], [1, false], [1, true]], "moves, and an edge that helped");
  game.add("1 claim", "2 not won");
  game.add("1 borrow b", "3 moved b=1 a=0 2=0");
  equal([0, 1, 2, 3, 4].map((index) => game.isWon(index)), [false, false, false, false, true], "where nobody owes any more");
  game.cut(1);
  equal([game.length, game.states.length, game.replies.length], [1, 2, 1], "a game that was cut");
  const odd = new Game(TABLE);
  odd.add("1 lend a", "0 joined 1 b=1 a=-1 2=0");
  equal(odd.tableAt(1).edges, TABLE.edges, "the edges after a reply to another step");
  const rich = new Game({ ...TABLE, amounts: [1, 1, 0] });
  rich.add("1 lend a", "0 moved b=3 a=-2 2=1");
  rich.add("1 borrow a", "1 moved b=1 a=1 2=0");
  equal([0, 1, 2].map((index) => rich.isWon(index)), [false, false, false], "a table on which nobody owed");
  rich.add("1 script a=2,b=-1", "2 moved b=0 a=0 2=2");
  rich.add("1 fire a,b", "3 moved b=0 a=-1 2=3");
  equal(rich.states.map(({ moves }) => moves), [0, 1, 2, 5, 7], "how many moves a script and a set are");
  rich.help();
  equal(rich.states.every(({ helped }) => helped), true, "a game with help");
  const reached = [{ won: true, moves: 5, best: 3, least: 3 }, { won: true, moves: 2, helped: true, least: 2 }, { moves: 0, is_done: true, best: 1 },
    { moves: 4 }, { won: true, moves: 4, best: 4, least: 3 }, { moves: 1, is_right: true }, { moves: 2, is_done: true, least: 3 }];
  equal(reached.map(reachedWords), ["Solved in 5 moves: nobody owes a dollar. Your best: 3. It can't be done in fewer.",
    "Solved in 2 moves, with help. It can't be done in fewer.",
    "Solved before, in 1 move.", "",
    "Solved in 4 moves: nobody owes a dollar. It can be done in 3.", "Right: it can't be done.",
    "Solved before, with help."], "what was reached");
  const stars = [{}, { best: 3, least: 3 }, { best: 4, least: 3 }, { best: 9, least: 3 }, { least: 3 }, { best: 3 }, { is_right: true },
    { is_right: true, wrongs: 1 }].map((each, i) => starsOf({ is_done: i > 0, ...each }));
  equal([stars, starsText(2)], [[0, 3, 2, 1, 1, 1, 3, 2], "\u2605\u2605\u2606"], "stars");
  equal(["kind_houses.json", "2 of 6, Cube", "\u00e4.json"].map(called), ["Kind houses", "2 of 6, Cube", "\u00c4"], "titles");
  equal([movesWords(1), movesWords(0), faultWords("?", "x")], ["1 move", "0 moves", "x"], "words of numbers and faults");
  equal([startWords(0), startWords(1), startWords(2)], ["Start. No moves yet.", "Start, before 1 step", "Start, before 2 steps"], "starts");
  odd.add("1 lend a", "1 moved b=2 a=-2 2=0");
  equal([firstWords(new Game(TABLE), 0), firstWords(odd, 1), firstWords(odd, 2), firstWords(rich, 1).split(".")[0], firstWords(rich, 3)],
    ["Click any vertex: it sends a dollar along each of its edges.", "a lends. Go on until nobody owes. To let one borrow, press it longer, "
      + "or switch to borrow.", "", "a lends", ""], "the first minute");
  equal([linesOf("a\nb\n"), linesOf("a\nb"), linesOf("")], [["a", "b"], ["a", "b"], []], "lines of texts");
}

function ranks() {
  equal(numbersOf("degree 2 genus 5 rank 0 dual -1"), { degree: "2", genus: "5", rank: "0", dual: "-1" }, "the four numbers of a line");
  equal([rankWords("-1", new Map()), rankWords("8", undefined), rankWords("1", new Map([["b", 1], ["c", 0], ["d", 1]]))],
    ["The rank is -1. It can't be won as it stands.",
      "The rank is 8. Some loss of 9 dollars is too much; which one is not known, since too many losses would have to be tried.",
      "The rank is 1. If b loses 1 dollar and d loses 1 dollar, the debts can no longer be cleared."], "words of a rank");
}

function places() {
  const layout = layoutOf({ places: { a: [0, 0], b: [100, 0], 1: [100, 80] }, sizes: {}, width: 100, height: 100 });
  equal(placesText(layout).split("\n").sort(), ["", "1 100 80", "a 0 0", "b 100 0"], "the lines of places");
  equal([vertexAt(layout.places, [95, 4], 20), vertexAt(layout.places, [50, 40], 20)], ["b", null], "the vertex at a point");
  const ahead = ([name, way]) => vertexAhead(layout.places, name, way);
  equal([["a", [1, 0]], ["b", [0, 1]], ["1", [-1, 0]], ["a", [-1, 0]]].map(ahead), ["b", "1", "a", null], "the vertex ahead");
  equal(freePlace(layout), [10, 90], "a free place");
  const wide = layoutOf({ places: { a: [100, 100], b: [100, 200], c: [200, 100] }, sizes: {}, width: 300, height: 300, radius: 20 });
  const spot = (name, pairs) => wordsPlace(wide, pairs, name, 40);
  equal(spot("a", []), [100, 133], "words where there is room: below");
  equal(spot("a", [["a", "b"]]), [100, 67], "words of a vertex with an edge below it");
  equal(spot("a", [["a", "b"], ["a", "c"]]), [100, 67], "words of a vertex with an edge below it and one to the right");
  equal(spot("b", [["a", "b"]]), [100, 233], "words of a vertex with an edge above it");
  const left = layoutOf({ places: { a: [30, 150], b: [180, 80], c: [180, 220], d: [130, 150] }, sizes: {}, width: 200, height: 300, radius: 20 });
  equal(wordsPlace(left, [["a", "b"], ["a", "c"]], "a", 80), [40, 183], "words that are moved into the picture");
}

/* A wide layout on a narrow page is turned, and its circles and letters grow; on a wide page it stays as it is. */
function fits() {
  const given = layoutOf({ places: { a: [50, 50], b: [450, 50], c: [850, 150] }, sizes: { a: 11, b: 11, c: 5 }, width: 900, height: 200,
    radius: 21, room: 36, turns: true });
  const wide = fitted(given, 1000, 700), narrow = fitted(given, 330, 500), again = fitted(narrow, 1000, 700);
  const plain = ({ places: at, width, radius, zoom, least }) => [[...at.values()], width, radius, zoom, least];
  equal(plain(wide), [[...given.places.values()], 900, 21, 1, 0], "a layout that has room");
  equal([...narrow.places.values()], [[50, 50], [50, 450], [150, 850]], "a layout that is turned");
  equal([narrow.width, narrow.zoom, narrow.radius, narrow.least], [200, 36 / 21, 36, 11 * 1.8], "its circles and its least letters");
  equal(narrow.sizes, new Map([["a", (11 * 36) / 21], ["b", (11 * 36) / 21], ["c", (5 * 36) / 21]]), "its names");
  equal(plain(again), plain(wide), "a layout on a page that was made wider");
  equal(placesText(narrow), placesText(given), "the places of a layout that was turned");
  const kept = fitted({ ...given, turns: false }, 330, 500);
  equal([...kept.places.values()], [...given.places.values()], "places that somebody has given");
  equal([shortened("constructor", 20, 60), shortened("ann", 20, 60)], ["con\u2026", "ann"], "names that are too long, and that fit");
}

export function failures() {
  for (const part of [replies, commands, faults, games, ranks, places, fits]) part();
  return failures_;
}
