/* Reads lines of steps and of histories, and says them in words. The amounts that a line has are those that are shown. Of the rules only
   `flows` is here, and that a join adds an edge. Names are keys of maps, for a vertex may be called `constructor`, or 2 before 1. */

import { GRAMMAR } from "./grammar.js";
import { TEXTS } from "./table.js";
import { t } from "./texts.js";

/* The words of replies that need more than how many changes there were, and who owes. */
const REPLIES = {
  unread: () => "",
  winnable: ({ reduced }, _, q) => t("replies.winnable", q, reduced.get(q)),
  unwinnable: ({ reduced }, _, q) => t("replies.unwinnable", q, -reduced.get(q)),
  refused: ({ cause }) => t("replies.refused", cause in TEXTS.refusals ? t(`refusals.${cause}`) : cause),
  rank: ({ degree, loss }) => (loss ? t("replies.below", degree, lossWords(loss)) : t("replies.rank", degree, dollars(degree))),
  moved: (_, amounts) => debtWords(amounts),
};

export function replyWords(reply, amounts, q) {
  const { kind, gifts } = reply;
  return REPLIES[kind] ? REPLIES[kind](reply, amounts, q) : t(`replies.${kind}`, gifts, debtWords(amounts));
}

/* What stands for the parts of a reply's form: g changes and k dollars that are lost, P amounts, N all vertices as they burn. */
const PARTS = { P: String.raw`(\w+=-?\d+(?: \w+=-?\d+)*)`, N: String.raw`(\w+(?: \w+)*)`, g: String.raw`(\d+)`, k: String.raw`(\d+)` };
const AMOUNTS = { winnable: ["script", "reduced"], unwinnable: ["script", "reduced"], rank: ["loss"] };

function formOf(text) {
  const kind = /^(not won|rank|refused|\w+)/.exec(text)[1].replace(" ", "-"), amounts = [...(AMOUNTS[kind] || ["amounts"])];
  if (kind === "refused") return [kind, /^refused (\w+)$/, ["cause"]];
  const parts = text.split(" "), named = { g: () => "gifts", k: () => "degree", P: () => amounts.shift(), N: () => "burning" };
  const form = new RegExp(`^${parts.map((part) => PARTS[part] || part).join(" ")}$`);
  return [kind, form, parts.filter((part) => PARTS[part]).map((part) => named[part]())];
}

const FORMS = [...GRAMMAR.replies, ...GRAMMAR.ordered].map(formOf);

export function stepOf(line) {
  const [seat, word, ...given] = line.split(" ");
  const step = { line, seat, word, given, script: null };
  if (word === "lend") step.script = new Map([[given[0], 1]]);
  if (word === "borrow") step.script = new Map([[given[0], -1]]);
  if (word === "fire") step.script = new Map(given[0].split(",").map((name) => [name, 1]));
  if (word === "script") step.script = pairsOf(given[0].split(","));
  return step;
}

export function pairsOf(texts) {
  return new Map(texts.map((text) => text.split("=")).map(([name, amount]) => [name, Number(amount)]));
}

export function answerOf(line) {
  for (const [kind, form, fields] of FORMS) {
    const found = form.exec(line);
    if (found) return Object.assign({ line, kind }, Object.fromEntries(fields.map((field, i) => [field, valueOf(field, found[i + 1])])));
  }
  return { line, kind: "unread" };
}

export function replyOf(line) {
  const found = /^\d+ (.*)$/.exec(line);
  return { ...(found ? answerOf(found[1]) : { kind: "unread" }), line };
}

function valueOf(field, text) {
  if (field === "burning") return text.split(" ");
  if (text.includes("=")) return pairsOf(text.split(" "));
  return /^\d+$/.test(text) ? Number(text) : text;
}

export function linesOf(text) {
  return text === "" ? [] : text.split("\n").slice(0, text.endsWith("\n") ? -1 : undefined);
}

/* A game: a table, the steps, and what was printed of them. The board after each step is the one that the line has. */
export class Game {
  constructor(table) {
    this.table = table;
    this.names = table.vertices;
    const edges = new Map();
    for (const [u, v, count] of table.edges) edges.set(this.pairKey(u, v), (edges.get(this.pairKey(u, v)) || 0) + count);
    const amounts = new Map(this.names.map((name, i) => [name, table.amounts[i]]));
    this.steps = [];
    this.replies = [];
    this.states = [{ edges, added: new Map(), amounts, moves: 0, helped: false }];
  }

  get length() {
    return this.steps.length;
  }

  pairKey(u, v) {
    return this.names.indexOf(u) < this.names.indexOf(v) ? `${u} ${v}` : `${v} ${u}`;
  }

  add(stepLine, replyLine) {
    const step = stepOf(stepLine), reply = replyOf(replyLine);
    this.states.push(this.stateAfter(this.states[this.length], step, reply));
    this.steps.push(step);
    this.replies.push(reply);
  }

  stateAfter(before, step, /** @type {any} */ { kind, amounts }) {
    if (!amounts) return before;
    // A move counts once for each time that a vertex lends or borrows in it.
    const count = [...(step.script || [["", 1]])].reduce((sum, [, times]) => sum + Math.abs(times), 0);
    if (kind === "moved") return { ...before, amounts, moves: before.moves + count };
    const helped = before.helped || kind === "given" || kind === "joined";
    // A history may have been changed, so that its reply is to another step.
    if (kind !== "joined" || step.word !== "join" || step.given.length !== 2) return { ...before, amounts, helped };
    const key = this.pairKey(...step.given), one = (counts) => new Map([...counts, [key, (counts.get(key) || 0) + 1]]);
    return { edges: one(before.edges), added: one(before.added), amounts, moves: before.moves, helped };
  }

  /* Whether nobody owes after so many steps, and somebody did at the start. */
  isWon(index) {
    return owing(this.states[index].amounts).length === 0 && owing(this.states[0].amounts).length > 0;
  }

  /* The player was helped, so that this game is no best. */
  help() {
    this.states = this.states.map((state) => ({ ...state, helped: true }));
  }

  cut(length) {
    this.steps.length = this.replies.length = length;
    this.states.length = length + 1;
  }

  /* The table as it stands after so many steps. */
  tableAt(index) {
    const { edges, amounts } = this.states[index];
    return { vertices: this.names, edges: [...edges].map(([key, count]) => [...key.split(" "), count]),
      amounts: this.names.map((name) => amounts.get(name)), q: this.table.q };
  }
}

/* What goes along the edges in a move: its vertices lend so often along each of theirs, and what two ends send each other cancels. */
export function flows(edges, script) {
  const times = (name) => script.get(name) || 0;
  return [...edges].map(([key, count]) => {
    const [u, v] = key.split(" "), each = times(u) - times(v);
    return each > 0 ? { key, count, from: u, to: v, each } : { key, count, from: v, to: u, each: -each };
  }).filter(({ each }) => each > 0);
}

export const dollars = (count) => t("said.dollars", count);
export const movesWords = (count) => t("said.moves", count);
export const madeWords = (count) => t("said.made", count);

export function listed(words) {
  return words.length < 2 ? words.join("") : t("said.and", words.slice(0, -1).join(", "), words[words.length - 1]);
}

/* Sentences one after another, of which some may be none. */
export const joined = (...sentences) => sentences.filter(Boolean).join(" ");

export function often(count) {
  return t(count === 0 ? "said.nothing" : count > 0 ? "said.lends" : "said.borrows", Math.abs(count));
}

export function planned(count) {
  return t(count > 0 ? "said.to-lend" : "said.to-borrow", Math.abs(count));
}

/* The words of commands that need more than what stands in them. */
const COMMANDS = {
  fire: ([names]) => (names.includes(",") ? t("commands.fire", listed(names.split(","))) : t("commands.lend", names)),
  script: (_, script) => t("commands.script", listed([...script].map(([name, count]) => `${name} ${often(count)}`))),
  gift: ([name, amount]) => t(amount.startsWith("-") ? "commands.levy" : "commands.gift", dollars(Math.abs(amount)), name),
};

export function commandWords({ word, given, script }) {
  return COMMANDS[word] ? COMMANDS[word](given, script) : word in TEXTS.commands ? t(`commands.${word}`, ...given) : word;
}

export function flowWords(edges, script) {
  const told = flows(edges, script).map(({ from, to, each, count }) => t("said.flow", each * count, from, to));
  return told.length ? t("said.flows", listed(told)) : t("said.no-flow");
}

export const owing = (amounts) => [...amounts].filter(([, amount]) => amount < 0);

export function startWords(steps) {
  return t(steps === 0 ? "said.start" : "said.before", steps);
}

/* What was reached: whether the table is done, the fewest moves without help, and the fewest that there can be; null where one is not known. */
export function reachedWords({ won, moves, helped = false, is_done = won, best = null, least = null, is_right = false }) {
  if (is_right && !won) return t("reached.right");
  if (!won && !is_done) return "";
  const now = t(helped ? "reached.helped" : "reached.solved", movesWords(moves)), fewest = best === null ? moves : best;
  return joined(won ? now : best === null ? t("reached.done") : t("reached.before", movesWords(best)),
    won && !helped && best !== null && best < moves && t("reached.best", best),
    least !== null && (won || best !== null) && t(fewest <= least ? "reached.least" : "reached.fewer", least));
}

/* Stars for a table: three for the fewest moves that there can be, or for the answer that it can't be done, two for one more, or after a
   wrong answer, and one when it is done. */
export function starsOf({ is_done = false, best = null, least = null, is_right = false, wrongs = 0 }) {
  if (!is_done) return 0;
  if (is_right) return wrongs > 0 ? 2 : 3;
  return best === null || least === null ? 1 : Math.max(1, 3 - (best - least));
}

export const starsText = (count) => "\u2605".repeat(count) + "\u2606".repeat(3 - count);

/* How a table is called: a file by its name, which is no title as it stands. */
export function called(name) {
  return name.replace(/\.json$/, "").replaceAll("_", " ").replace(/^\p{Ll}/u, (letter) => letter.toUpperCase());
}

/* The first minute: what is to be done at the start, and after the first move. */
export function firstWords({ states, steps }, now) {
  if (now > 1 || owing(states[now].amounts).length === 0 || (now === 1 && !steps[0].script)) return "";
  return now === 0 ? t("play.first") : t("play.second", commandWords(steps[0]));
}

export function debtWords(amounts) {
  const told = owing(amounts).map(([name, amount]) => t("said.owes", name, -amount));
  return told.length ? t("said.debts", listed(told)) : t("said.no-debts");
}

/* Who loses something, each in the words of a text. */
function losers(loss, text) {
  return listed([...loss].filter(([, count]) => count > 0).map(([name, count]) => t(text, name, dollars(count))));
}

export function lossWords(loss) {
  return losers(loss, "said.loss") || t("said.no-loss");
}

/* What the program says of a rank, by the line of a sweep: past the limits of one test a loss may be `?`. */
export function numbersOf(line) {
  const words = line.split(" ");
  return Object.fromEntries(words.filter((_, i) => i % 2 === 0).map((name, i) => [name, words[2 * i + 1]]));
}

/* The rank, with the loss that shows that it is no more, if there is one. */
export function rankWords(rank, loss) {
  const degree = Number(rank) + 1, past = loss ? t("ask.rank-if", losers(loss, "ask.loses")) : t("ask.rank-some", dollars(degree));
  return joined(t("ask.rank-is", rank), degree === 0 ? t("play.no-help") : past);
}

/* Why a vertex can't have a name beside others, or nothing if it can. */
export function nameWords(name, others) {
  if (!/^\w+$/.test(name) || name.length > GRAMMAR.limits["dg_tokens::MAX_NAME"]) return t("said.name");
  return others.includes(name) ? t("said.called", name) : "";
}

/* A fault of the program in words for players: # is a number, from 0; beside it the server says the value, the limit and the file. */
export function faultWords(text, otherwise = t("said.refused")) {
  const [fault] = text.split(/[:,] /), key = fault.replace(/\d+/, "#");
  return key in TEXTS.faults ? t(`faults.${key}`, Number(/\d+/.exec(fault)) + 1, t("said.name")) : otherwise;
}
