/* What the pages with a server share: requests, a question to the reader, files that are saved, and what the browser keeps. */

import { inLanguage, t } from "./texts.js";
import { element, made } from "./viewer.js";
import { firstWords } from "./words.js";

// In milliseconds: the program itself is given two minutes.
const LONG = 150000, SILENT = 10000, LATE = 2000, RETRY = 250, LOOK = 1000, TOO_FAST = 429;

/* What the server says to a request: a thing, or its words if it refuses. */
export async function post(path, thing, patience = LONG) {
  const given = /** @type {RequestInit} */ ({ method: "POST", headers: { "Content-Type": "application/json" }, body: JSON.stringify(thing) });
  // Old browsers know no such signal, and wait.
  const { timeout } = /** @type {any} */ (AbortSignal);
  if (timeout) given.signal = timeout.call(AbortSignal, patience);
  try {
    const got = await fetch(inLanguage(path), given);
    return got.ok ? await got.json() : { refused: await got.text(), status: got.status };
  } catch {
    return { refused: t("page.silent"), status: null };
  }
}

/* What the server has to give. */
export const fetched = (path) => fetch(inLanguage(path));

/* The link of a page to its server: what the player does goes there one after another, and if the page listens, what comes is a stream. The
   server says something every five seconds. If it does not, or if what was played does not come soon, the page listens again. */
export class Link {
  patience; told; lost; turn; fails; source; place; heard; hears; drew;
  /* How long an answer may take, what is done at each kind of event, and when the stream breaks, with whether the server refuses it. */
  constructor(patience = LONG, told = {}, lost = null) {
    Object.assign(this, { patience, told, lost, turn: Promise.resolve(), fails: 0, source: null, heard: 0, hears: false, drew: () => {} });
    // The clock of the computer may be set meanwhile.
    const look = () => performance.now() - this.heard > SILENT && this.breaks();
    setInterval(look, LOOK);
    document.addEventListener("visibilitychange", look);
  }

  /* Does something after all that was to be done before it, but not after something that got no answer. */
  inTurn(act) {
    const { fails } = this;
    this.turn = this.turn.catch(() => {}).then(() => (fails === this.fails ? act() : null));
    return this.turn;
  }

  async post(path, thing, patience = this.patience) {
    const got = await post(path, thing, patience);
    if (got.status === null) {
      this.fails++;
      this.breaks();
    }
    if (got.status !== TOO_FAST) return got;
    await new Promise((done) => setTimeout(done, RETRY));
    return this.post(path, thing, patience);
  }

  /* What the program says to a question: its status, its answer and its fault. */
  async ask(question) {
    const said = await this.post("ask", question, LONG);
    return said.refused ? { status: said.status, out: "", err: said.refused } : said;
  }

  /* Waits until the page has drawn what was played. */
  async until(held) {
    const late = setTimeout(() => this.source && this.listen(this.place), LATE);
    while (this.source && !held()) await new Promise((done) => Object.assign(this, { drew: done }));
    clearTimeout(late);
  }

  /* Listens at an address, which is asked for each time. */
  listen(place) {
    const { hears } = this;
    this.close();
    const source = new EventSource(inLanguage(place()));
    Object.assign(this, { place, source, hears, heard: performance.now() });
    for (const [kind, act] of Object.entries(this.told)) {
      source.addEventListener(kind, (event) => {
        Object.assign(this, { heard: performance.now(), hears: true });
        act(event.data && JSON.parse(event.data));
      });
    }
    source.addEventListener("error", () => {
      this.hears = false;
      this.lost(source.readyState === EventSource.CLOSED);
    });
  }

  breaks() {
    if (!this.source) return;
    this.hears = false;
    this.lost(false);
    this.listen(this.place);
  }

  close() {
    if (this.source) this.source.close();
    Object.assign(this, { source: null, hears: false });
    this.drew();
  }
}

/* Asks whether something shall be done. */
export function sure(words) {
  const box = element("sure");
  box.querySelector("p").textContent = words;
  box.returnValue = "no";
  box.showModal();
  return new Promise((done) => box.addEventListener("close", () => done(box.returnValue === "yes"), { once: true }));
}

export function save(file, text, kind = "text/plain") {
  const link = made("a", "", { href: URL.createObjectURL(new Blob([text], { type: kind })), download: file });
  link.click();
  setTimeout(() => URL.revokeObjectURL(link.href), 10000);
}

/* Starts a page, and says so if it can't. */
export async function startPage(start) {
  try {
    await start();
  } catch (fault) {
    document.body.prepend(made("p", t("page.start"), { role: "alert" }));
    throw fault;
  }
}

/* The words of the first minute, until a second move is made in this browser. */
const TAUGHT = "dollar taught";

export function wordsOnce(game, now) {
  if (now > 1) store("localStorage", TAUGHT, true);
  return stored("localStorage", TAUGHT) ? "" : firstWords(game, now);
}

/* In how few moves a table was won in this browser, after it was won in so many or was not; null if it never was. */
const FEWEST = "dollar fewest", TABLES = 100;

export function fewest(table, moves = null) {
  const before = stored("localStorage", FEWEST) || [], found = before.find(([text]) => text === table), best = found ? found[1] : null;
  if (moves === null || (best !== null && best <= moves)) return best;
  store("localStorage", FEWEST, [...before.filter((each) => each !== found), [table, moves]].slice(-TABLES));
  return moves;
}

/* What the browser keeps for a page. If it keeps nothing, or not so much, it lasts as long as the page. */
export function stored(storage, key) {
  try {
    return JSON.parse(/** @type {any} */ (window)[storage].getItem(key));
  } catch {
    return null;
  }
}

export function store(storage, key, thing) {
  try {
    /** @type {any} */ (window)[storage].setItem(key, JSON.stringify(thing));
  } catch {
    /* It is not kept. */
  }
}
