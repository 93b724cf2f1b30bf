/* Questions about the board that is shown: whether it can be won, and its rank. The program answers each, and it leaves no entry. */

import { still } from "./board.js";
import { t } from "./texts.js";
import { below, bind, element, lost, made } from "./viewer.js";
import { answerOf, debtWords, dollars, faultWords, linesOf, numbersOf, planned, rankWords, replyWords } from "./words.js";

/* How many edges lead from a vertex to those that burn. */
function edgesTo(name, burning, edges) {
  const ends = [...edges].map(([key, count]) => [...key.split(" "), count]);
  return ends.reduce((sum, [u, v, count]) => sum + ((u === name && burning.includes(v)) || (v === name && burning.includes(u)) ? count : 0), 0);
}

export class Questions {
  viewer; ask; play; shown; table; reply;
  /* `ask` puts a question to the program, `play` plays a line, and `shown` is called with what is drawn of an answer. */
  constructor(viewer, ask, play, shown) {
    Object.assign(this, { viewer, ask, play, shown, table: null, reply: null });
    bind({ "ask-won": () => this.won(), "ask-rank": () => this.rank(), "show-script": () => this.showScript(), "show-fire": () => this.fire() });
  }

  now() {
    return `${JSON.stringify(this.viewer.game.tableAt(this.viewer.now))}\n`;
  }

  clear() {
    this.reply = this.table = null;
    this.tell("", "");
  }

  tell(words, printed) {
    element("told-words").textContent = words;
    element("told-printed").textContent = printed;
    element("told-line").hidden = !printed;
    element("told-fire").replaceChildren();
    element("show-script").hidden = element("show-fire").hidden = true;
  }

  /* The answer to a question, or null after the fault was told. */
  async answer(question) {
    this.table = this.now();
    const table = this.table, said = await this.ask({ table, ...question });
    if (this.table !== table || table !== this.now()) return null;
    if (said.status === 0) return said.out;
    this.tell(said.late ? t("ask.late") : faultWords(said.err), `dollar: ${said.err}\n`);
    return null;
  }

  show(given) {
    this.viewer.board.show(this.viewer.picture(given));
    this.shown(this.viewer.board.picture);
  }

  async won() {
    const printed = await this.answer({ command: "judge" });
    if (printed === null) return;
    const reply = answerOf(linesOf(printed)[0]), { game, now } = this.viewer, { amounts } = game.states[now];
    this.tell(replyWords(reply, amounts, game.table.q), printed);
    this.reply = reply;
    element("show-script").hidden = below(reply.script, planned).size === 0;
    element("show-fire").hidden = reply.kind === "winnable";
    this.viewer.showText();
    this.show({ says: below(reply.script, planned) });
  }

  showScript() {
    this.play(`script ${[...below(this.reply.script, (count) => count)].map((pair) => pair.join("=")).join(",")}`);
  }

  async rank() {
    const printed = await this.answer({ command: "rr" });
    if (printed === null) return;
    const { rank } = numbersOf(linesOf(printed)[0]);
    const tested = await this.answer({ command: "rank", degree: String(Number(rank) + 1) });
    if (tested === null) return;
    const { loss } = answerOf(linesOf(tested)[0]);
    this.tell(rankWords(rank, loss), printed + tested);
    this.viewer.showText();
    this.show({ says: below(loss || new Map(), lost) });
  }

  /* The fire, in the order that the program tells. */
  async fire() {
    const { burning, reduced } = this.reply, { edges } = this.viewer.picture(), asked = this.reply;
    element("show-fire").hidden = true;
    element("step").textContent = t("ask.after");
    element("answer").textContent = debtWords(reduced);
    for (const [count, next] of burning.entries()) {
      if (count > 0 && !still.matches) await new Promise((done) => setTimeout(done, 700));
      if (this.reply !== asked) return;
      const hot = edgesTo(next, burning.slice(0, count), edges), has = dollars(reduced.get(next));
      const why = count === 0 ? t("ask.owes") : t("ask.hot", hot, has);
      this.line(t("ask.burns", next, why));
      if (count + 1 === burning.length) this.line(t("ask.all"));
      this.show({ amounts: reduced, burnt: burning.slice(0, count + 1) });
    }
  }

  line(words) {
    element("told-fire").append(made("li", words));
  }
}
