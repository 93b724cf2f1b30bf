/* Says the texts of the table of a language, in which a {vertex} is a vertex, or a house as in the handout. */

import { GRAMMAR } from "./grammar.js";
import { TEXTS } from "./table.js";

const LIMITS = Object.fromEntries(Object.entries(GRAMMAR.limits).map(([name, count]) => [name.split("::")[1], count]));
let houses = false;

/* An address in the language of this page. */
export const inLanguage = (path) => `${path}${path.includes("?") ? "&" : "?"}lang=${TEXTS.page.language}`;

/* A text with what is put in its places: {0} and so on, a chosen word, or a limit. Of two forms the first is for the number 1. */
export function t(name, ...given) {
  const [group, key] = name.split(/\.(.*)/), forms = [TEXTS[group][key]].flat();
  return forms[given[0] === 1 ? 0 : forms.length - 1].replace(/\{(.*?)\}/g, (_, place) =>
    place in given ? given[place] : place in LIMITS ? LIMITS[place] : TEXTS.words[place][Number(houses)]);
}

/* Says all that stands in the page in these words. Gives whether they were others before. */
export function speak(inHouses) {
  if (houses === inHouses) return false;
  houses = inHouses;
  for (const at of /** @type {any} */ (document.querySelectorAll("[data-text]"))) at.textContent = t(at.dataset.text);
  return true;
}
