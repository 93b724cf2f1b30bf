/* Where the vertices of a layout stand: a map from names to places [x, y]. */

/* A layout as the server gives it. */
export function layoutOf(given) {
  return { ...given, places: new Map(Object.entries(given.places)), sizes: new Map(Object.entries(given.sizes)) };
}

/* The lines `name x y` of the places of a layout, as they were before it was fitted. */
export function placesText({ places, original }) {
  if (original) return placesText(original);
  return [...places].map(([name, [x, y]]) => `${name} ${x} ${y}\n`).join("");
}

/** @type {(pairs: any[]) => any} */
function least(pairs) {
  return pairs.reduce((best, each) => (each[0] < best[0] ? each : best), [Infinity, null]);
}

/* The vertex at a point, or null if none is so near. */
export function vertexAt(places, [x, y], reach) {
  const [far, name] = least([...places].map(([each, [u, v]]) => [Math.hypot(u - x, v - y), each]));
  return far <= reach ? name : null;
}

/* The vertex that is nearest to another in a direction, or null if there is none. */
export function vertexAhead(places, name, [right, down]) {
  const [x, y] = places.get(name);
  return least([...places].map(([other, [u, v]]) => {
    const along = (u - x) * right + (v - y) * down, aside = Math.abs((u - x) * down) + Math.abs((v - y) * right);
    return [along > 1 ? along + 2 * aside : Infinity, other];
  }))[1];
}

/* Of some places in a picture the one that is farthest from all vertices. */
export function freePlace({ places, width, height }) {
  const parts = Array.from({ length: 9 }, (_, i) => (i + 1) / 10);
  const spots = parts.flatMap((down) => parts.map((right) => [width * right, height * down]));
  const room = (/** @type {number[]} */ [x, y]) => Math.min(...[...places.values()].map(([u, v]) => Math.hypot(u - x, v - y)));
  return least(spots.map((spot) => [-room(spot), spot]))[1];
}

/* Where words of a width beside a vertex lie on as little as may be: below it, above it, or to a side. `pairs` are the ends of edges. */
const HIGH = 8, STEPS = 24, AWAY = 13, ASIDE = 6, NEAR = 6, ON_CIRCLE = 100;

export function wordsPlace({ places, radius, width, height }, pairs, name, wide) {
  const [x, y] = places.get(name), half = wide / 2, side = radius + half + ASIDE, slant = 0.75 * radius + half, high = radius + AWAY;
  const spots = [[0, high], [0, -high], [side, 0], [-side, 0],
    ...[[half / 2, high], [slant, radius]].flatMap(([right, down]) => [[right, down], [-right, down], [right, -down], [-right, -down]])];
  const inside = (at, reach, most) => Math.min(Math.max(at, reach), most - reach);
  const cost = (/** @type {number[]} */ [u, v]) => {
    const beside = ([z, w], more) => Math.abs(z - u) < half + more && Math.abs(w - v) < HIGH + more;
    const apart = ([z, w]) => Math.hypot(Math.max(Math.abs(z - u) - half, 0), Math.max(Math.abs(w - v) - HIGH, 0));
    const circles = [...places.values()].filter((place) => apart(place) < radius - 1).length;
    const lines = pairs.map((ends) => ends.map((end) => places.get(end))).flatMap(([[a, b], [c, d]]) =>
      Array.from({ length: STEPS }, (_, i) => [a + ((c - a) * i) / STEPS, b + ((d - b) * i) / STEPS])).filter((point) => beside(point, NEAR));
    return ON_CIRCLE * circles + lines.length;
  };
  return least(spots.map(([right, down]) => [inside(x + right, half, width), inside(y + down, HIGH, height)]).map((spot) => [cost(spot), spot]))[1];
}

/* A layout for a page of this width and height. If it would be drawn small, it is turned where that helps, and circles and letters grow
   as far as there is room between the vertices. On a small screen no letters are smaller than so many pixels. */
export const SMALL = 600;

const LEAST = 11, GAIN = 1.2, GAP = 6;

export function fitted(layout, wide, high) {
  const own = layout.original || layout, scaleOf = ({ width, height }) => Math.min(wide / width, high / height);
  const turned = { ...own, width: own.height, height: own.width, places: new Map([...own.places].map(([name, [x, y]]) => [name, [y, x]])) };
  const laid = own.turns && scaleOf(own) < 1 && scaleOf(turned) > GAIN * scaleOf(own) ? turned : own, scale = Math.min(1, scaleOf(laid));
  const points = [...own.places.values()];
  const apart = Math.min(...points.flatMap(([x, y], i) => points.slice(0, i).map(([z, w]) => Math.hypot(z - x, w - y))), 4 * own.radius);
  const zoom = Math.max(1, Math.min(1 / scale, (apart / 2 - GAP) / own.radius));
  return { ...laid, original: own, zoom, radius: own.radius * zoom, room: own.room * zoom, least: wide < SMALL ? LEAST / scale : 0,
    sizes: new Map([...own.sizes].map(([name, size]) => [name, size * zoom])) };
}

/* A name, or its beginning if it is too long for letters of a size. */
const WIDE = 0.62;

export function shortened(name, size, room) {
  const most = Math.max(3, Math.floor(room / (WIDE * size)));
  return name.length > most ? `${name.slice(0, most - 1)}\u2026` : name;
}
