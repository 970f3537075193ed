/* The recipe: cells, tiles, processors, and the messages of each route */

const N = D.lengths.length;
const CELLS = product(D.lengths);
const TILES = D.places.length;
const SOURCE = words(D.source), GRID = words(D.grid), TILE = halves(D.tile);
const PROCESSORS = D.plans[0].summary[1];
const SHAPED = D.bounds.length > 0;

function placeOf(cell) {
  const place = new Array(N);
  for (let e = N - 1; e >= 0; e--) {
    place[e] = cell % D.lengths[e];
    cell = (cell - place[e]) / D.lengths[e];
  }
  return place;
}
const numberOf = place => place.reduce((a, x, e) => a * D.lengths[e] + x, 0);
const inBox = place => place.every((x, e) => x >= 0 && x < D.lengths[e]);

/* The cell a distance further (1) or back (-1); -1 outside the box or the shape */
function moved(cell, distance, sign) {
  const place = placeOf(cell).map((x, e) => x + sign * distance[e]);
  if (!inBox(place)) return -1;
  const found = numberOf(place);
  return TILE[found] === OUTSIDE ? -1 : found;
}

const cellsOf = lists(TILES);
TILE.forEach((t, c) => { if (t !== OUTSIDE) cellsOf[t].push(c); });
const tilesOn = lists(PROCESSORS);
D.on.forEach((p, t) => tilesOn[p].push(t));
const orderOn = new Array(TILES);
tilesOn.forEach(tiles => tiles.forEach((t, k) => { orderOn[t] = k; }));
const tileAt = new Map(D.places.map((place, t) => [place.join(), t]));

/* A tile's first and last place */
const lowest = t => D.places[t].map((x, e) => x * D.tiling[e]);
const highest = t => D.places[t].map((x, e) => Math.min((x + 1) * D.tiling[e], D.lengths[e]) - 1);

/* Processors without a tile have no lane; what is called on them stands in the last lane, with what concerns all */
const BUSY = upTo(PROCESSORS).filter(p => tilesOn[p].length);
const IDLE = upTo(PROCESSORS).filter(p => !tilesOn[p].length);
const laneOf = p => { const lane = BUSY.indexOf(p); return lane < 0 ? BUSY.length : lane; };
const idleText = IDLE.length ? `${plural(IDLE.length, 'processor')} without a tile (${ranges(IDLE)}) not shown.` : '';

function planOf(plan) {
  const rows = halves(plan.rows), counts = words(plan.words), cells = halves(plan.cells);
  const messages = [], sentBy = lists(TILES), takenBy = lists(TILES), others = new Map(), told = words(plan.others);
  for (let m = 0, offset = 0; m < counts.length; offset += counts[m++]) {
    const [from, to, by, taker] = rows.subarray(4 * m, 4 * m + 4);
    const v = [...plan.directions[m]].map(Number);
    messages.push({m, from, to, by, taker, v, offset, words: counts[m], hops: plan.hops[m], cells: cells.subarray(offset, offset + counts[m])});
    sentBy[from].push(m);
    takenBy[to].push(m);
  }
  for (let i = 0; i < told.length; i += 3) others.set(told[i] + ':' + told[i + 1], told[i + 2]);
  const events = halves(plan.events);
  return {
    route: plan.route, figures: plan.summary, areas: plan.areas, messages, sentBy, takenBy, others, events,
    readers: bytesOf(plan.readers), numbers: bytesOf(plan.numbers), sums: words(plan.sums),
    pairs: [...others.keys()].filter(key => key.endsWith(':' + SECOND)).length,
    order: Int32Array.from(events, (_, k) => k),
  };
}
const PLANS = D.plans.map(planOf);

/* Who reads a message's word by it: [cell, distance, whether the taker passes it on]. The page has two bytes a word: a bit for each
   distance by which it is read, and one for each by which it is read further on. */
function readers(plan, message, k) {
  const [by, further] = plan.readers.subarray(2 * (message.offset + k), 2 * (message.offset + k) + 2), found = [];
  D.distances.forEach(([d], bit) => {
    if (by >> bit & 1) found.push([moved(message.cells[k], d, 1), bit, Boolean(further >> bit & 1)]);
  });
  return found;
}

/* The sweep once more, by the value's formula: every sum is below 2^52, so a number of this language has it exactly. Gives the number of
   words that are equal to the result's. */
function sweptHere() {
  const grid = new Uint32Array(CELLS), strides = D.lengths.map((_, e) => product(D.lengths.slice(e + 1)));
  const back = D.distances.map(([d]) => total(d.map((x, e) => x * strides[e])));
  const place = new Array(N).fill(0), divisor = 2 ** D.shift;
  let equal = 0;
  for (let c = 0; c < CELLS; c++) {
    grid[c] = D.boundary;
    if (TILE[c] !== OUTSIDE) {
      let sum = SOURCE[c];
      D.distances.forEach(([d, w], k) => {
        const inside = d.every((x, e) => place[e] >= x) && TILE[c - back[k]] !== OUTSIDE;
        sum += w * (inside ? grid[c - back[k]] : D.boundary);
      });
      grid[c] = Math.floor(sum / divisor) % WORD;
    }
    if (grid[c] === GRID[c]) equal++;
    for (let e = N - 1; e >= 0 && ++place[e] === D.lengths[e]; e--) place[e] = 0;
  }
  return equal;
}
