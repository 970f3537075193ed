/* The run. What a moment looks like is never stored: one pass over the calls gives each message, record and memory cell the number of the
   call that changed it, and a moment is a comparison with these numbers. */

const BY_TILE = 1, BY_MAIL = 2;

class Replay {
  constructor(plan, order) {
    const count = order.length, messages = plan.messages.length, cells = PROCESSORS * CELLS;
    const never = length => new Int32Array(length).fill(NEVER);
    Object.assign(this, {
      plan, count, order, differs: 0,
      what: new Uint8Array(count), who: new Int32Array(count), number: new Uint8Array(count),
      tile: new Int32Array(count).fill(-1), message: new Int32Array(count).fill(-1),
      sent: never(messages), delivered: never(messages), taken: never(messages),
      known: never(cells), origin: new Uint8Array(cells), cache: new Array(PROCESSORS),
      history: Array.from({length: PROCESSORS}, () => [[0, 0, 0, 0, 0]]),
    });
    this.status = new Uint8Array(messages);
    this.records = Array.from({length: PROCESSORS}, () => [0, 0, 0]);
    this.writes = new Int32Array(PROCESSORS);
    for (let k = 0; k < count; k++) {
      this.what[k] = REFUSED;
      this.number[k] = this.take(k, plan.events[order[k]] >> 14, plan.events[order[k]] & 0x3fff);
      if (this.number[k]) this.what[k] = REFUSED;
      if (this.number[k] !== plan.numbers[order[k]]) this.differs++;
    }
  }
  learn(p, cells, time, origin) {
    for (const c of cells) {
      const k = p * CELLS + c;
      if (this.known[k] !== NEVER) continue;
      this.known[k] = time;
      this.origin[k] = origin;
    }
  }
  take(k, kind, which) {
    this.who[k] = kind === COLLECT ? -1 : which;
    if (kind === TURN) return this.turn(k, which);
    if (kind === DELIVER) return this.deliver(k, which);
    this.what[k] = COLLECTED;
    return this.records.every((r, p) => r[0] === tilesOn[p].length) ? 0 : 15;
  }
  deliver(k, m) {
    this.message[k] = m;
    this.who[k] = this.plan.messages[m].taker;
    this.tile[k] = this.plan.messages[m].to;
    if (this.status[m] !== 1) return 14;
    this.status[m] = 2;
    this.delivered[m] = k + 1;
    this.what[k] = DELIVERED;
    return 0;
  }
  turn(k, p) {
    const record = this.records[p], plan = this.plan;
    if (record[0] === tilesOn[p].length) return 13;
    const tile = this.tile[k] = tilesOn[p][record[0]], stage = record[1];
    if (stage === GATHER && plan.takenBy[tile].some(m => this.status[m] < 2)) return 12;
    this.what[k] = stage;
    [this.gather, this.calculate, this.send][stage].call(this, p, tile, k);
    if (stage !== SEND) this.writes[p] = k + 1;
    if (record[1] === SEND && record[2] === plan.sentBy[tile].length) record.splice(0, 3, record[0] + 1, GATHER, 0);
    this.history[p].push([k + 1, ...record, this.writes[p]]);
    return 0;
  }
  gather(p, tile, k) {
    for (const m of this.plan.takenBy[tile]) {
      this.status[m] = 3;
      this.taken[m] = k + 1;
      this.learn(p, this.plan.messages[m].cells, k + 1, BY_MAIL);
    }
    this.records[p][1] = CALCULATE;
  }
  calculate(p, tile, k) {
    this.learn(p, cellsOf[tile], k + 1, BY_TILE);
    this.records[p][1] = SEND;
  }
  send(p, tile, k) {
    const m = this.plan.sentBy[tile][this.records[p][2]++];
    this.message[k] = m;
    this.status[m] = 1;
    this.sent[m] = k + 1;
  }
}

/* The record of a processor behind t calls: [call, finished, stage, sent, call of the last write to its memory] */
function recordAt(R, p, t) {
  const h = R.history[p];
  let low = 0, high = h.length - 1;
  while (low < high) {
    const mid = (low + high + 1) >> 1;
    if (h[mid][0] <= t) low = mid; else high = mid - 1;
  }
  return h[low];
}
const markAt = (R, m, t) => R.taken[m] <= t ? 3 : R.delivered[m] <= t ? 2 : R.sent[m] <= t ? 1 : 0;

/* The messages that a processor waits for behind t calls */
function dueAt(R, p, t) {
  const [, finished, stage] = recordAt(R, p, t);
  if (stage || finished === tilesOn[p].length) return [];
  return R.plan.takenBy[tilesOn[p][finished]].filter(m => markAt(R, m, t) < 2);
}

const CRC = Uint32Array.from({length: 256}, (_, n) => {
  for (let k = 0; k < 8; k++) n = n & 1 ? 0xedb88320 ^ (n >>> 1) : n >>> 1;
  return n >>> 0;
});
function crc32(bytes, before = 0) {
  let c = ~before;
  for (let i = 0; i < bytes.length; i++) c = CRC[(c ^ bytes[i]) & 255] ^ (c >>> 8);
  return ~c >>> 0;
}
const asBytes = typed => new Uint8Array(typed.buffer, typed.byteOffset, typed.byteLength);

/* The check number of a processor's memory; kept until its next write */
function memorySum(R, p, t) {
  const key = recordAt(R, p, t)[4], kept = R.cache[p];
  if (kept && kept[0] === key) return kept[1];
  const memory = new Uint32Array(CELLS);
  for (let c = 0, k = p * CELLS; c < CELLS; c++, k++) memory[c] = R.known[k] <= t ? GRID[c] : 0;
  R.cache[p] = [key, crc32(asBytes(memory))];
  return R.cache[p][1];
}

/* The check number of all areas behind t calls, of the words that this page shows */
function sumAt(R, t) {
  const sums = Uint32Array.from({length: PROCESSORS}, (_, p) => memorySum(R, p, t));
  const buffer = new Uint32Array(R.plan.areas[1]), progress = new Uint32Array(3 * PROCESSORS);
  const status = Uint8Array.from(R.plan.messages, msg => markAt(R, msg.m, t));
  for (const msg of R.plan.messages) {
    if (status[msg.m]) for (let k = 0; k < msg.words; k++) buffer[msg.offset + k] = GRID[msg.cells[k]];
  }
  for (let p = 0; p < PROCESSORS; p++) progress.set(recordAt(R, p, t).slice(1, 4), 3 * p);
  return crc32(status, crc32(asBytes(progress), crc32(asBytes(buffer), crc32(asBytes(sums)))));
}

/* The engine's check number where the first t calls of an order are done; undefined where it was not asked. No call stands further from
   where it was recorded than the calls behind one that the engine was asked for. */
function engineSum(plan, order, t) {
  const done = new Set(order.subarray(Math.max(0, t - 3 * D.reach), t));
  let first = Math.max(0, t - D.reach - 1);
  while (done.has(first)) first++;
  const more = [...done].filter(e => e > first);
  if (!more.length) return plan.sums[first];
  if (more.some(e => e > first + D.reach)) return undefined;
  return plan.others.get(first + ':' + total(more.map(e => 2 ** (e - first - 1))));
}

/* An order with two neighbours the other way round */
function turned(order, k) {
  const other = order.slice();
  [other[k], other[k + 1]] = [order[k + 1], order[k]];
  return other;
}
/* May the calls at k and k + 1 of the order be swapped? */
function mayBe(plan, k) {
  const order = plan.order, x = order[k], y = order[k + 1];
  if (k < 0 || k + 1 >= order.length || plan.numbers[x] || plan.numbers[y] || plan.events[x] === plan.events[y]) return false;
  order[k] = y;
  order[k + 1] = x;
  const sum = engineSum(plan, order, k + 1);
  order[k] = x;
  order[k + 1] = y;
  return sum !== undefined;
}
const isTurned = (plan, k) => k >= 0 && k + 1 < plan.order.length && plan.order[k] > plan.order[k + 1];

/* What is chosen: route, cell, tile, message, calls done, scale; whether a cell is held, a pair is open, the run plays */
const S = {
  route: 0, cell: TILE.findIndex(t => t !== OUTSIDE), tile: 0, message: null, t: 0, scale: 'auto', byValue: false, pair: null,
  playing: false, held: false,
};
let plan = PLANS[0], R = new Replay(plan, plan.order);

/* what is drawn once and kept */
const holder = {};
