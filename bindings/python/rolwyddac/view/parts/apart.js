/* Boards that share no memory: packets in flight, lost and repeated, crashes and starts */

const POST = 1, ARRIVE = 2, LOSE = 3, AGAIN = 4, CRASH = 5, START = 6, ALL = 7;
const FLYING = 'in flight', TAKEN_IN = 'taken in', TURNED = 'turned away, it was here before', GONE = 'lost', NOBODY = 'lost, its board was down';
const BOARD_WORDS = 5;

const boardWords = (words, p) => Array.from(words.subarray(BOARD_WORDS * p, BOARD_WORDS * p + BOARD_WORDS));
const isUp = (words, p) => boardWords(words, p)[1] === 1;
const markThere = (words, m, taker) => words[BOARD_WORDS * PROCESSORS + 2 * m + (taker ? 1 : 0)];

/* Each packet: its message, the events that begin and end it, and what became of it */
function packetsOf(scene) {
  const found = scene.data.packets.map(m => ({m, born: NEVER, end: NEVER, fate: FLYING}));
  scene.data.events.forEach(([kind, which, number, packet], k) => {
    if ((kind === POST || kind === AGAIN) && packet !== null) found[packet].born = k + 1;
    if (kind !== ARRIVE && kind !== LOSE) return;
    Object.assign(found[packet], {end: k + 1, fate: kind === LOSE ? GONE : number === null ? NOBODY : number ? TURNED : TAKEN_IN});
  });
  return found;
}
const fateAt = (packet, t) => packet.end <= t ? packet.fate : FLYING;

function boardOf([kind, which], packets) {
  if (kind === TURN || kind === CRASH || kind === START) return which;
  if (kind === POST || kind === AGAIN) return PLANS[0].messages[which].by;
  return PLANS[0].messages[packets[which].m].taker;
}
function apartSign(scene, k, g) {
  const event = scene.data.events[k], [kind, , number] = event, x = g.X(k), packets = scene.packets;
  if (kind === ALL) return `<path d="M${x - 6} ${g.Y(BUSY.length)} h12 M${x} ${g.Y(BUSY.length) - 6} v12" stroke="${INK}" stroke-width="2"/>`;
  const p = boardOf(event, packets), y = g.Y(laneOf(p)), bar = wide => `<path d="M${x} ${y - 9} V${y + 9}" stroke="${INK}" stroke-width="${wide}"/>`;
  if (kind === CRASH) return bar(4) + smallText(x, y - 10, 'crash');
  if (kind === START) return bar(1.5) + smallText(x, y - 10, 'start');
  if (kind === LOSE) return crossSign(x, y, INK) + smallText(x, y - 8, 'lost');
  if (number) return crossSign(x, y) + smallText(x, y - 8, number);
  if (kind === ARRIVE) return number === null ? crossSign(x, y, INK) : dotSign(x, y, MAIL, false);
  if (kind === POST || kind === AGAIN) return dotSign(x, y, MAIL, true) + (kind === AGAIN ? smallText(x, y - 8, 'again') : '');
  return stageSign(boardWords(scene.wordsAt(k), p)[3], x, y, INK, false);
}
/* Behind the lanes: boards that are down, and the way of each packet */
function apartGround(scene, g) {
  const found = [], X = t => g.X(Math.max(g.from - .5, Math.min(g.to - .5, t - 1)));
  scene.packets = packetsOf(scene);
  for (let k = g.from; k < g.to; k++) {
    for (const p of BUSY.filter(p => !isUp(scene.wordsAt(k + 1), p))) {
      const lane = `x="${g.X(k) - COLUMN / 2}" y="${g.Y(laneOf(p)) - LANE / 2 + 1}" width="${COLUMN}" height="${LANE - 2}"`;
      found.push(`<rect class="down" ${lane} fill="url(#aparthatch)" opacity=".55"/>`);
    }
  }
  for (const packet of scene.packets) {
    if (packet.born > g.to || packet.end < g.from) continue;
    const {by, taker} = PLANS[0].messages[packet.m], lost = packet.fate === GONE || packet.fate === NOBODY;
    const pen = lost ? `stroke="${INK}" stroke-dasharray="3 3"` : 'stroke="#a9876c"';
    const way = `M${X(packet.born)} ${g.Y(laneOf(by))} L${X(packet.end)} ${g.Y(laneOf(taker))}`;
    found.push(`<path class="packet" d="${way}" fill="none" stroke-width="1.3" ${pen}/>`);
  }
  return found.join('');
}
/* What became of a packet, in words */
function packetTold(scene, [kind, which, number], refused) {
  const {m} = packetsOf(scene)[which], name = `packet ${which}, of message ${m}, `;
  if (kind === LOSE) return [name + 'is lost', 'Nothing is told of it. Who waits for it goes on waiting, until it is posted again.'];
  const there = name + `arrives at board ${PLANS[0].messages[m].taker}`;
  if (number === null) return [there, 'The board is down: nobody takes it.'];
  return [there, number ? `It came before, and is turned away. ${refused}` : 'Its words are put into the board\'s mail.'];
}
function apartTold(scene, k) {
  const event = scene.data.events[k], [kind, which, number, packet] = event;
  const refused = number ? `${D.numbers[number][0]}: ${D.numbers[number][1]}. Every word is as before.` : '';
  if (kind === TURN) return [`turn of board ${which}`, refused || turnText(which, boardWords(scene.wordsAt(k), which).slice(2))];
  if (kind === ARRIVE || kind === LOSE) return packetTold(scene, event, refused);
  if (kind === CRASH) return [`board ${which} crashes`, 'All that it had is gone: memory, mail, record and marks.'];
  if (kind === START) {
    return [`board ${which} starts again`, 'With nothing: it makes a fresh start, and calculates its tiles again. What was mailed to it has to come again.'];
  }
  if (kind === ALL) return ['collecting', refused || `Each board puts its part into the grid: ${plural(CELLS, 'word')}.`];
  const {by, taker, words} = PLANS[0].messages[which], name = `board ${by} posts message ${which}`;
  if (kind === POST) return [name, refused || `Packet ${packet} is on its way to board ${taker}, with ${plural(words, 'word')}.`];
  return [name + ' again', `Packet ${packet} is on its way. The words are still in the board's mail: no later call writes there.`];
}
function apartTables(scene, words) {
  const packets = packetsOf(scene);
  const line = p => {
    const [starts, up, ...record] = boardWords(words, p), tile = tilesOn[p][record[0]];
    const due = !up || tile === undefined || record[1] ? [] : PLANS[0].takenBy[tile].filter(m => markThere(words, m, true) < 2);
    if (!up) return row([p, ['down', 't'], starts, '–', ['–', 't'], ['–', 't']]);
    return row([p, ['up', 't'], starts, `${record[0]} of ${tilesOn[p].length}`, [stageText(p, record), 't'], [due.length ? list(due) : '–', 't']]);
  };
  const sent = packets.map((packet, k) => [packet, k]).filter(([packet]) => packet.born <= scene.t).reverse();
  const rows = sent.map(([packet, k]) => {
    const {by, taker} = PLANS[0].messages[packet.m];
    return row([k, packet.m, [`${by} to ${taker}`, 't'], packet.born, [fateAt(packet, scene.t), 't'], packet.end <= scene.t ? packet.end : '–']);
  });
  const boards = head(['board', ['is', 't'], 'starts', 'finished', ['stage', 't'], ['waits for message', 't']]);
  const mail = head(['packet', 'message', ['from board', 't'], 'posted at', ['what became of it', 't'], 'at']);
  return `<div class="runparts"><div><table class="lines">${boards}${BUSY.map(line).join('')}</table></div>` +
    `<div><table class="lines packets">${mail}${rows.join('')}</table></div></div>`;
}
function apartLead(scene) {
  const whole = 'One board for each processor, each with its own part alone, on the direct route. ';
  if (scene.data.live) return whole + 'You choose what happens next; the engine answers with its number.';
  const events = scene.data.events, count = kind => events.filter(event => event[0] === kind).length;
  const away = events.filter(([kind, , number]) => kind === ARRIVE && number).length;
  return `${whole}${plural(scene.count, 'event')}, drawn with seed ${D.seed}: ${plural(count(POST) + count(AGAIN), 'packet')}, of them ` +
    `${fmt(count(AGAIN))} posted again; ${fmt(count(LOSE))} lost, ${fmt(away)} turned away as repeats; crashes: ${fmt(count(CRASH))}. ` +
    'What a transport and a board do amiss is drawn by the command; the answers of the boards are the engine\'s.';
}
const APART_LOOK = {
  lanes: [...BUSY.map(p => 'board ' + p), 'all'], sign: apartSign, ground: apartGround, told: apartTold, tables: apartTables, lead: apartLead,
  fresh: 'Every board is up, and every word of its part is zero. No packet is on its way.',
  key: [
    [signBox(INK), 'gathers'], [signFull(INK), 'calculates'], [`<path d="M4 2 L14 7 L4 12Z" fill="${INK}"/>`, 'sends'],
    [signDot('#fff', MAIL, 1.6), 'posted'], [signDot(MAIL, MAIL, 1.6), 'arrives'], [signPath('M4 2 L14 12 M14 2 L4 12', MAIL), 'refused, with its number'],
    [signPath('M4 2 L14 12 M14 2 L4 12', INK), 'lost'], [SIGN_HATCH, 'down']],
};
addScene('apart', 'Boards', APART_LOOK);
