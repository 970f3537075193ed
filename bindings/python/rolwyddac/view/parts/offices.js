/* Two offices on the same processors: whose turn it is, who holds a processor; and hours: when a processor is closed */

const FREE = 2, DAY_NAMES = ['Mon', 'Tue', 'Wed', 'Thu', 'Fri', 'Sat', 'Sun'], WEEK = 7 * 24 * 60, WINDOW_WORDS = 28;
const minuteText = m => `${DAY_NAMES[Math.floor(m / 1440)]} ${String(Math.floor(m % 1440 / 60)).padStart(2, '0')}:${String(m % 60).padStart(2, '0')}`;

/* Where an office's words stand: records of each office, who holds each processor, marks of each office */
const officeRecord = (scene, words, office, p) => Array.from(words.subarray(3 * (office * PROCESSORS + p), 3 * (office * PROCESSORS + p) + 3));
const holderOf = (scene, words, p) => words[3 * scene.data.offices * PROCESSORS + p];
function officeMark(scene, words, office, m) {
  return words[(3 * scene.data.offices + 1) * PROCESSORS + office * PLANS[0].messages.length + m];
}

/* The windows of a processor in which it is open */
function windowsOf(scene, p) {
  const found = [], table = scene.data.hours;
  for (let k = p * WINDOW_WORDS; k < (p + 1) * WINDOW_WORDS; k += 2) if (table[k + 1]) found.push([table[k], table[k + 1]]);
  return found;
}
const isOpen = (scene, p, minute) => !scene.data.hours || windowsOf(scene, p).some(([open, close]) => minute >= open && minute < close);
function opensAt(scene, p, minute) {
  const waits = windowsOf(scene, p).map(([open]) => (open - minute + WEEK) % WEEK);
  return minuteText((minute + Math.min(...waits)) % WEEK);
}

const OFFICE_INK = [INK, PICK], HELD_GROUND = ['#e4e1d8', '#dbe8f5'];

function officeSign(scene, k, g) {
  const [kind, which, number, office] = scene.data.events[k], x = g.X(k), ink = OFFICE_INK[office], open = office === 1;
  const p = kind === TURN ? which : kind === DELIVER ? PLANS[0].messages[which].taker : 0, y = kind === COLLECT ? g.Y(BUSY.length) : g.Y(laneOf(p));
  if (number) return crossSign(x, y) + smallText(x, y - 8, number);
  if (kind === DELIVER) return dotSign(x, y, ink, open);
  if (kind === COLLECT) return `<path d="M${x - 6} ${y} h12 M${x} ${y - 6} v12" stroke="${ink}" stroke-width="2"/>`;
  return stageSign(officeRecord(scene, scene.wordsAt(k), office, p)[1], x, y, ink, open);
}
/* Behind the lanes: who holds a processor, and where it is closed */
function officeGround(scene, g) {
  const found = [];
  for (let k = g.from; k < g.to; k++) {
    const words = scene.wordsAt(k + 1), minute = scene.data.events[k][4];
    for (const p of BUSY) {
      const x = g.X(k) - COLUMN / 2, y = g.Y(laneOf(p)) - LANE / 2, held = holderOf(scene, words, p);
      const lane = `x="${x}" y="${y + 2}" width="${COLUMN}" height="${LANE - 4}"`;
      if (held !== FREE) found.push(`<rect ${lane} fill="${HELD_GROUND[held]}"/>` + svgText(x + 2, y + 10, held, ' class="small"'));
      if (!isOpen(scene, p, minute)) found.push(`<rect class="shut" ${lane} fill="url(#officeshatch)" opacity=".55"/>`);
    }
    if (scene.data.hours && (k - g.from) % 4 === 0) found.push(smallText(g.X(k), 11, minuteText(minute)));
  }
  return found.join('');
}
function officeTold(scene, k) {
  const [kind, which, number, office, minute] = scene.data.events[k], words = scene.wordsAt(k), two = scene.data.offices > 1;
  const what = [`turn of processor ${which}`, `delivery of message ${which}`, 'collecting the grid'][kind];
  const name = what + (two ? ` for office ${office}` : '') + (scene.data.hours ? ` at ${minuteText(minute)}` : '');
  if (number) {
    const holds = number === 19 ? ` Office ${holderOf(scene, words, which)} holds it.` : '';
    const opens = number === 24 ? ` It opens at ${opensAt(scene, which, minute)}.` : '';
    return [name, `${D.numbers[number][0]}: ${D.numbers[number][1]}.${holds}${opens} Every word is as before.`];
  }
  if (kind === DELIVER) {
    const {from, to} = PLANS[0].messages[which];
    return [name, `The message of tile ${from} is delivered: tile ${to} will take it.`];
  }
  if (kind === COLLECT) return [name, `${plural(CELLS, 'word')} collected, equal to the sequential sweep of ${two ? 'this office\'s own' : 'the'} source.`];
  const before = officeRecord(scene, words, office, which), held = holderOf(scene, words, which), then = holderOf(scene, scene.wordsAt(k + 1), which);
  const engaged = then === FREE ? ' The processor is free again.' : ` The processor is held by office ${then} from now on.`;
  return [name, turnText(which, before) + (held === then ? '' : engaged)];
}
function officeTables(scene, words) {
  const offices = upTo(scene.data.offices), names = ['processor'];
  if (scene.data.offices > 1) names.push(['held by', 't']);
  if (scene.data.hours) names.push(['hours', 't']);
  const whose = o => scene.data.offices > 1 ? `office ${o}: ` : '';
  for (const o of offices) names.push(whose(o) + 'finished', ['stage', 't'], ['waits for message', 't']);
  const minute = scene.t ? scene.data.events[scene.t - 1][4] : 0;
  const line = p => {
    const cells = [p], held = holderOf(scene, words, p);
    if (scene.data.offices > 1) cells.push([held === FREE ? 'none' : 'office ' + held, 't']);
    if (scene.data.hours) cells.push([isOpen(scene, p, minute) ? 'open' : 'closed', 't']);
    for (const o of offices) {
      const record = officeRecord(scene, words, o, p), tile = tilesOn[p][record[0]];
      const due = tile === undefined || record[1] ? [] : PLANS[0].takenBy[tile].filter(m => officeMark(scene, words, o, m) < 2);
      cells.push(`${record[0]} of ${tilesOn[p].length}`, [stageText(p, record), 't'], [due.length ? list(due) : '–', 't']);
    }
    return row(cells);
  };
  return `<table class="lines">${head(names)}${BUSY.map(line).join('')}</table>`;
}
/* The week: a line for each processor, closed minutes shaded, the minute of the event marked */
function officeWeek(scene) {
  if (!scene.data.hours) return '';
  const width = Math.max(400, scene.$('box').clientWidth - 10), high = 9, bottom = 16 + BUSY.length * (high + 2);
  const X = m => MARGIN + (width - MARGIN) * m / WEEK, rule = (m, ink, wide) => `<path d="M${X(m)} 2 V${bottom}" stroke="${ink}" stroke-width="${wide}"/>`;
  const days = DAY_NAMES.map((name, d) => svgText(X(d * 1440) + 3, 10, name, ' class="small"') + rule(d * 1440, '#aab1b9', 1));
  const lines = BUSY.map((p, lane) => {
    const y = 14 + lane * (high + 2), shut = [];
    let at = 0;
    for (const [open, close] of [...windowsOf(scene, p).sort((a, b) => a[0] - b[0]), [WEEK, WEEK]]) {
      const box = `x="${X(at)}" y="${y}" width="${X(open) - X(at)}" height="${high}"`;
      if (open > at) shut.push(`<rect class="shut" ${box} fill="url(#weekhatch)"/>`);
      at = Math.max(at, close);
    }
    const whole = `<rect x="${X(0)}" y="${y}" width="${X(WEEK) - X(0)}" height="${high}" fill="#fff" stroke="#77828e"/>`;
    return svgText(MARGIN - 8, y + 8, 'processor ' + p, ' text-anchor="end" class="small"') + whole + shut.join('');
  });
  const minute = scene.t ? scene.data.events[scene.t - 1][4] : 0;
  const told = `The week: closed minutes are shaded; now it is ${minuteText(minute)}`;
  return `<svg width="${width}" height="${bottom + 4}" role="img" aria-label="${told}"><defs><pattern id="weekhatch" width="5" height="5" ` +
    'patternUnits="userSpaceOnUse" patternTransform="rotate(45)"><path d="M0 0 V5" stroke="#8a939c" stroke-width="2"/></pattern></defs>' +
    `${days.join('')}${lines.join('')}${rule(minute, MAIL, 2)}</svg>`;
}
function officeLead(scene) {
  const refused = new Map();
  for (const [, , number] of scene.data.events) if (number) refused.set(number, (refused.get(number) || 0) + 1);
  const told = [...refused].sort((a, b) => a[0] - b[0]).map(([number, count]) => `${count} refused with ${number}, ${D.numbers[number][0]}`);
  const who = scene.data.offices > 1 ? 'Two offices with one recipe, each with a source of its own, on the same processors. ' +
    'A processor that has gathered for one office is held by it until that tile\'s last step. ' : 'A run of one office. ';
  const when = scene.data.hours ? 'A turn while its processor is closed is refused with 24; mail is delivered at any hour. ' : '';
  return `${who}${when}${plural(scene.count, 'call')}, drawn with seed ${D.seed}, on the direct route${told.length ? ': ' + list(told) : ''}.`;
}
const OFFICES_LOOK = {
  lanes: [...BUSY.map(p => 'processor ' + p), 'all'], sign: officeSign, ground: officeGround, told: officeTold, tables: officeTables,
  week: officeWeek, lead: officeLead,
  fresh: 'Every word of both offices\' areas is zero, and no processor is held.',
  key: [
    [signFull(INK), 'office 0'], [signBox(PICK), 'office 1'], [signDot(INK, INK, 1.6), 'a message is delivered'],
    [signPath('M4 2 L14 12 M14 2 L4 12', MAIL), 'refused, with its number'], [signFull(HELD_GROUND[0]), 'held by office 0'],
    [signFull(HELD_GROUND[1]), 'held by office 1'], [SIGN_HATCH, 'closed']],
};
if (D.offices) {
  const parts = [D.offices.offices > 1 ? 'Two offices' : '', D.offices.hours ? 'Hours' : ''].filter(Boolean);
  $('officestitle').textContent = parts.join(', by ').replace('by H', 'by h');
  $('officesname').textContent = D.offices.offices > 1 ? 'Offices' : 'Hours';
}
addScene('offices', 'Offices', OFFICES_LOOK);
