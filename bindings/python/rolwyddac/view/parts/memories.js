/* The marks of messages, and what each processor's memory has */

const MARK_INK = ['#767e87', MAIL, PICK, INK], MARK_FILL = ['#fff', '#fbe3d3', '#d4e2f0', '#e9eaeb'], MARK_SIGN = ['·', '→', '▪', '✓'];

/* the side of a mark by how many there are */
const markSize = count => count > 1200 ? [8, 8] : count > 240 ? [12, 12] : [34, 24];

function drawMark(x, m, mark, a, b, w, h) {
  x.fillStyle = MARK_FILL[mark];
  x.strokeStyle = MARK_INK[mark];
  x.lineWidth = mark === 1 || mark === 2 ? 1.6 : .8;
  x.fillRect(a + 1, b + 1, w - 2, h - 2);
  x.strokeRect(a + 1.5, b + 1.5, w - 3, h - 3);
  x.fillStyle = MARK_INK[mark];
  if (w > 30) {
    x.font = '11px ' + FONT;
    x.textAlign = 'left';
    x.fillText(m, a + 4, b + h / 2 + .5);
    x.font = '600 11px ' + FONT;
    x.textAlign = 'right';
    x.fillText(MARK_SIGN[mark], a + w - 4, b + h / 2 + .5);
  } else if (w > 9 && mark) {
    x.font = '9px ' + FONT;
    x.textAlign = 'center';
    x.fillText(MARK_SIGN[mark], a + w / 2, b + h / 2 + .5);
  }
  if (m !== S.message) return;
  x.strokeStyle = '#000';
  x.lineWidth = 2.4;
  x.strokeRect(a + 1, b + 1, w - 2, h - 2);
}
function drawMarks() {
  const count = plan.messages.length, width = $('marks').parentElement.clientWidth, [w, h] = markSize(count);
  const across = Math.max(1, Math.floor(width / w)), x = canvas('marks', width, Math.max(1, Math.ceil(count / across) * h)), by = lists(4);
  holder.marks = {w, h, across};
  for (let m = 0; m < count; m++) {
    const mark = markAt(R, m, S.t);
    by[mark].push(m);
    drawMark(x, m, mark, m % across * w, Math.floor(m / across) * h, w, h);
  }
  const some = m => m.length && m.length <= 14 ? ` (${m.join(', ')})` : '';
  $('marktext').textContent = count ? `${by[0].length} unsent, ${by[1].length} in flight${some(by[1])}, ` +
    `${by[2].length} delivered${some(by[2])}, ${by[3].length} taken.` : 'The plan has no message.';
}

const OWN_PIXEL = colour(OWN), BROUGHT_PIXEL = colour(BROUGHT), UNKNOWN_PIXEL = colour(UNKNOWN);

/* Paints a processor's memory; how many of its words are calculated there, and brought */
function paintMemory(x, p, ox, oy) {
  const base = p * CELLS, range = EXTENT.result, log = byLog('result'), counts = [0, 0];
  sheets.memory.paint(x, cell => {
    if (R.known[base + cell] > S.t) return TILE[cell] !== OUTSIDE && D.on[TILE[cell]] === p ? UNKNOWN_PIXEL : WHITE;
    const own = R.origin[base + cell] === BY_TILE;
    counts[own ? 0 : 1]++;
    return S.byValue ? LUT[level(GRID[cell], range, log)] : own ? OWN_PIXEL : BROUGHT_PIXEL;
  }, ox, oy);
  x.strokeStyle = '#9aa1a9';
  x.lineWidth = 1;
  const s = sheets.memory.s;
  for (const q of sheets.memory.panels) x.strokeRect(ox + q.x + .5, oy + q.y + .5, q.cols * s - 1, q.rows * s - 1);
  return counts;
}
/* A box around what the call wrote */
function boxWritten(x, ox, oy) {
  const sheet = sheets.memory, k = S.t - 1, t = R.tile[k];
  const boxes = R.what[k] === CALCULATE ? sheet.parts(t) : plan.takenBy[t].flatMap(m => sheet.around(plan.messages[m].cells));
  x.strokeStyle = '#000';
  x.lineWidth = 2;
  for (const [a, b, w, h] of boxes) x.strokeRect(ox + a - 1, oy + b - 1, w + 2, h + 2);
}
/* The memories that the call changed are drawn anew, the others are left as they are; with all, all of them */
function drawMemories(all) {
  const {memory: sheet, across, side} = sheets, wide = side + 14, high = sheet.height + 26;
  const width = wide * across - 10, height = Math.ceil(BUSY.length / across) * high;
  const key = [S.route, S.byValue, S.scale, width, height, dpr(), plan.turns || 0].join(':');
  if (all || holder.memories !== key) {
    holder.memories = key;
    holder.painted = [];
    canvas('memories', width, height);
  }
  const x = $('memories').getContext('2d'), known = [0, 0];
  BUSY.forEach((p, lane) => {
    const last = recordAt(R, p, S.t)[4], recent = last === S.t && S.t > 0, stamp = last * 2 + Number(recent);
    if (!holder.painted[lane] || holder.painted[lane].stamp !== stamp) {
      const ox = lane % across * wide + 2, oy = Math.floor(lane / across) * high + 18;
      x.clearRect(ox - 4, oy - 18, side + 8, high);
      const counts = paintMemory(x, p, ox, oy);
      if (recent) boxWritten(x, ox, oy);
      nameMemory(x, p, counts, ox, oy - 9);
      holder.painted[lane] = {stamp, counts};
    }
    holder.painted[lane].counts.forEach((n, k) => { known[k] += n; });
  });
  $('memtext').textContent = `${fmt(known[0])} words calculated in place, ${fmt(known[1])} brought by mail; above each: calculated + brought`;
}
function nameMemory(x, p, [own, brought], left, y) {
  x.textAlign = 'left';
  x.textBaseline = 'middle';
  x.font = '600 11px ' + FONT;
  x.fillStyle = INK;
  x.fillText('P' + p, left, y);
  x.font = '11px ' + FONT;
  x.fillStyle = SOFT;
  x.fillText(own + brought ? `${fmt(own)} + ${fmt(brought)}` : 'nothing yet', left + 24, y);
}
