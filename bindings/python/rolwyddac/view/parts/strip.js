/* The calls around the one that is chosen, one lane a processor; and all of them, small */

const LANES = BUSY.length + 1;
const LEFT = 84, TOP = 34, STEP = 20;

function glyph(x, what, cx, cy, r, done) {
  x.strokeStyle = x.fillStyle = what === REFUSED ? (done ? MAIL : '#e3b99e') : (done ? INK : '#b3b9c0');
  x.lineWidth = 1.5;
  x.beginPath();
  if (what === GATHER) x.strokeRect(cx - r + .5, cy - r + .5, 2 * r - 1, 2 * r - 1);
  else if (what === CALCULATE) x.fillRect(cx - r, cy - r, 2 * r, 2 * r);
  else if (what === SEND) {
    x.moveTo(cx - r, cy - r);
    x.lineTo(cx + r, cy);
    x.lineTo(cx - r, cy + r);
    x.fill();
  } else if (what === DELIVERED) {
    x.arc(cx, cy, r, 0, 7);
    x.stroke();
    x.beginPath();
    x.arc(cx, cy, r * .4, 0, 7);
    x.fill();
  } else if (what === COLLECTED) {
    x.moveTo(cx, cy - r);
    x.lineTo(cx + r, cy);
    x.lineTo(cx, cy + r);
    x.lineTo(cx - r, cy);
    x.fill();
  } else {
    x.moveTo(cx - r, cy - r);
    x.lineTo(cx + r, cy + r);
    x.moveTo(cx + r, cy - r);
    x.lineTo(cx - r, cy + r);
    x.stroke();
  }
}
function stripGeometry() {
  const width = $('run').clientWidth, shown = Math.min(R.count, Math.floor((width - LEFT) / STEP));
  const lane = Math.max(9, Math.min(22, Math.floor(330 / LANES))), height = TOP + LANES * lane + 20;
  const from = Math.max(0, Math.min(R.count - shown, S.t - 1 - (shown >> 1)));
  return {
    width, height, shown, from, lane, r: Math.min(5, lane / 2 - 2),
    X: k => LEFT + (k - from + .5) * STEP, Y: p => TOP + (laneOf(p) + .5) * lane,
  };
}
function drawLanes(x, g) {
  x.textAlign = 'left';
  x.font = (g.lane < 12 ? 9 : 11) + 'px ' + FONT;
  for (let lane = 0; lane < LANES; lane++) {
    if (lane % 2 === 0) {
      x.fillStyle = '#f7f7f5';
      x.fillRect(LEFT, TOP + lane * g.lane, g.shown * STEP, g.lane);
    }
    x.fillStyle = SOFT;
    const name = lane === BUSY.length ? IDLE.length ? 'all, others' : 'all' : 'processor ' + BUSY[lane];
    if (g.lane >= 10 || lane % 4 === 0 || lane === BUSY.length) x.fillText(name, 0, TOP + (lane + .5) * g.lane + .5);
  }
  x.font = '11px ' + FONT;
  x.fillText('swappable', 0, 22);
  if (!S.t) return;
  x.fillStyle = '#dfe8f1';
  x.fillRect(g.X(S.t - 1) - STEP / 2, TOP - 4, STEP, LANES * g.lane + 8);
  x.strokeStyle = PICK;
  x.lineWidth = 1.5;
  x.strokeRect(g.X(S.t - 1) - STEP / 2 + .5, TOP - 4, STEP - 1, LANES * g.lane + 8);
}
/* A message from its sending to its delivery, and on to where it is taken */
function drawFlights(x, g) {
  for (const m of plan.messages) {
    const [a, b, c] = [R.sent[m.m], R.delivered[m.m], R.taken[m.m]];
    if (a === NEVER || a - 1 > g.from + g.shown || c < g.from) continue;
    const mine = m.m === S.message, ink = done => mine ? MAIL : done ? '#7c8fa3' : '#d3d8dd', width = mine ? 2.4 : 1;
    line(x, [[g.X(a - 1) + g.r, g.Y(m.by)], [g.X(b - 1) - g.r, g.Y(m.taker)]], ink(b <= S.t), width);
    line(x, [[g.X(b - 1) + g.r, g.Y(m.taker)], [g.X(c - 1) - g.r, g.Y(m.taker)]], ink(c <= S.t), width, [2, 2]);
  }
}
function drawBracket(x, g, k) {
  const on = isTurned(plan, k), y = k % 2 ? 16 : 22, a = g.X(k) + 1, b = g.X(k + 1) - 1, strong = on || S.pair === k;
  line(x, [[a, y + 6], [a, y], [b, y], [b, y + 6]], on ? MAIL : S.pair === k ? PICK : '#7d858e', strong ? 2.4 : 1.2);
  if (!on) return;
  x.fillStyle = MAIL;
  x.textAlign = 'center';
  x.font = '600 11px ' + FONT;
  x.fillText('⇄', (a + b) / 2, 7);
}
function drawCall(x, g, k) {
  if (R.tile[k] === S.tile && R.what[k] <= SEND) {
    x.fillStyle = '#f7d9c4';
    x.fillRect(g.X(k) - STEP / 2 + 1, g.Y(R.who[k]) - g.lane / 2 + 1, STEP - 2, g.lane - 2);
  }
  glyph(x, R.what[k], g.X(k), g.Y(R.who[k]), g.r, k < S.t);
  if (k + 1 < g.from + g.shown && mayBe(plan, k)) drawBracket(x, g, k);
  const now = k + 1 === S.t;
  if (!now && ((k + 1) % 5 || Math.abs(k + 1 - S.t) < 2)) return;
  x.fillStyle = now ? INK : SOFT;
  x.textAlign = 'center';
  x.font = (now ? '600 ' : '') + '11px ' + FONT;
  x.fillText(k + 1, g.X(k), g.height - 8);
}
function drawStrip() {
  const g = stripGeometry(), x = canvas('strip', g.width, g.height);
  drawLanes(x, g);
  x.save();
  x.beginPath();
  x.rect(LEFT, 0, g.shown * STEP, g.height);
  x.clip();
  drawFlights(x, g);
  for (let k = g.from; k < g.from + g.shown; k++) drawCall(x, g, k);
  x.restore();
}

/* All calls, kept until the order or the width change; and how far the run is */
function overviewBase(width, height, lane) {
  const key = [width, S.route, plan.turns || 0, dpr()].join(':'), w = width / R.count;
  if (holder.overviewKey === key) return holder.overview;
  const base = document.createElement('canvas'), k = dpr();
  base.width = Math.round(width * k);
  base.height = Math.round(height * k);
  const x = base.getContext('2d');
  x.scale(k, k);
  x.fillStyle = '#f4f4f1';
  x.fillRect(0, 5, width, LANES * lane);
  for (let i = 0; i < R.count; i++) {
    x.fillStyle = R.what[i] === REFUSED ? '#e2a983' : R.what[i] === CALCULATE ? '#24425c' : '#8fa2b5';
    x.fillRect(i * w, 5 + laneOf(R.who[i]) * lane, Math.max(.8, w - (w > 3 ? 1 : 0)), Math.max(1, lane - (lane > 3 ? 1 : 0)));
  }
  holder.overviewKey = key;
  holder.overview = base;
  return base;
}
function drawOverview() {
  const width = $('run').clientWidth, lane = Math.max(1, Math.min(6, 48 / LANES)), height = Math.ceil(LANES * lane) + 12;
  const base = overviewBase(width, height, lane), x = canvas('overview', width, height), now = S.t / R.count * width;
  x.drawImage(base, 0, 0, width, height);
  x.fillStyle = 'rgba(255,255,255,.62)';
  x.fillRect(now, 5, width - now, height - 12);
  x.fillStyle = INK;
  x.fillRect(Math.min(width - 2, Math.max(0, now - 1)), 0, 2, height);
}
