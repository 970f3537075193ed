/* Source and result */

function extent(values) {
  let low = Infinity, high = -Infinity;
  for (let c = 0; c < CELLS; c++) {
    if (TILE[c] === OUTSIDE) continue;
    low = Math.min(low, values[c]);
    high = Math.max(high, values[c]);
  }
  return [low, high];
}
const EXTENT = {source: extent(SOURCE), result: extent(GRID)};

/* A value's place on the scale, 0 to 255; and the value at a part of the scale */
function level(v, [low, high], log) {
  if (high === low) return 128;
  return Math.round(255 * (log ? Math.log1p(v - low) / Math.log1p(high - low) : (v - low) / (high - low)));
}
const unlevel = (f, [low, high], log) => Math.round(low + (log ? Math.expm1(f * Math.log1p(high - low)) : f * (high - low)));

/* a grid whose values crowd at the low end is first shown by their logarithms */
function crowded(values, [low, high]) {
  const sorted = Array.from(values.filter((_, c) => TILE[c] !== OUTSIDE)).sort((a, b) => a - b);
  return high > low && (sorted[sorted.length >> 1] - low) / (high - low) < .06;
}
const AUTO = {source: crowded(SOURCE, EXTENT.source), result: crowded(GRID, EXTENT.result)};
const byLog = name => S.scale === 'auto' ? AUTO[name] : S.scale === 'log';

/* the room in a figure, without its padding for the outline of what is in focus */
const PADDING = 6;
const widthFor = id => $(id).parentElement.clientWidth - PADDING;

const sheets = {};
function layout() {
  sheets.grid = new Sheet(widthFor('source'), 470, true, 52);
  sheets.map = new Sheet(widthFor('map'), 620, true, 64);
  const full = $('run').clientWidth, room = 580;
  let best = null;
  for (let down = 1; down <= Math.min(BUSY.length, 16); down++) {
    const across = Math.ceil(BUSY.length / down), side = Math.floor((full - 18 * (across - 1)) / across);
    const sheet = new Sheet(side, Math.max(room / down - 26, 24), false, 22);
    if (!best || sheet.s > best.sheet.s) best = {sheet, across};
  }
  sheets.memory = best.sheet;
  sheets.across = best.across;
  sheets.side = Math.max(best.sheet.width, 96) + 4;
}

/* Values in the cells, where all of them have room */
function writeValues(x, sheet, values, range, log) {
  let longest = 1;
  for (let c = 0; c < CELLS; c++) longest = Math.max(longest, String(values[c]).length);
  const size = Math.min(12, Math.floor((sheet.s - 3) / (longest * .556) * 2) / 2);
  if (size < 8 || sheet.s < 14) return;
  x.textAlign = 'center';
  x.font = size + 'px ' + FONT;
  for (let c = 0; c < CELLS; c++) {
    if (TILE[c] === OUTSIDE) continue;
    const [a, b] = sheet.spot(c);
    x.fillStyle = level(values[c], range, log) > 118 ? '#111' : '#fff';
    x.fillText(values[c], a + sheet.s / 2, b + sheet.s / 2 + .5);
  }
}

/* A grid without what is chosen in it, kept until size or scale change */
function gridBase(name, values) {
  const sheet = sheets.grid, range = EXTENT[name], log = byLog(name), lines = $('lines').checked, k = dpr();
  const key = [log, lines, sheet.width, sheet.s, k].join(':');
  if (holder[name] && holder[name].key === key) return holder[name];
  const base = document.createElement('canvas');
  base.width = Math.round(sheet.width * k);
  base.height = Math.round(sheet.height * k);
  base.key = key;
  holder[name] = base;
  const x = base.getContext('2d');
  x.scale(k, k);
  x.textBaseline = 'middle';
  sheet.paint(x, c => TILE[c] === OUTSIDE ? BLANK : LUT[level(values[c], range, log)]);
  hatch(x, sheet, '#c3c5c2');
  if (lines) sheet.tileLines(x, 'rgba(255,255,255,.62)');
  writeValues(x, sheet, values, range, log);
  sheet.axes(x);
  return base;
}

/* Slanted lines over the cells outside the shape */
function hatch(x, sheet, colour) {
  if (!SHAPED || sheet.s < 3) return;
  const s = sheet.s, n = Math.max(1, Math.round(s / 8));
  x.strokeStyle = colour;
  x.lineWidth = .8;
  x.beginPath();
  TILE.forEach((t, c) => {
    if (t !== OUTSIDE) return;
    const [a, b] = sheet.spot(c);
    for (let j = 1; j < 2 * n; j++) {
      const k = j * s / n;
      x.moveTo(a + Math.min(k, s), b + Math.max(0, k - s));
      x.lineTo(a + Math.max(0, k - s), b + Math.min(k, s));
    }
  });
  x.stroke();
}

/* A cell that is read, and the line from there where there is room for one */
function drawRead(x, sheet, from) {
  const [a, b] = sheet.spot(from), [e, f] = sheet.spot(S.cell), s = sheet.s, h = s / 2;
  const apart = Math.hypot(e - a, f - b) || 1, r = s * .42;
  if (s >= 8 && apart > 1.6 * s) {
    const points = [[a + h + (e - a) / apart * r, b + h + (f - b) / apart * r], [e + h - (e - a) / apart * r, f + h - (f - b) / apart * r]];
    line(x, points, '#fff', 4);
    line(x, points, '#000', 1.6);
  }
  if (s >= 7) {
    sheet.box(x, from, '#fff', 3.4, Math.min(2, s / 4));
    sheet.box(x, from, '#000', 1.4, Math.min(2, s / 4));
    return;
  }
  x.fillStyle = '#fff';
  x.fillRect(a, b, s, s);
  x.fillStyle = '#000';
  x.fillRect(a + s / 4, b + s / 4, h, h);
}
/* The cell that is chosen; a small one has a ring around it */
function drawChosen(x, sheet) {
  const small = sheet.s < 7, inset = small ? 0 : -1, [a, b] = sheet.spot(S.cell);
  sheet.box(x, S.cell, '#fff', small ? 3 : 4.5, inset);
  sheet.box(x, S.cell, '#000', small ? 1.2 : 2.2, inset);
  if (!small) return;
  for (const [ink, width] of [['#fff', 4], ['#000', 1.5]]) {
    x.beginPath();
    x.arc(a + sheet.s / 2, b + sheet.s / 2, 12, 0, 7);
    x.strokeStyle = ink;
    x.lineWidth = width;
    x.stroke();
  }
}
function drawGrid(name, values) {
  const sheet = sheets.grid, base = gridBase(name, values), x = canvas(name, sheet.width, sheet.height);
  x.drawImage(base, 0, 0, sheet.width, sheet.height);
  if (name === 'result' && $('reads').checked && TILE[S.cell] !== OUTSIDE) {
    for (const [d] of D.distances) {
      const from = moved(S.cell, d, -1);
      if (from >= 0) drawRead(x, sheet, from);
    }
  }
  drawChosen(x, sheet);
}

function drawLegend(id, range, log) {
  const left = 30, width = Math.max(sheets.grid.width, 200), w = width - left - 2, x = canvas(id, width, SHAPED ? 52 : 36);
  for (let k = 0; k < w; k++) {
    x.fillStyle = `rgb(${SCALE[Math.floor(k / w * 255.99)]})`;
    x.fillRect(left + k, 0, 1.5, 12);
  }
  x.strokeStyle = '#9aa1a9';
  x.lineWidth = 1;
  x.strokeRect(left - .5, -.5, w + 1, 13);
  x.fillStyle = SOFT;
  const ticks = w > 330 ? 4 : 2;
  for (let k = 0; k <= ticks; k++) {
    const f = k / ticks;
    x.textAlign = k === 0 ? 'left' : k === ticks ? 'right' : 'center';
    x.fillRect(left + f * w - .5, 12, 1, 4);
    if (range[0] !== range[1] || !k) x.fillText(fmt(unlevel(f, range, log)), left + f * w, 24);
  }
  if (!SHAPED) return;
  x.fillStyle = '#ecece8';
  x.fillRect(left, 38, 14, 11);
  x.strokeRect(left + .5, 38.5, 13, 10);
  line(x, [[left, 49], [left + 14, 38]], '#9aa1a9', 1);
  x.fillStyle = SOFT;
  x.textAlign = 'left';
  x.fillText('outside the shape: ' + fmt(D.boundary), left + 20, 44);
}
function drawGrids() {
  drawGrid('source', SOURCE);
  drawGrid('result', GRID);
  const key = S.scale + ':' + sheets.grid.width + ':' + dpr();
  if (holder.legend !== key) {
    holder.legend = key;
    for (const name of ['source', 'result']) drawLegend(name + 'legend', EXTENT[name], byLog(name));
  }
  for (const k of ['auto', 'linear', 'log']) $(k).setAttribute('aria-pressed', S.scale === k);
  const told = ['source', 'result'].map(n => `${n} ${AUTO[n] ? 'logarithmic' : 'linear'}`).join(', ');
  $('scaletold').textContent = S.scale === 'auto' ? told : '';
}
