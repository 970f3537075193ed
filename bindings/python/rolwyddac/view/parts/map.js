/* The map of tiles, with the messages of the tile that is chosen */

const PASTEL = ['#e3ecf4', '#f6ecdc', '#e6efe2', '#f3e4ea', '#e9e6f3', '#eef0d8', '#dff0ee', '#f4e6dd'];
const TINTS = PASTEL.map(colour);
const WHITE = colour('#ffffff');

function centre(sheet, t) {
  const parts = sheet.parts(t), [a, b, w, h] = parts[(parts.length - 1) >> 1];
  return [a + w / 2, b + h / 2];
}
function arrow(x, from, to, ink, dash) {
  const part = f => [0, 1].map(k => from[k] + f * (to[k] - from[k])), begin = part(.26), end = part(.74);
  const angle = Math.atan2(end[1] - begin[1], end[0] - begin[0]);
  line(x, [begin, end], '#fff', 5);
  line(x, [begin, end], ink, 1.8, dash);
  x.fillStyle = ink;
  x.beginPath();
  x.moveTo(...end);
  for (const turn of [-.4, .4]) x.lineTo(end[0] - 10 * Math.cos(angle + turn), end[1] - 10 * Math.sin(angle + turn));
  x.fill();
}
function cellLines(x, sheet) {
  if (sheet.s < 9) return;
  x.strokeStyle = 'rgba(255,255,255,.9)';
  x.lineWidth = 1;
  x.beginPath();
  for (const p of sheet.panels) {
    const wide = p.cols * sheet.s, high = p.rows * sheet.s;
    for (let k = sheet.s; k < wide; k += sheet.s) { x.moveTo(p.x + k, p.y); x.lineTo(p.x + k, p.y + high); }
    for (let k = sheet.s; k < high; k += sheet.s) { x.moveTo(p.x, p.y + k); x.lineTo(p.x + wide, p.y + k); }
  }
  x.stroke();
}

/* The tiles that send to it and take from it, outlined, and arrows between them */
function drawWays(x, sheet, shown, chosen) {
  const outline = (t, ink, width, dash) => {
    x.strokeStyle = ink;
    x.lineWidth = width;
    x.setLineDash(dash);
    for (const [a, b, w, h] of sheet.parts(t)) x.strokeRect(a - .5, b - .5, w + 1, h + 1);
    x.setLineDash([]);
  };
  const mails = chosen ? [] : plan.takenBy[S.tile].map(m => plan.messages[m].from);
  if (chosen && chosen.from !== S.tile) mails.push(chosen.from);
  for (const t of new Set(shown.map(m => m.to))) outline(t, MAIL, 2.2, [7, 4]);
  for (const t of new Set(mails)) outline(t, PICK, 2, [2, 3]);
  outline(S.tile, INK, 3, []);
  if (N > 2) return;
  if (!chosen) for (const t of mails) arrow(x, centre(sheet, t), centre(sheet, S.tile), PICK, [2, 3]);
  for (const m of shown) arrow(x, centre(sheet, m.from), centre(sheet, m.to), MAIL, []);
}

/* The cells of messages, and the cells that read them */
function drawHeld(x, sheet, shown) {
  const s = sheet.s, inset = s >= 8 ? Math.max(1, s * .09) : 0, reading = new Map();
  x.fillStyle = MAIL;
  for (const m of shown) m.cells.forEach((c, k) => {
    const [a, b] = sheet.spot(c);
    x.fillRect(a + inset, b + inset, s - 2 * inset, s - 2 * inset);
    for (const [reader, , further] of readers(plan, m, k)) reading.set(reader, further && reading.get(reader) !== false);
  });
  for (const [c, further] of reading) {
    const [a, b] = sheet.spot(c);
    x.beginPath();
    x.arc(a + s / 2, b + s / 2, Math.max(1.2, s * .2), 0, 7);
    x.fillStyle = further ? '#fff' : PICK;
    x.fill();
    x.strokeStyle = PICK;
    x.lineWidth = s > 10 ? 2 : 1;
    x.stroke();
  }
}

/* A tile's number, and its processor where there is room */
function drawName(x, t, [a, b, w, h]) {
  const wide = w >= 48 && h >= 24, size = wide ? 12 : Math.min(11, h - 2);
  const label = String(t), owner = wide ? ` P${D.on[t]}` : '', bold = `600 ${size}px ${FONT}`, plain = `${size - 1}px ${FONT}`;
  x.font = bold;
  const labelWidth = x.measureText(label).width;
  x.font = plain;
  const ownerWidth = wide ? x.measureText(owner).width : 0;
  const left = a + (w - labelWidth - ownerWidth) / 2, base = b + h / 2 + size * .36;
  x.fillStyle = 'rgba(255,255,255,.86)';
  x.fillRect(left - 3, b + h / 2 - size / 2 - 2, labelWidth + ownerWidth + 6, size + 4);
  x.fillStyle = SOFT;
  x.fillText(owner, left + labelWidth, base);
  x.fillStyle = INK;
  x.font = bold;
  x.fillText(label, left, base);
}
function drawNames(x, sheet) {
  const least = 7 * String(TILES - 1).length + 4;
  if (sheet.s * D.tiling[N - 1] < least) return;
  x.textAlign = 'left';
  x.textBaseline = 'alphabetic';
  for (let t = 0; t < TILES; t++) for (const part of sheet.parts(t)) if (part[3] >= 11) drawName(x, t, part);
  x.textBaseline = 'middle';
}

/* The map without what is chosen in it, kept until its size changes */
function mapBase() {
  const sheet = sheets.map, k = dpr(), key = [sheet.width, sheet.height, sheet.s, k].join(':');
  if (holder.map && holder.map.key === key) return holder.map;
  const base = document.createElement('canvas');
  base.width = Math.round(sheet.width * k);
  base.height = Math.round(sheet.height * k);
  base.key = key;
  holder.map = base;
  const x = base.getContext('2d');
  x.scale(k, k);
  sheet.paint(x, c => TILE[c] === OUTSIDE ? WHITE : TINTS[D.on[TILE[c]] % TINTS.length]);
  hatch(x, sheet, '#d8d9d6');
  cellLines(x, sheet);
  sheet.tileLines(x, '#8c939b');
  return base;
}
function drawMap() {
  const base = mapBase(), sheet = sheets.map, x = canvas('map', sheet.width, sheet.height);
  const chosen = S.message === null ? null : plan.messages[S.message];
  const shown = chosen ? [chosen] : plan.sentBy[S.tile].map(m => plan.messages[m]);
  x.drawImage(base, 0, 0, sheet.width, sheet.height);
  drawWays(x, sheet, shown, chosen);
  drawHeld(x, sheet, shown);
  drawNames(x, sheet);
  sheet.axes(x);
}
