/* Drawing: colours, canvases, and where cells stand on them */

/* cividis: light and dark alone tell its colours apart, for every kind of sight */
const STOPS = ['00204d', '00336f', '39486b', '575c6d', '707173', '8a8779', 'a69d75', 'c4b56c', 'e4cf5b', 'ffea46'];
const rgb = h => [1, 3, 5].map(k => parseInt(h.slice(k, k + 2), 16));
const pixel = ([r, g, b], a = 255) => (a << 24 | b << 16 | g << 8 | r) >>> 0;
const colour = h => pixel(rgb(h));
const SCALE = upTo(256).map(i => {
  const x = i / 255 * (STOPS.length - 1), k = Math.min(STOPS.length - 2, Math.floor(x));
  const [low, high] = [STOPS[k], STOPS[k + 1]].map(stop => rgb('#' + stop));
  return low.map((a, j) => Math.round(a + (x - k) * (high[j] - a)));
});
const LUT = Uint32Array.from(SCALE, c => pixel(c));
const BLANK = colour('#ecece8');

const dpr = () => Math.max(1, window.devicePixelRatio || 1);

/* A canvas of this size, empty, to be drawn on in the page's pixels */
function canvas(id, width, height) {
  const c = $(id), k = dpr();
  if (c.width !== Math.round(width * k) || c.height !== Math.round(height * k)) {
    c.width = Math.round(width * k);
    c.height = Math.round(height * k);
    c.style.width = width + 'px';
    c.style.height = height + 'px';
  }
  const x = c.getContext('2d');
  x.setTransform(k, 0, 0, k, 0, 0);
  x.clearRect(0, 0, width, height);
  x.font = '11px ' + FONT;
  x.textBaseline = 'middle';
  return x;
}

function line(x, points, colour, width, dash = []) {
  x.strokeStyle = colour;
  x.lineWidth = width;
  x.setLineDash(dash);
  x.beginPath();
  points.forEach(([a, b], k) => k ? x.lineTo(a, b) : x.moveTo(a, b));
  x.stroke();
  x.setLineDash([]);
}

/* a grid of two dimensions that is so many times as long as wide is folded, where its cells are then so much larger */
const THIN = 4, WORTH_FOLDING = 1.5, MOST_PIECES = 24;

/* Where the cells stand: one panel of the last two dimensions for each place in those before them. A long thin grid is folded: its pieces,
   of whole tiles, stand beside each other. */
class Sheet {
  constructor(width, height, labelled, most = 44) {
    [this.rows, this.cols] = D.lengths.slice(-2);
    this.labelled = labelled;
    Object.assign(this, {width, height, most});
    const chosen = this.folded(this.laid(this.rows, this.cols)), k = dpr(), least = labelled ? 1 : .2;
    this.s = chosen.s * k >= 1 ? Math.max(least, Math.floor(chosen.s * k) / k) : Math.max(chosen.s, least);
    this.place(chosen);
    this.image = document.createElement('canvas');
  }
  /* Panels of so many rows and columns in the room there is: their cells' side, how many stand side by side, and the room around them */
  laid(pieceRows, pieceCols) {
    const pieces = Math.ceil(this.rows / pieceRows) * Math.ceil(this.cols / pieceCols), before = D.lengths.slice(0, -2);
    const count = product(before) * pieces, folded = pieces > 1;
    const side = this.labelled ? 30 : 0, top = this.labelled ? 18 : 0;
    const gapX = this.labelled ? folded ? 36 : 10 : 2, gapY = this.labelled ? 20 : 2;
    let best = null;
    for (const across of before.length === 2 ? [before[1]] : upTo(Math.min(count, 64)).map(k => k + 1)) {
      const down = Math.ceil(count / across);
      const s = Math.min((this.width - side - gapX * (across - 1)) / (across * pieceCols),
        (this.height - top - gapY * (down - 1)) / (down * pieceRows), this.most);
      if (!best || s > best.s + 1e-9) best = {s, across, down, count, pieceRows, pieceCols, side, top, gapX, gapY};
    }
    return best;
  }
  folded(whole) {
    let best = whole;
    if (N > 2 || Math.max(...D.lengths) < THIN * Math.min(...D.lengths)) return best;
    for (let pieces = 2; pieces <= MOST_PIECES; pieces++) {
      const tiles = e => Math.ceil(D.lengths[e] / D.tiling[e] / pieces) * D.tiling[e];
      for (const trial of [this.laid(tiles(0), this.cols), this.laid(this.rows, tiles(1))]) if (trial.s > best.s + 1e-9) best = trial;
    }
    return best.s >= WORTH_FOLDING * whole.s ? best : whole;
  }
  place({across, down, count, pieceRows, pieceCols, side, top, gapX, gapY}) {
    const s = this.s, wide = s * pieceCols, high = s * pieceRows;
    const byRow = Math.ceil(this.rows / pieceRows), byCol = Math.ceil(this.cols / pieceCols);
    this.panels = upTo(count).map(i => {
      const row = Math.floor(i / byCol) % byRow * pieceRows, col = i % byCol * pieceCols;
      return {
        x: side + i % across * (wide + gapX), y: top + Math.floor(i / across) * (high + gapY), row, col, head: Math.floor(i / byRow / byCol),
        rows: Math.min(pieceRows, this.rows - row), cols: Math.min(pieceCols, this.cols - col),
      };
    });
    Object.assign(this, {pieceRows, pieceCols, byRow, byCol, isFolded: byRow * byCol > 1});
    const more = this.labelled ? 2 : 0;
    this.width = Math.ceil(side + Math.min(across, count) * (wide + gapX) - gapX) + more;
    this.height = Math.ceil(top + down * (high + gapY) - gapY) + more;
  }
  /* The panel of a cell, and its row and column in the last two dimensions */
  panelOf(cell) {
    const per = this.rows * this.cols, row = Math.floor(cell % per / this.cols), col = cell % this.cols;
    const piece = Math.floor(row / this.pieceRows) * this.byCol + Math.floor(col / this.pieceCols);
    return [Math.floor(cell / per) * this.byRow * this.byCol + piece, row, col];
  }
  spot(cell) {
    const [i, row, col] = this.panelOf(cell), p = this.panels[i];
    return [p.x + (col - p.col) * this.s, p.y + (row - p.row) * this.s];
  }
  cellAt(x, y) {
    for (const p of this.panels) {
      const c = Math.floor((x - p.x) / this.s), r = Math.floor((y - p.y) / this.s);
      if (c >= 0 && c < p.cols && r >= 0 && r < p.rows) return (p.head * this.rows + p.row + r) * this.cols + p.col + c;
    }
    return -1;
  }
  paint(x, colour, ox = 0, oy = 0) {
    const pen = this.image.getContext('2d');
    x.imageSmoothingEnabled = false;
    for (const p of this.panels) {
      if (this.image.width !== p.cols || this.image.height !== p.rows) {
        this.image.width = p.cols;
        this.image.height = p.rows;
        this.pixels = null;
      }
      if (!this.pixels) {
        this.pixels = new ImageData(p.cols, p.rows);
        this.words = new Uint32Array(this.pixels.data.buffer);
      }
      for (let r = 0, k = 0; r < p.rows; r++) {
        const first = (p.head * this.rows + p.row + r) * this.cols + p.col;
        for (let c = 0; c < p.cols; c++) this.words[k++] = colour(first + c);
      }
      pen.putImageData(this.pixels, 0, 0);
      x.drawImage(this.image, ox + p.x, oy + p.y, p.cols * this.s, p.rows * this.s);
    }
  }
  axes(x) {
    x.font = '11px ' + FONT;
    x.strokeStyle = '#9aa1a9';
    x.lineWidth = 1;
    this.panels.forEach((p, i) => {
      x.strokeRect(p.x - .5, p.y - .5, p.cols * this.s + 1, p.rows * this.s + 1);
      x.fillStyle = SOFT;
      if (N > 2) {
        x.textAlign = 'left';
        x.fillText(at([...placeOf(p.head * this.rows * this.cols).slice(0, -2), '·', '·']), p.x, p.y - 8);
      } else if (!i || this.isFolded) this.scales(x, p);
    });
  }
  scales(x, p) {
    const step = n => [1, 2, 5, 10, 20, 25, 50, 100, 200].find(k => k * this.s >= n) || 500, s = this.s;
    x.textAlign = 'center';
    for (let c = 0; c < p.cols; c += step(24)) x.fillText(p.col + c, p.x + (c + .5) * s, p.y - 10);
    x.textAlign = 'right';
    for (let r = 0; r < p.rows; r += step(16)) x.fillText(p.row + r, p.x - 6, p.y + (r + .5) * s);
  }
  box(x, cell, colour, width, inset = 0) {
    const [a, b] = this.spot(cell);
    x.strokeStyle = colour;
    x.lineWidth = width;
    x.strokeRect(a + inset, b + inset, this.s - 2 * inset, this.s - 2 * inset);
  }
  /* A tile's parts: one rectangle a panel; lengths in the last two dimensions, cut at the box */
  parts(t) {
    const low = lowest(t), high = highest(t);
    let heads = [[]];
    for (let e = 0; e < N - 2; e++) heads = heads.flatMap(h => upTo(high[e] - low[e] + 1).map(k => [...h, low[e] + k]));
    return heads.map(h => [
      ...this.spot(numberOf([...h, low[N - 2], low[N - 1]])), (high[N - 1] - low[N - 1] + 1) * this.s, (high[N - 2] - low[N - 2] + 1) * this.s]);
  }
  /* Rectangles around cells, one for each panel that has some */
  around(cells) {
    const found = new Map();
    for (const c of cells) {
      const [a, b] = this.spot(c), [panel] = this.panelOf(c), r = found.get(panel) || [a, b, a, b];
      found.set(panel, [Math.min(r[0], a), Math.min(r[1], b), Math.max(r[2], a), Math.max(r[3], b)]);
    }
    return [...found.values()].map(([a, b, c, d]) => [a, b, c - a + this.s, d - b + this.s]);
  }
  tileLines(x, colour) {
    x.strokeStyle = colour;
    x.lineWidth = 1;
    x.beginPath();
    for (let t = 0; t < TILES; t++) for (const [a, b, w, h] of this.parts(t)) x.rect(Math.round(a) + .5, Math.round(b) + .5, w, h);
    x.stroke();
  }
}
