/* Pointer and keys */

/* The dimension and the way of a key; none for other keys */
function stepOf(key) {
  const ways = {ArrowRight: [1, 1], ArrowLeft: [1, -1], ArrowDown: [2, 1], ArrowUp: [2, -1], PageDown: [3, 1], PageUp: [3, -1], End: [4, 1], Home: [4, -1]};
  return ways[key] && ways[key][0] <= N ? [N - ways[key][0], ways[key][1]] : null;
}
function cellUnder(sheet, id, e) {
  const r = $(id).getBoundingClientRect();
  return sheet.cellAt(e.clientX - r.left, e.clientY - r.top);
}
function listenToGrid(id) {
  $(id).addEventListener('mousemove', e => {
    const c = S.held ? -1 : cellUnder(sheets.grid, id, e);
    if (c >= 0 && c !== S.cell) chooseCell(c);
  });
  $(id).addEventListener('click', e => {
    const c = cellUnder(sheets.grid, id, e);
    if (c < 0) return;
    S.held = !(S.held && c === S.cell);
    chooseCell(c);
  });
  $(id).addEventListener('keydown', e => {
    const way = stepOf(e.key), place = placeOf(S.cell);
    if (!way) return;
    e.preventDefault();
    place[way[0]] += way[1];
    if (!inBox(place)) return;
    S.held = true;
    chooseCell(numberOf(place));
  });
}

/* The next tile that there is in a way */
function tileBeside(t, [e, sign]) {
  const place = D.places[t].slice();
  for (;;) {
    place[e] += sign;
    if (place[e] < 0 || place[e] * D.tiling[e] >= D.lengths[e]) return t;
    if (tileAt.has(place.join())) return tileAt.get(place.join());
  }
}
/* The message of the tile before or after the one that is chosen */
function stepMessage(sign) {
  const all = [...plan.sentBy[S.tile], ...plan.takenBy[S.tile]], k = all.indexOf(S.message);
  if (all.length) chooseMessage(all[(k + (sign > 0 ? 1 : all.length - 1 + (k < 0))) % all.length]);
}
function listenToMap() {
  $('map').addEventListener('click', e => {
    const c = cellUnder(sheets.map, 'map', e);
    if (c >= 0 && TILE[c] !== OUTSIDE) chooseTile(TILE[c]);
  });
  $('map').addEventListener('mousemove', e => tellMap(cellUnder(sheets.map, 'map', e)));
  $('map').addEventListener('mouseleave', () => tellMap(-1));
  $('map').addEventListener('keydown', e => {
    if (e.key === '[' || e.key === ']') return stepMessage(e.key === ']' ? 1 : -1);
    if (e.key === 'Escape') return chooseMessage(null);
    const way = stepOf(e.key);
    if (!way) return;
    e.preventDefault();
    chooseTile(tileBeside(S.tile, way));
  });
  $('tileno').addEventListener('change', () => chooseTile(Math.max(0, Math.min(TILES - 1, Math.floor(Number($('tileno').value)) || 0))));
  $('marks').addEventListener('click', e => {
    const r = $('marks').getBoundingClientRect(), {w, h, across} = holder.marks, column = Math.floor((e.clientX - r.left) / w);
    const m = Math.floor((e.clientY - r.top) / h) * across + column;
    if (column < across && m >= 0 && m < plan.messages.length) chooseMessage(m);
  });
}
/* Words and rows that stand for a message or a tile */
function listenToLinks() {
  document.addEventListener('click', e => {
    const m = e.target.closest('[data-message]'), t = e.target.closest('[data-tile]');
    if (m) {
      const number = Number(m.dataset.message), again = S.message === number && m.tagName !== 'A', button = m.tagName === 'BUTTON';
      chooseMessage(again ? null : number);
      const anew = button && document.querySelector(`#tilemail button[data-message="${number}"]`);
      if (anew) anew.focus({preventScroll: true});
    } else if (t) chooseTile(Number(t.dataset.tile));
  });
}
function listenToRounds() {
  $('roundsbox').addEventListener('keydown', e => {
    const p = D.on[S.tile], k = orderOn[S.tile], nearer = (a, b) => Math.abs(D.rounds[b] - D.rounds[S.tile]) < Math.abs(D.rounds[a] - D.rounds[S.tile]);
    const beside = {ArrowRight: 1, ArrowLeft: -1}[e.key], lane = {ArrowDown: 1, ArrowUp: -1}[e.key];
    if (!beside && !lane) return;
    e.preventDefault();
    const other = lane ? BUSY[laneOf(p) + lane] : undefined;
    const t = beside ? tilesOn[p][k + beside] : other === undefined ? undefined : tilesOn[other].reduce((a, b) => nearer(a, b) ? b : a);
    if (t !== undefined) chooseTile(t);
  });
}
function listenToRun() {
  $('slider').addEventListener('input', () => halted(Number($('slider').value)));
  $('first').onclick = () => halted(0);
  $('end').onclick = () => halted(R.count);
  $('back').onclick = () => halted(S.t - 1);
  $('forward').onclick = () => halted(S.t + 1);
  $('play').onclick = () => play(!S.playing);
  $('byorigin').onclick = () => chooseOrigin(false);
  $('byvalue').onclick = () => chooseOrigin(true);
  let drag = false;
  const seek = e => {
    const r = $('overview').getBoundingClientRect();
    halted(Math.round((e.clientX - r.left) / r.width * R.count));
  };
  $('overview').addEventListener('pointerdown', e => {
    drag = true;
    $('overview').setPointerCapture(e.pointerId);
    seek(e);
  });
  $('overview').addEventListener('pointermove', e => { if (drag) seek(e); });
  for (const end of ['pointerup', 'pointercancel']) $('overview').addEventListener(end, () => { drag = false; });
  $('strip').addEventListener('click', e => {
    const r = $('strip').getBoundingClientRect(), g = stripGeometry(), u = (e.clientX - r.left - LEFT) / STEP + g.from;
    if (u < g.from || u >= g.from + g.shown) return;
    const k = Math.floor(u - .5), bracket = e.clientY - r.top < TOP - 4 && mayBe(plan, k);
    if (bracket) S.pair = k;
    halted(bracket ? k + 1 : Math.floor(u) + 1);
  });
}

const KEYS = {
  ',': () => halted(S.t - 1), '.': () => halted(S.t + 1), n: () => stepPair(1), b: () => stepPair(-1), s: () => swapPair(openPair()),
  p: () => play(!S.playing), x: () => chooseRoute(1 - S.route),
};
const PLACES = {g: 'source', m: 'map', o: 'roundsbox', r: 'slider'};

function listenToKeys() {
  document.addEventListener('keydown', e => {
    const field = /^(INPUT|SELECT|TEXTAREA)$/.test(e.target.tagName) && !['range', 'checkbox'].includes(e.target.type);
    if (e.ctrlKey || e.metaKey || e.altKey || field) return;
    if (Object.hasOwn(PLACES, e.key)) {
      const to = $(PLACES[e.key]);
      to.closest('section').scrollIntoView();
      to.focus({preventScroll: true});
    } else if (Object.hasOwn(KEYS, e.key)) {
      e.preventDefault();
      KEYS[e.key]();
    }
  });
}
function listen() {
  listenToGrid('source');
  listenToGrid('result');
  listenToMap();
  listenToLinks();
  listenToRounds();
  listenToRun();
  listenToKeys();
  $('checkstates').onclick = checkAll;
  [0, 1].forEach(k => { $('route' + k).onclick = () => chooseRoute(k); });
  for (const k of ['auto', 'linear', 'log']) $(k).onclick = () => { S.scale = k; drawGrids(); drawMemories(); };
  $('lines').onchange = $('reads').onchange = drawGrids;
  let timer;
  window.addEventListener('resize', () => {
    clearTimeout(timer);
    timer = setTimeout(drawAll, 120);
  });
  window.addEventListener('beforeprint', () => {
    tellSum();
    if (plan.messages.length <= 300) $('allmessages').open = true;
  });
}
