/* The schedule by rounds */

const ROUNDS = Math.max(...D.rounds);

/* beyond so many places those without a tile are not drawn */
const MOST_PLACES = 4000;

/* what a tile is to the one that is chosen */
const PLAIN = 0, FEEDS = 1, MAILS = 2, CHOSEN = 3, BEFORE = 4, BESIDE = 5;
const ROUND_STYLES = [
  'fill:#eef1f4;stroke:#aab1b9', `fill:#fff;stroke:${MAIL};stroke-width:2.2;stroke-dasharray:6 3`,
  `fill:#fff;stroke:${PICK};stroke-width:2.2;stroke-dasharray:2 2`, `fill:${INK};stroke:${INK}`,
  `fill:#fff;stroke:${INK};stroke-width:2.2`, 'fill:#d3dce6;stroke:#77828e'];

function roundGeometry() {
  const wide = Math.max(26, Math.min(46, Math.floor(($('rounds').clientWidth - 110) / ROUNDS) - 2)), high = BUSY.length > 24 ? 15 : 24;
  return {wide, high, X: r => 100 + (r - 1) * (wide + 2), Y: p => 24 + laneOf(p) * (high + 2)};
}
function drawRounds() {
  const g = holder.round = roundGeometry(), {X, Y, wide, high} = g, taken = new Set(D.rounds.map((r, t) => D.on[t] + ':' + r));
  const text = (x, y, words, more = '') => `<text x="${x}" y="${y}"${more}>${words}</text>`;
  const soft = ` style="fill:${SOFT}"`, small = high < 20 ? ' style="font-size:10px"' : '', middle = ' text-anchor="middle"';
  const box = (p, r) => `x="${X(r) + .5}" y="${Y(p) + .5}" width="${wide - 1}" height="${high - 1}"`;
  const label = `Tiles by processor and round: ${plural(ROUNDS, 'round')}, ${plural(TILES, 'tile')}, ${plural(BUSY.length, 'processor')}`;
  let out = `<svg width="${X(ROUNDS + 1) + 4}" height="${24 + BUSY.length * (high + 2) + 4}" role="img" aria-label="${label}">` +
    text(0, 14, 'round', soft);
  for (let r = 1; r <= ROUNDS; r++) out += text(X(r) + wide / 2, 14, r, middle + soft);
  for (const p of BUSY) {
    out += text(0, Y(p) + high / 2 + 4, 'processor ' + p, small);
    if (ROUNDS * BUSY.length > MOST_PLACES) continue;
    for (let r = 1; r <= ROUNDS; r++) if (!taken.has(p + ':' + r)) out += `<rect class="idle" ${box(p, r)}/>`;
  }
  for (let t = 0; t < TILES; t++) {
    const p = D.on[t], r = D.rounds[t];
    out += `<g class="t" data-tile="${t}"><rect id="r${t}" ${box(p, r)}/>` +
      text(X(r) + wide / 2, Y(p) + high / 2 + 4, t, `${middle} id="x${t}"`) + '</g>';
  }
  $('roundsbox').innerHTML = out + '<g id="roundlines"></g></svg>';
}

/* The tiles that the chosen one waits for and that wait for it; by the direct route, as rounds are */
function around(t) {
  const direct = PLANS[0], nth = orderOn[t];
  return {
    mails: [...new Set(direct.takenBy[t].map(m => direct.messages[m].from))],
    feeds: [...new Set(direct.sentBy[t].map(m => direct.messages[m].to))],
    before: nth ? tilesOn[D.on[t]][nth - 1] : null,
  };
}
function roundsText(t, {mails, feeds, before}) {
  const causes = mails.map(k => `tile ${k} (mail, round ${D.rounds[k]})`);
  if (before !== null) causes.unshift(`tile ${before} (before it on processor ${D.on[t]}, round ${D.rounds[before]})`);
  const why = causes.length ? 'one more than the latest of ' + list(causes) : 'it waits for nothing';
  const waits = `${plural(feeds.length, 'tile')} on other processors wait${feeds.length === 1 ? 's' : ''} for it: ${list(feeds)}.`;
  return `${plural(ROUNDS, 'round')}; no plan of whole tiles ends sooner. <b>Tile ${t}, round ${D.rounds[t]}</b>: ${why}. ` +
    `${feeds.length ? waits : 'No tile on another processor waits for it.'} ${idleText}`;
}
function tellRounds() {
  const t = S.tile, near = around(t), {X, Y, wide, high} = holder.round;
  for (let k = 0; k < TILES; k++) {
    const box = $('r' + k), kind = k === t ? CHOSEN : near.mails.includes(k) ? MAILS : near.feeds.includes(k) ? FEEDS
      : k === near.before ? BEFORE : D.on[k] === D.on[t] ? BESIDE : PLAIN;
    if (box.kind === kind) continue;
    box.kind = kind;
    box.setAttribute('style', ROUND_STYLES[kind]);
    $('x' + k).setAttribute('style', (high < 20 ? 'font-size:10px;' : '') + (kind === CHOSEN ? 'fill:#fff;font-weight:600' : ''));
  }
  const path = (from, to, ink, dash) => {
    const [a, b] = [X(D.rounds[from]) + wide, Y(D.on[from]) + high / 2], [c, d] = [X(D.rounds[to]), Y(D.on[to]) + high / 2];
    return `<path d="M${a} ${b} L${c} ${d}" style="stroke:${ink};stroke-width:1.4;fill:none;stroke-dasharray:${dash}"/>`;
  };
  $('roundlines').innerHTML = near.mails.map(k => path(k, t, PICK, '2 2')).join('') + near.feeds.map(k => path(t, k, MAIL, 'none')).join('');
  $('roundstext').innerHTML = roundsText(t, near);
}
