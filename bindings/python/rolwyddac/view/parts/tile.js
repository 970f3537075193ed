/* The tile and the message that are chosen, in words */

const directionText = v => '(' + v.join(',') + ')';

/* what a table of messages shows of a message's cells, what a message's table has at most, and how much of its cells its text names */
const SHORT = 44, MOST_ROWS = 600, MOST_TEXT = 400;

function messageRow(m, other) {
  const msg = plan.messages[m], forward = msg.cells.filter(c => TILE[c] !== msg.from).length;
  const cells = [
    `<button class="plain" data-message="${m}" aria-pressed="${S.message === m}" aria-label="message ${m}">${m}</button>`,
    [directionText(msg.v), 't'], other === 'to' ? msg.to : msg.from, `${msg.by} → ${msg.taker}`, msg.words,
    ...(SHAPED ? [] : [plan.route === 'direct' ? msg.hops : forward]), [cut(ranges(msg.cells), SHORT), 't']];
  return row(cells).replace('<tr>', `<tr class="row${S.message === m ? ' pick' : ''}" data-message="${m}">`);
}
function messageTable(title, messages, other) {
  const last = plan.route === 'direct' ? 'hops' : 'passed on';
  const names = ['No.', ['direction', 't'], other + ' tile', 'processors', 'words', ...(SHAPED ? [] : [last]), ['cells', 't']];
  const rows = messages.map(m => messageRow(m, other)).join('');
  return `<p class="label">${title}</p>` + (messages.length ? `<table>${head(names)}${rows}</table>` : '');
}
function tellTile() {
  const t = S.tile, p = D.on[t], low = lowest(t), high = highest(t), nth = orderOn[t], sends = plan.sentBy[t], takes = plan.takenBy[t];
  $('tilehead').textContent = `Tile ${t} at ${at(D.places[t])}, processor ${p}`;
  $('bartile').textContent = `tile ${t} on processor ${p}`;
  $('tileno').value = t;
  $('tileno').max = TILES - 1;
  const whole = product(low.map((l, e) => high[e] - l + 1));
  $('tiletext').textContent = `${plural(cellsOf[t].length, 'cell')}, places ${low.map((l, e) => span(l, high[e])).join(' by ')}` +
    `${cellsOf[t].length < whole ? ' inside the shape' : ''}; ${nth + 1} of ${tilesOn[p].length} on its processor, round ${D.rounds[t]}.`;
  const route = sends.length ? `, by the ${plan.route} route` : '';
  $('tilemail').innerHTML = messageTable(`It sends ${plural(sends.length, 'message')}${route}`, sends, 'to') +
    messageTable(`It waits for ${plural(takes.length, 'message')}`, takes, 'from') +
    (nth ? `<p class="label">and for tile ${tilesOn[p][nth - 1]}, the one before it on processor ${p}</p>` : '');
  tellMap(-1);
  tellMessage();
}

/* Cells as a box of places where they fill one, else as numbers */
function placesText(cells) {
  const places = Array.from(cells, placeOf), ends = f => D.lengths.map((_, e) => f(...places.map(p => p[e])));
  const low = ends(Math.min), high = ends(Math.max), box = low.map((l, e) => span(l, high[e])).join(' by ');
  const full = product(low.map((l, e) => high[e] - l + 1)) === cells.length, text = ranges(cells);
  return `Places ${full ? '' : 'within '}${box}${full ? ', all of them' : ''}. Cells ${cut(text, MOST_TEXT)}` +
    `${text.length > MOST_TEXT ? ', all below' : ''}.`;
}
function tellMap(cell) {
  let here = '';
  if (cell >= 0) {
    const t = TILE[cell];
    here = t === OUTSIDE ? '; here: outside the shape' : `; here: tile ${t}, processor ${D.on[t]}, cell ${cell} at ${at(placeOf(cell))}`;
  }
  $('maptold').textContent = `${plural(TILES, 'tile')} on ${plural(PROCESSORS, 'processor')}, ${plan.route} route${here}`;
}
function readerText([reader, k, further]) {
  return `${reader} ${at(placeOf(reader))} by ${at(D.distances[k][0])}, tile ${TILE[reader]}${further ? ', passed on' : ''}`;
}
function tellMessage() {
  $('messagepanel').hidden = S.message === null;
  if (S.message === null) return;
  const msg = plan.messages[S.message], own = msg.cells.filter(c => TILE[c] === msg.from).length;
  const who = Array.from(msg.cells, (_, k) => readers(plan, msg, k)), passed = who.filter(all => all.some(one => one[2])).length;
  $('messagehead').textContent = `Message ${msg.m}: tile ${msg.from} to tile ${msg.to}, processor ${msg.by} to ${msg.taker}`;
  const ways = plan.route !== 'direct' ? `${own} of the tile's own, ${msg.words - own} passed on from an earlier tile; ${passed} go further from the taker. `
    : SHAPED ? '' : `On the indirect route its cells make ${plural(msg.hops, 'hop')}. `;
  $('messagetext').textContent = `Direction ${directionText(msg.v)}, ${plural(msg.words, 'word')}, ` +
    `buffer ${msg.offset} to ${msg.offset + msg.words - 1}. ${ways}${placesText(msg.cells)}`;
  const rows = Array.from(msg.cells.subarray(0, MOST_ROWS), (c, k) => row([
    msg.offset + k, c, [at(placeOf(c)), 't'], TILE[c], fmt(GRID[c]), [who[k].map(readerText).join('<br>') || 'no cell', 't']]));
  const more = msg.words > MOST_ROWS ? row([[`and ${msg.words - MOST_ROWS} more`, 't'], '', '', '', '', '']) : '';
  $('messagecells').innerHTML = head(['buffer', 'cell', ['place', 't'], 'tile', 'value', ['read by', 't']]) + rows.join('') + more;
}
