/* The cell that is chosen, in words */

function tellOutside(c) {
  $('cellfacts').innerHTML = cellFacts('none', 'none', c);
  $('cellsum').innerHTML = '';
  $('celltext').textContent = `outside the shape: ${D.boundary}, never calculated or sent`;
  $('cellmail').innerHTML = '<p>No message holds it.</p>';
}
function cellFacts(tile, processor, c) {
  const pair = (name, value) => `<dt>${name}</dt><dd>${value}</dd>`;
  return pair('tile', tile) + pair('source', fmt(SOURCE[c])) + pair('processor', processor) + pair('result', `<b>${fmt(GRID[c])}</b>`);
}

/* Its value written out: the rows of the table, and the sum as a text */
function sumOf(c) {
  const place = placeOf(c);
  let sum = BigInt(SOURCE[c]), text = String(SOURCE[c]), rows = '';
  for (const [d, w] of D.distances) {
    const from = moved(c, d, -1), value = from < 0 ? D.boundary : GRID[from], there = place.map((x, e) => x - d[e]);
    sum += BigInt(w) * BigInt(value);
    text += ` + ${w} × ${value}`;
    const reads = from < 0 ? `<i>outside the ${inBox(there) ? 'shape' : 'box'}</i>` : `cell ${from} at ${at(there)}`;
    rows += row([[at(d), 't'], [reads, 't'], from < 0 ? '–' : TILE[from], w, fmt(value)]);
  }
  text += ` = ${sum}`;
  let value = sum >> BigInt(D.shift);
  if (D.shift) text += `, ${sum} / ${2 ** D.shift} = ${value}`;
  if (value >> 32n) {
    value &= 0xffffffffn;
    text += `, modulo 2^32 = ${value}`;
  }
  return [rows, text + (value === BigInt(GRID[c]) ? '' : ' (differs from the result)')];
}

/* Who reads it, and the messages that hold it */
function mailOf(c) {
  const t = TILE[c], here = D.distances.map(([d]) => moved(c, d, 1)).filter(r => r >= 0);
  const named = here.map(r => r + (TILE[r] === t ? '' : ` (tile ${TILE[r]})`));
  const held = plan.messages.filter(m => m.cells.includes(c)).map(m => {
    const link = `<a href="#tiles" data-message="${m.m}">${m.m}</a>`;
    return `<p>In message ${link}, tile ${m.from} to tile ${m.to}, processor ${m.by} to ${m.taker}.</p>`;
  });
  return `<p>Read by ${here.length ? plural(here.length, 'cell') + ': ' + list(named) : 'no cell'}.</p>` +
    (held.length ? held.join('') : `<p>No message of the ${plan.route} route holds it.</p>`);
}
function tellCell() {
  const c = S.cell, t = TILE[c];
  $('cellhead').textContent = `Cell ${c} at ${at(placeOf(c))}`;
  $('barcell').textContent = `cell ${c} at ${at(placeOf(c))}`;
  if (t === OUTSIDE) return tellOutside(c);
  $('cellfacts').innerHTML = cellFacts(`${t} at ${at(D.places[t])}`, D.on[t], c);
  const [rows, text] = sumOf(c);
  $('cellsum').innerHTML = head([['distance', 't'], ['reads', 't'], 'tile', 'weight', 'value']) + rows;
  $('celltext').textContent = text;
  $('cellmail').innerHTML = mailOf(c);
}
