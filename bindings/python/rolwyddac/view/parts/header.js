/* What stands still: the recipe in words, figures, keys to the drawings, the evidence */

function tellVerdict() {
  const equal = sweptHere(), whole = equal === CELLS, words = `${fmt(equal)} of ${fmt(CELLS)} words`;
  $('verdict').innerHTML = `<span class="tick" aria-hidden="true">${whole ? '✓' : '✗'}</span><span><b>The grid equals the sequential sweep: ` +
    `${whole ? 'yes' : 'not as this page stands'}, ${words}</b>${PLANS.length > 1 ? ', on both routes' : ''}.<br>` +
    '<small>Told by the engine when this page was made. Summed again just now, by this page, from source and recipe: ' +
    `${words} equal.</small></span><span>library version ${esc(D.version)}</span>`;
}
function tellFacts() {
  const table = (title, rows) => `<table><caption>${title}</caption>${rows.map(r => row(r)).join('')}</table>`;
  const both = i => PLANS.map(p => fmt(p.figures[i])).join(' / '), counts = BUSY.map(p => tilesOn[p].length);
  const inside = SHAPED ? ['inside the shape', fmt(total(cellsOf.map(cells => cells.length)))] : ['dimensions', D.lengths.join(' × ')];
  $('facts').innerHTML =
    table('Grid', [['cells', fmt(CELLS)], inside, ['distances', D.distances.length], ['shift, boundary value', `${D.shift}, ${fmt(D.boundary)}`]]) +
    table('Plan, ' + (PLANS.length > 1 ? 'direct / indirect' : 'direct route'),
      [['tiles', fmt(TILES)], ['messages', both(3)], ['words', both(4)], ['steps', both(5)]]) +
    table('Processors', [
      ['processors', fmt(PROCESSORS) + (IDLE.length ? `, ${IDLE.length} without a tile` : '')],
      ['tiles on each', span(Math.min(...counts), Math.max(...counts))], ['rounds', ROUNDS],
      ['calls recorded', PLANS.map(p => fmt(p.events.length)).join(' / ')]]) +
    table('Of the limits', D.limits.map(([name, used, most]) => [name, `${fmt(used)} of ${fmt(most)}`, Math.round(100 * used / most) + ' %']));
}
function tellChecks() {
  const line = ([text, count, things]) => `<tr><td>✓</td><td>${esc(text)}</td><td class="n">${fmt(count)} ${things}</td></tr>`;
  $('checks').innerHTML = head([['', 't'], ['checked', 't'], ['equal', '']]) + D.checks.map(line).join('');
  const names = ["recipe's bytes", 'source, words low byte first', 'result, words low byte first'];
  $('hashes').innerHTML = names.map((name, k) => `SHA-256 of the ${name} <code>${D.sha[k]}</code>`).join('<br>');
  $('bytes').textContent = D.recipe.match(/.{32}/g).map(record => record.match(/../g).join(' ')).join('\n');
}
function tellLead() {
  const refused = plan.numbers.filter(n => n).length;
  $('runlead').textContent = `One order of turns and deliveries, drawn with seed ${D.seed} on the ${plan.route} route: ` +
    `${plural(plan.events.length, 'call')}, of them ${fmt(plan.figures[5])} steps, ${fmt(refused)} refused and the collecting at the end. ` +
    `${plural(plan.pairs, 'pair')} of neighbouring calls may be swapped; where a swap stands, the engine was also asked for the next.`;
}
function tellAll() {
  const names = ['No.', 'from tile', 'to tile', 'from processor', 'to processor', 'words', 'buffer', ['direction', 't'], ['cells', 't']];
  const line = m => row([m.m, m.from, m.to, m.by, m.taker, m.words, m.offset, [directionText(m.v), 't'], [ranges(m.cells), 't']]);
  $('alltable').innerHTML = head(names) + plan.messages.map(line).join('');
}

/* A drawing's key: a sign and what it means, each */
function tellKey(id, items, more = '') {
  const sign = inner => `<svg width="18" height="14" aria-hidden="true">${inner}</svg>`;
  $(id).innerHTML = items.map(([inner, text]) => `<span>${sign(inner)}${text}</span>`).join('') + more;
}
const signBox = (ink, more = '') => `<rect x="2" y="2" width="14" height="10" fill="none" stroke="${ink}" stroke-width="2"${more}/>`;
const signFull = ink => `<rect x="3" y="1" width="12" height="12" fill="${ink}"/>`;
const signDot = (fill, ink, width) => `<circle cx="9" cy="7" r="4.5" fill="${fill}" stroke="${ink}" stroke-width="${width}"/>`;
const signPath = (d, ink, more = '') => `<path d="${d}" fill="none" stroke="${ink}" stroke-width="1.6"${more}/>`;
const SIGN_HATCH = signPath('M1 13 L7 1 M6 13 L12 1 M11 13 L17 1', '#8a939c');
const DASHED = ' stroke-dasharray="5 3"', DOTTED = ' stroke-dasharray="2 2"';

function tellMapKeys() {
  const tints = BUSY.length > PASTEL.length ? '; tints repeat after eight processors' : '';
  tellKey('mapkey', [
    [signBox(INK), 'the tile chosen'], [signFull(MAIL), 'cells of its messages'], [signDot(PICK, PICK, 1), 'cells that read them'],
    [signDot('#fff', PICK, 2), 'read further on (indirect)'], [signBox(MAIL, DASHED), 'taking tile'],
    [signBox(PICK, DOTTED), 'tiles it waits for']], `<span>In each tile its number and processor (P)${tints}</span>`);
  tellKey('roundskey', [
    [signFull(INK), 'the tile chosen'], [signBox(PICK, DOTTED), 'mails to it'], [signBox(INK), 'before it on its processor'],
    [signBox(MAIL, DASHED), 'waits for its mail'], [signFull('#d3dce6'), 'same processor']], '<span>Rounds are those of the direct route</span>');
}
function tellRunKeys() {
  tellKey('stripkey', [
    [`<rect x="4" y="2" width="9" height="9" fill="none" stroke="${INK}" stroke-width="1.5"/>`, 'gathers'], [signFull(INK), 'calculates'],
    [`<path d="M4 2 L14 7 L4 12Z" fill="${INK}"/>`, 'sends'],
    [signDot('none', INK, 1.5) + `<circle cx="9" cy="7" r="2" fill="${INK}"/>`, 'a message is delivered'],
    [signPath('M4 2 L14 12 M14 2 L4 12', MAIL), 'refused'], [signPath('M2 11 V4 H16 V11', '#7d858e'), 'may be swapped'],
    [signPath('M0 3 L16 11', '#7c8fa3'), 'sent to delivered'], [signPath('M0 7 H18', '#7c8fa3', DOTTED), 'delivered to taken'],
    [signFull('#f7d9c4'), 'of the tile chosen'], [signPath('M0 3 L16 11', MAIL, ' style="stroke-width:2.4"'), 'the message chosen']]);
  $('markkey').innerHTML = MARKS.map((name, k) => `<span>${MARK_SIGN[k]} ${name}</span>`).join('');
  tellKey('memkey', [
    [signFull(OWN), 'calculated in place'], [signFull(BROUGHT), 'brought by mail'], [signFull(UNKNOWN), 'of its tiles, not yet known'],
    ['<rect x="3.5" y="1.5" width="11" height="11" fill="#fff" stroke="#9aa1a9"/>', 'not its own, never needed or not yet come'],
    [signBox('#000'), 'written by this call']]);
}
function tellHeader() {
  $('sentences').textContent = D.sentences.join(' ');
  $('sourcetold').textContent = $('sourcetold').title = D.told;
  $('route1').disabled = PLANS.length < 2;
  if (PLANS.length < 2) $('route1').title = 'a recipe with a bound has direct passing alone (21)';
  const more = N > 2 ? ', page up and down for the first dimension' + (N > 3 ? ', home and end for the one before' : '') : '';
  $('morekeys').textContent = more;
  tellVerdict();
  tellFacts();
  tellChecks();
  tellMapKeys();
  tellRunKeys();
}
