/* Neighbouring calls that may be swapped, and both orders side by side */

/* The pair at the call that is chosen: with the call behind it, else with the one before */
function pairAt() {
  const found = [S.t - 1, S.t - 2].find(k => mayBe(plan, k));
  return found === undefined ? null : found;
}
const openPair = () => S.pair !== null ? S.pair : pairAt();

function changes(R, k) {
  const what = R.what[k], p = R.who[k], m = R.message[k], t = R.tile[k];
  if (what === GATHER) {
    const takes = plan.takenBy[t];
    return `stage of processor ${p}` + (takes.length ? `; marks of ${list(takes)} to taken; words into its memory` : '');
  }
  if (what === CALCULATE) return `record of processor ${p}; ${plural(cellsOf[t].length, 'word')} of its memory`;
  if (what === DELIVERED) return `mark of message ${m} to delivered`;
  return `record of processor ${p}; mark of message ${m} to in flight; ${plural(plan.messages[m].words, 'word')} of the buffer`;
}

/* The run with the pair the other way round; kept while the pair is open */
function replayTurned(k) {
  const key = [S.route, k, plan.turns || 0].join(':');
  if (holder.otherKey !== key) {
    holder.otherKey = key;
    holder.other = new Replay(plan, turned(plan.order, k));
  }
  return holder.other;
}

/* One order of a pair: number, call, changes, and the check numbers of the engine and of this page */
function orderTable(R, k, title) {
  const lines = [k, k + 1].map(i => {
    const theirs = engineSum(plan, R.order, i + 1), good = sumAt(R, i + 1) === theirs;
    return row([R.number[i], eventWords(R, i)[2], changes(R, i), `<code>${hex(theirs)}</code> ${good ? '✓' : '✗'}`]);
  });
  const names = row(['number', 'call', 'changes', 'check number'].map(name => [name, 't']), 'th');
  return `<div><table class="wide"><caption class="label">${title}</caption>${names}${lines.join('')}</table></div>`;
}
function bothOrders(k) {
  const on = isTurned(plan, k), here = orderTable(R, k, on ? 'As it stands, swapped' : 'As it stands');
  const elements = fmt(total(plan.areas)), parts = ['memories', 'buffer', 'progress', 'status'].map((name, i) => `${name} ${fmt(plan.areas[i])}`);
  return `<div class="orders">${here}${orderTable(replayTurned(k), k, 'The other order')}</div>` +
    `<p class="same"><b>✓ The same behind both: ${elements} of ${elements} elements</b> (${parts.join(', ')}), compared by the engine's own ` +
    `calls when this page was made. A ✓ at a check number: the words that this page shows there have it too.</p>`;
}
function noPair() {
  const refused = S.t && R.number[S.t - 1] ? 'This call was refused: it is no event of the run. ' : '';
  return `<div class="head"><span>${refused}No pair here that may be swapped. ${plural(plan.pairs, 'pair')} of this run may: ` +
    'two different calls that could both be taken where the first of them stands.</span><button id="nextpair">next pair (n)</button></div>';
}
function tellSwap() {
  const k = openPair(), box = $('swappanel');
  if (k === null) box.innerHTML = noPair();
  else {
    const on = isTurned(plan, k), open = S.pair === k;
    box.innerHTML = `<div class="head"><span><b>Calls ${k + 1} and ${k + 2} may be swapped</b>: ` +
      `${eventWords(R, k)[2]}; ${eventWords(R, k + 1)[2]}.${on ? ' They stand swapped in the run above.' : ''}</span>` +
      `<button id="both" aria-expanded="${open}">${open ? 'close' : 'show both orders'}</button>` +
      `<button id="swap" aria-pressed="${on}">${on ? 'put back (s)' : 'swap them in the run (s)'}</button>` +
      `<button id="nextpair">next pair (n)</button></div>${open ? bothOrders(k) : ''}`;
    $('both').onclick = () => refocused('both', () => {
      S.pair = open ? null : k;
      tellSwap();
      drawStrip();
    });
    $('swap').onclick = () => refocused('swap', () => swapPair(k));
  }
  $('nextpair').onclick = () => refocused('nextpair', () => stepPair(1));
}
/* The panel's buttons are made anew; who used one by keyboard stays on it */
function refocused(id, act) {
  act();
  if ($(id)) $(id).focus({preventScroll: true});
}
function swapPair(k) {
  if (k === null || !mayBe(plan, k)) return;
  plan.order = turned(plan.order, k);
  plan.turns = (plan.turns || 0) + 1;
  R = new Replay(plan, plan.order);
  drawRun(true);
}
function stepPair(sign) {
  const from = openPair();
  let k = from !== null ? from + sign : sign > 0 ? S.t : S.t - 2;
  while (k >= 0 && k < R.count && !mayBe(plan, k)) k += sign;
  if (k < 0 || k >= R.count) return;
  if (S.pair !== null) S.pair = k;
  go(k + 1);
}
