/* What is chosen, and what is drawn anew then */

function drawRun(all) {
  tellEvent();
  drawOverview();
  drawStrip();
  tellRecords();
  drawMarks();
  drawMemories(all);
  tellSwap();
}
function go(t) {
  S.t = Math.max(0, Math.min(R.count, t));
  if (S.pair !== null && (S.t < S.pair || S.t > S.pair + 2)) S.pair = null;
  drawRun();
}
function play(on) {
  S.playing = on;
  $('play').textContent = on ? 'halt' : 'play';
  $('play').setAttribute('aria-pressed', on);
  /* a screen reader is told the call at which the run halts, not each that it passes */
  $('event').setAttribute('aria-live', on ? 'off' : 'polite');
  if (!on) return;
  if (S.t === R.count) S.t = 0;
  let last = performance.now(), owed = 0;
  const frame = now => {
    if (!S.playing) return;
    owed += (now - last) / 1000 * Number($('speed').value);
    last = now;
    const steps = Math.floor(owed);
    owed -= steps;
    if (steps) go(S.t + steps);
    if (S.t === R.count) play(false); else requestAnimationFrame(frame);
  };
  requestAnimationFrame(frame);
}
const halted = t => { play(false); go(t); };

function chooseCell(c) {
  if (c < 0 || c >= CELLS) return;
  S.cell = c;
  drawGrids();
  tellCell();
}
function chosen() {
  drawMap();
  tellTile();
  tellRounds();
  drawStrip();
  drawMarks();
}
function chooseTile(t, message = null) {
  S.tile = t;
  S.message = message;
  chosen();
}
function chooseMessage(m) {
  S.message = m;
  if (m !== null && plan.messages[m].from !== S.tile && plan.messages[m].to !== S.tile) S.tile = plan.messages[m].from;
  chosen();
}
function chooseRoute(r) {
  if (!PLANS[r] || r === S.route) return;
  const share = S.t / R.count;
  S.route = r;
  S.message = S.pair = null;
  plan = PLANS[r];
  R = new Replay(plan, plan.order);
  S.t = Math.round(share * R.count);
  [0, 1].forEach(k => $('route' + k).setAttribute('aria-pressed', k === r));
  tellLead();
  drawMap();
  tellTile();
  tellCell();
  drawRun(true);
  tellAll();
}
function chooseOrigin(byValue) {
  S.byValue = byValue;
  $('byvalue').setAttribute('aria-pressed', byValue);
  $('byorigin').setAttribute('aria-pressed', !byValue);
  $('memkey').hidden = byValue;
  drawMemories(true);
}
function drawAll() {
  layout();
  drawGrids();
  tellCell();
  drawRounds();
  chooseTile(S.tile, S.message);
  drawRun(true);
  Object.values(SCENES).forEach(drawScene);
}
