/* Every state of the run against the engine's check numbers, and every state of other orders that the engine was asked for */

/* the order that leads to a state in which calls behind one are done before it, and how many are done there */
function wayTo(done) {
  const behind = upTo(32 - Math.clz32(done)).map(bit => bit + 1), early = behind.filter(k => done >> (k - 1) & 1);
  return [[...early, 0, ...behind.filter(k => !early.includes(k))], early.length];
}

/* so long it works before the page gets a turn, in milliseconds */
const PIECE = 24;

function otherHolds(p, run, key) {
  const [first, done] = key.split(':').map(Number), [way, count] = wayTo(done), order = run.order.slice();
  way.forEach((k, i) => { order[first + i] = first + k; });
  const other = new Replay(p, order);
  sumAt(run, first);
  other.cache = run.cache.slice();
  return sumAt(other, first + count) === p.others.get(key) && sumAt(other, first + way.length) === p.sums[first + way.length];
}
async function checkAll() {
  const p = plan, run = new Replay(p, Int32Array.from(p.events, (_, k) => k)), others = [...p.others.keys()];
  const scenes = Object.values(SCENES), more = total(scenes.map(scene => scene.count + 1));
  let states = 0, middles = 0, beside = 0, last = performance.now();
  const told = () => `${fmt(states)} of ${fmt(run.count + 1)} states and ${fmt(middles)} of ${fmt(others.length)} of other orders ` +
    (more ? `and ${fmt(beside)} of ${fmt(more)} of the runs below it ` : '') + `have the engine's check number, ${p.route} route`;
  const rest = async () => {
    if (performance.now() - last < PIECE) return;
    $('stateresult').textContent = told() + ' …';
    await new Promise(done => { setTimeout(done); });
    last = performance.now();
  };
  $('checkstates').disabled = true;
  for (let t = 0; t <= run.count; t++) {
    if (sumAt(run, t) === p.sums[t]) states++;
    await rest();
  }
  for (const key of others) {
    if (otherHolds(p, run, key)) middles++;
    await rest();
  }
  for (const scene of scenes) {
    for (let t = 0; t <= scene.count; t++) {
      if (scene.isSame(t)) beside++;
      await rest();
    }
  }
  $('checkstates').disabled = false;
  const all = states === run.count + 1 && middles === others.length && beside === more && !run.differs;
  $('stateresult').textContent = told() + (all ? ': ✓ all.' : ': ✗ not all.');
}
