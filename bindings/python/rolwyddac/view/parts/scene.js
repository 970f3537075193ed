/* A run that is told by the engine's words: what each call changed of them stands in the page, and a moment is the sum of the changes up to it.
   Offices and boards apart are shown so; each says what its lanes, signs, words and tables are. */

const COLUMN = 24, LANE = 26, MARGIN = 104;

class Scene {
  constructor(id, data, look) {
    Object.assign(this, {id, data, look, t: 0, at: 0, playing: false, words: Uint32Array.from(data.start), sums: Array.from(words(data.sums))});
  }
  get count() { return this.data.events.length; }
  /* The engine's words behind t calls */
  wordsAt(t) {
    if (t < this.at) {
      this.words.set(this.data.start);
      this.at = 0;
    }
    for (; this.at < t; this.at++) {
      const changes = this.data.changes[this.at];
      for (let k = 0; k < changes.length; k += 2) this.words[changes[k]] = changes[k + 1];
    }
    return this.words;
  }
  isSame(t) { return crc32(asBytes(this.wordsAt(t))) === this.sums[t]; }
  $(part) { return $(this.id + part); }
}

/* The controls of a scene; each has the scene's name before its own */
function sceneMarkup(id, what) {
  const button = (name, label, text) => `<button id="${id}${name}" aria-label="${what}: ${label}">${text}</button>`;
  return `<div class="transport"><span class="seg" role="group" aria-label="${what}">${button('first', 'to the start', '|◀')}` +
    `${button('back', 'one back', '◀ back')}${button('play', 'play or halt', 'play')}${button('forward', 'one forward', 'step ▶')}` +
    `${button('end', 'to the end', '▶|')}</span><input type="range" id="${id}slider" min="0" value="0" aria-label="${what}: events done">` +
    `<output id="${id}count"></output></div>` +
    `<div class="event" aria-live="polite" id="${id}event"><div id="${id}no" class="no"></div>` +
    `<div><h3 id="${id}head"></h3><p id="${id}text"></p></div><div id="${id}check" class="checked"></div></div>` +
    `<div id="${id}week"></div><div id="${id}strip" role="img" aria-label="${what}: events around the one chosen, which is told above" ` +
    `aria-describedby="${id}text"></div><p class="key" id="${id}key"></p>` +
    `<div class="scroll tall" id="${id}tables" tabindex="0" aria-label="${what}: tables"></div>`;
}

/* Which columns are drawn: as many as have room, the chosen one two thirds to the right */
function columnsOf(scene) {
  const room = Math.max(8, Math.floor((scene.$('box').clientWidth - MARGIN - 10) / COLUMN));
  const from = Math.max(0, Math.min(scene.count - room, scene.t - Math.floor(room * 2 / 3)));
  return {from, to: Math.min(scene.count, from + room), X: k => MARGIN + (k - from) * COLUMN + COLUMN / 2, Y: lane => 20 + lane * LANE + LANE / 2};
}
const svgText = (x, y, text, more = '') => `<text x="${x}" y="${y}"${more}>${esc(text)}</text>`;

function drawSceneStrip(scene) {
  const g = columnsOf(scene), lanes = scene.look.lanes, width = MARGIN + (g.to - g.from) * COLUMN + 10, height = 24 + lanes.length * LANE;
  const ground = lanes.map((name, lane) => svgText(MARGIN - 8, g.Y(lane) + 4, name, ' text-anchor="end"') +
    `<path d="M${MARGIN} ${g.Y(lane)} H${width}" stroke="#dfe3e7"/>`);
  const frame = `y="14" width="${COLUMN}" height="${height - 18}" fill="none" stroke="${INK}" stroke-width="1.5"`;
  const here = scene.t > g.from ? `<rect x="${g.X(scene.t - 1) - COLUMN / 2}" ${frame}/>` : '';
  const behind = scene.look.ground(scene, g), signs = [];
  for (let k = g.from; k < g.to; k++) signs.push(`<g data-at="${k + 1}">${scene.look.sign(scene, k, g)}</g>`);
  const box = scene.$('strip');
  box.innerHTML = `<svg width="${width}" height="${height}"><defs><pattern id="${scene.id}hatch" width="6" height="6" patternUnits="userSpaceOnUse" ` +
    `patternTransform="rotate(45)"><path d="M0 0 V6" stroke="#8a939c" stroke-width="2"/></pattern></defs>` +
    `${behind}${ground.join('')}${signs.join('')}${here}</svg>`;
}
function tellSceneEvent(scene) {
  const t = scene.t, slider = scene.$('slider');
  slider.max = scene.count;
  slider.value = t;
  scene.$('count').textContent = `event ${t} of ${scene.count}`;
  scene.$('no').innerHTML = `${t}<small>of ${scene.count}</small>`;
  const [name, text] = t ? scene.look.told(scene, t - 1) : ['fresh start', scene.look.fresh], number = t ? scene.data.events[t - 1][2] : 0;
  slider.setAttribute('aria-valuetext', `event ${t}: ${name}`);
  const badge = number === null ? '–' : number;
  scene.$('head').innerHTML = `<span class="badge${number ? ' no' : ''}">${badge}</span>${number ? 'refused: ' : ''}${esc(name)}`;
  scene.$('text').textContent = text;
  scene.$('check').innerHTML = `Check number of the ${plural(scene.words.length, 'word')} shown here, CRC-32:<br>` +
    `engine <code>${hex(scene.sums[t])}</code><br><b>${scene.isSame(t) ? '✓ the same' : '✗ differ'}</b>`;
}
function drawScene(scene) {
  tellSceneEvent(scene);
  drawSceneStrip(scene);
  scene.$('week').innerHTML = scene.look.week ? scene.look.week(scene) : '';
  scene.$('tables').innerHTML = scene.look.tables(scene, scene.wordsAt(scene.t));
}
function sceneGo(scene, t) {
  scene.t = Math.max(0, Math.min(scene.count, t));
  drawScene(scene);
}
function scenePlay(scene, on) {
  scene.playing = on;
  scene.$('play').textContent = on ? 'halt' : 'play';
  scene.$('event').setAttribute('aria-live', on ? 'off' : 'polite');
  if (!on) return;
  if (scene.t === scene.count) scene.t = 0;
  let last = performance.now();
  const frame = now => {
    if (!scene.playing) return;
    if (now - last > 125) {
      last = now;
      sceneGo(scene, scene.t + 1);
    }
    if (scene.t === scene.count) scenePlay(scene, false); else requestAnimationFrame(frame);
  };
  requestAnimationFrame(frame);
}
function listenToScene(scene) {
  const to = t => { scenePlay(scene, false); sceneGo(scene, t); };
  scene.$('slider').addEventListener('input', () => to(Number(scene.$('slider').value)));
  scene.$('first').onclick = () => to(0);
  scene.$('end').onclick = () => to(scene.count);
  scene.$('back').onclick = () => to(scene.t - 1);
  scene.$('forward').onclick = () => to(scene.t + 1);
  scene.$('play').onclick = () => scenePlay(scene, !scene.playing);
  scene.$('strip').addEventListener('click', e => {
    const sign = e.target.closest('[data-at]');
    if (sign) to(Number(sign.dataset.at));
  });
}

/* Those that this page has */
const SCENES = {};
function addScene(id, what, look) {
  $(id).hidden = $('to' + id).hidden = !D[id];
  if (!D[id]) return;
  $(id + 'box').innerHTML = sceneMarkup(id, what);
  const scene = SCENES[id] = new Scene(id, D[id], look);
  scene.t = Math.floor(scene.count / 3);
  $(id + 'lead').textContent = look.lead(scene);
  tellKey(id + 'key', look.key);
  listenToScene(scene);
}

/* Signs that scenes share, at a place */
function stageSign(stage, x, y, ink, open) {
  const pen = `stroke="${ink}" stroke-width="1.6"`, fill = open || stage === GATHER ? '#fff' : ink;
  if (stage === SEND) return `<path d="M${x - 5} ${y - 6} L${x + 6} ${y} L${x - 5} ${y + 6}Z" fill="${fill}" ${pen}/>`;
  const stroke = stage === CALCULATE && open ? `<path d="M${x - 5} ${y + 5} L${x + 5} ${y - 5}" ${pen}/>` : '';
  return `<rect x="${x - 5}" y="${y - 5}" width="10" height="10" fill="${fill}" ${pen}/>${stroke}`;
}
function crossSign(x, y, ink = MAIL) {
  return `<path d="M${x - 5} ${y - 5} L${x + 5} ${y + 5} M${x + 5} ${y - 5} L${x - 5} ${y + 5}" stroke="${ink}" stroke-width="1.8"/>`;
}
const smallText = (x, y, text) => svgText(x, y, text, ' class="small" text-anchor="middle"');
const dotSign = (x, y, ink, open) => `<circle cx="${x}" cy="${y}" r="5" fill="${open ? '#fff' : ink}" stroke="${ink}" stroke-width="1.6"/>`;

/* What a processor is at, of a record's three words */
function stageText(p, [finished, stage, sent]) {
  if (finished === tilesOn[p].length) return 'finished';
  return `${STAGES[stage]}, tile ${tilesOn[p][finished]}` + (stage === SEND ? `, ${sent} sent` : '');
}
/* What a turn did, of the record before it */
function turnText(p, [finished, stage, sent]) {
  const tile = tilesOn[p][finished], takes = PLANS[0].takenBy[tile];
  if (stage === GATHER) return `It gathers for tile ${tile}${takes.length ? `, and takes message${takes.length > 1 ? 's' : ''} ${list(takes)}` : ''}.`;
  if (stage === CALCULATE) return `It calculates the ${plural(cellsOf[tile].length, 'cell')} of tile ${tile}.`;
  return `It sends message ${PLANS[0].sentBy[tile][sent]} of tile ${tile}.`;
}
