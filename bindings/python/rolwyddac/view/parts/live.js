/* By hand: the next event is chosen, the engine answers. Only a page that is served has this part. */

function handButtons() {
  const scene = SCENES.apart, words = scene.wordsAt(scene.count), sentMark = m => markThere(words, m, false);
  const button = (kind, which, text) => `<button data-kind="${kind}" data-which="${which}">${text}</button>`;
  const line = (name, buttons) => `<tr><td class="t">${name}</td><td class="t">${buttons}</td></tr>`;
  const boards = BUSY.map(p => line('board ' + p, isUp(words, p) ? button(TURN, p, 'turn') + button(CRASH, p, 'crash') : button(START, p, 'start again')));
  const flying = packetsOf(scene).map((packet, k) => [packet, k]).filter(([packet]) => packet.end === NEVER);
  const mail = flying.map(([{m}, k]) => line(`packet ${k}, of message ${m}`, button(ARRIVE, k, 'arrives') + button(LOSE, k, 'is lost')));
  const sent = PLANS[0].messages.filter(({m, by}) => isUp(words, by) && [1, 2].includes(sentMark(m)));
  const posts = sent.map(({m}) => line('message ' + m, sentMark(m) === 1 ? button(POST, m, 'post') : button(AGAIN, m, 'post again')));
  const table = (title, rows) => `<div><p class="label">${title}</p><div class="scroll" tabindex="0" aria-label="${title}"><table>` +
    `${rows.join('') || line('none', '')}</table></div></div>`;
  return `<h3>By hand</h3><p id="handtold" role="status">${esc(holder.hand || 'Choose what happens next.')}</p><div class="hands">` +
    `${table('Boards', boards)}${table('Packets in flight', mail)}${table('Messages that were sent', posts)}</div><p>${button(ALL, 0, 'collect')}</p>`;
}
function drawHand() {
  $('hand').hidden = false;
  $('hand').innerHTML = handButtons();
}
function answered(told) {
  const scene = SCENES.apart;
  if (told.refused) {
    holder.hand = told.refused;
    return;
  }
  scene.data.events.push(told.event);
  scene.data.changes.push(told.changes);
  scene.data.packets = told.packets;
  scene.sums.push(told.sum);
  sceneGo(scene, scene.count);
  const number = told.event[2], term = number ? ', ' + D.numbers[number][0] : '';
  const equal = told.equal === undefined ? '' : ` The grid ${told.equal ? 'equals' : 'differs from'} the sequential sweep.`;
  holder.hand = (number === null ? 'Done: ' : `The engine answers ${number}${term}: `) + apartTold(scene, scene.count - 1)[0] + '.' + equal;
}
async function chooseByHand(button) {
  const asked = {kind: Number(button.dataset.kind), which: Number(button.dataset.which)};
  const place = `[data-kind="${asked.kind}"][data-which="${asked.which}"]`;
  for (const each of document.querySelectorAll('#hand button')) each.disabled = true;
  try {
    const answer = await fetch('event', {method: 'POST', headers: {'Content-Type': 'application/json'}, body: JSON.stringify(asked)});
    if (!answer.ok) throw new Error(await answer.text());
    answered(await answer.json());
  } catch (error) {
    holder.hand = 'No answer: the command has ended, or it does not take this. ' + error.message;
  }
  drawHand();
  const next = document.querySelector('#hand ' + place) || document.querySelector('#hand button');
  if (next) next.focus({preventScroll: true});
}
$('hand').addEventListener('click', e => {
  const button = e.target.closest('button[data-kind]');
  if (button) chooseByHand(button);
});
drawHand();
