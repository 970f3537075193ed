/* The call that is chosen, in words, and the processors' records behind it */

function refusedText(R, k) {
  const number = R.number[k], p = R.who[k], m = R.message[k], t = R.tile[k];
  if (number === 12) {
    const due = dueAt(R, p, k).map(d => {
      const msg = plan.messages[d];
      return `message ${d} from tile ${msg.from} on processor ${msg.by}, which is ${MARKS[markAt(R, d, k)]}`;
    });
    return `It is to gather for tile ${t} and waits for ${list(due)}.`;
  }
  if (number === 13) return tilesOn[p].length ? `Its ${plural(tilesOn[p].length, 'tile')} are done.` : 'It has no tile.';
  if (number === 14) {
    return `Message ${m} from tile ${plan.messages[m].from} to tile ${plan.messages[m].to} is ${MARKS[markAt(R, m, k)]}.`;
  }
  const left = BUSY.map(q => [q, tilesOn[q].length - recordAt(R, q, k)[1]]).filter(x => x[1]);
  return `Not done: ${list(left.map(([q, tiles]) => `processor ${q} (${tiles} left)`))}.`;
}
const doneText = [
  (R, k) => {
    const t = R.tile[k], takes = plan.takenBy[t];
    if (!takes.length) return `Gathers for tile ${t}: no message is due there.`;
    const brought = plural(total(takes.map(m => plan.messages[m].words)), 'word');
    return `Gathers for tile ${t}: takes ${takes.length === 1 ? 'message' : 'messages'} ${list(takes)}, ${brought} into its memory.`;
  },
  (R, k) => {
    const t = R.tile[k], sends = plan.sentBy[t].length;
    const then = sends ? `; ${plural(sends, 'message')} to send` : '; no message to send, the tile is finished';
    return `Calculates tile ${t}: ${plural(cellsOf[t].length, 'cell')} written to its memory${then}.`;
  },
  (R, k) => {
    const msg = plan.messages[R.message[k]], last = plan.sentBy[msg.from].at(-1) === msg.m ? '; the tile is finished' : '';
    return `Sends message ${msg.m} of tile ${msg.from} to tile ${msg.to} on processor ${msg.taker}: ` +
      `${plural(msg.words, 'word')} into the buffer from ${msg.offset}${last}.`;
  },
  (R, k) => {
    const msg = plan.messages[R.message[k]];
    return `Message ${msg.m}, from tile ${msg.from} on processor ${msg.by}, is delivered to processor ${msg.taker}; ` +
      `tile ${msg.to} will take it.`;
  },
  () => `${plural(CELLS, 'word')} collected, each from the memory of its tile's processor: equal to the sequential sweep.`];

/* A call's name, what it did, and both in short */
function eventWords(R, k) {
  const what = R.what[k], m = R.message[k], p = R.who[k], t = R.tile[k], number = R.number[k];
  const name = [`turn of processor ${p}`, `delivery of message ${m}`, 'collecting the grid'][plan.events[R.order[k]] >> 14];
  if (number) {
    const [term, text] = D.numbers[number];
    return [name, `${term}: ${text}. ${refusedText(R, k)} Every word is as before.`, `${name}, refused ${number}`];
  }
  const did = [` gathers for tile ${t}`, ` calculates tile ${t}`, ` sends message ${m}`][what] || '';
  return [name, doneText[what](R, k), name + did];
}
function tellEvent() {
  const t = S.t, k = t - 1;
  $('slider').max = R.count;
  $('slider').value = t;
  $('count').textContent = $('barevent').textContent = `call ${t} of ${R.count}`;
  $('slider').setAttribute('aria-valuetext', `call ${t}: ${t ? eventWords(R, k)[2] : 'fresh start'}`);
  $('eventno').innerHTML = `${t}<small>of ${R.count}</small>`;
  if (!t) {
    $('eventhead').innerHTML = '<span class="badge">0</span>fresh start';
    $('eventtext').textContent = 'Every word of memories, buffer, progress and status is zero.';
  } else {
    const [name, text] = eventWords(R, k), n = R.number[k], m = R.message[k];
    $('eventhead').innerHTML = `<span class="badge${n ? ' no' : ''}">${n}</span>${n ? 'refused' : 'done'}: ${name}`;
    const link = m >= 0 ? ['message', m] : R.tile[k] >= 0 ? ['tile', R.tile[k]] : null;
    $('eventtext').innerHTML = esc(text) + (link ? ` <a href="#tiles" data-${link[0]}="${link[1]}">See ${link.join(' ')}</a>` : '');
  }
  clearTimeout(holder.sum);
  holder.sum = setTimeout(tellSum, S.playing ? 400 : 60);
}
function tellSum() {
  const mine = sumAt(R, S.t), theirs = engineSum(plan, plan.order, S.t), same = mine === theirs && !R.differs;
  const apart = isTurned(plan, S.t - 1) ? ' (between two calls that are swapped)' : '';
  $('eventcheck').innerHTML = `Check number of all ${fmt(total(plan.areas))} elements, CRC-32:<br>` +
    `engine, when the page was made <code>${hex(theirs)}</code><br>what is shown here <code>${hex(mine)}</code><br>` +
    `<b>${same ? '✓ the same' : '✗ differ'}</b>${apart}`;
}

/* the messages that a line of the table names */
const MOST_DUE = 4;

function recordRow(p) {
  const [, finished, stage, sent] = recordAt(R, p, S.t), tiles = tilesOn[p], done = finished === tiles.length, due = dueAt(R, p, S.t);
  const named = due.slice(0, MOST_DUE).map(m => `${m} from P${plan.messages[m].by} (${MARKS[markAt(R, m, S.t)]})`);
  const waits = due.length ? list(named) + (due.length > MOST_DUE ? ' …' : '') : '–';
  const of = done || stage < SEND ? '' : ' of ' + plan.sentBy[tiles[finished]].length;
  const cells = [p, `${finished} of ${tiles.length}`, done ? '–' : tiles[finished],
    [done ? 'finished' : due.length ? 'gather, waits' : STAGES[stage], 't'], sent + of, [waits, 't']];
  return S.t && R.who[S.t - 1] === p ? row(cells).replace('<tr>', '<tr class="pick">') : row(cells);
}
function tellRecords() {
  $('records').innerHTML = head(['processor', 'finished', 'tile', ['stage', 't'], 'sent', ['waits for message', 't']]) +
    BUSY.map(recordRow).join('');
  $('idletext').textContent = idleText;
  /* the processor of the call is kept in view */
  const box = $('records').parentElement, lane = S.t ? laneOf(R.who[S.t - 1]) : BUSY.length;
  if (box.scrollHeight <= box.clientHeight || lane === BUSY.length) return;
  const y = $('records').rows[lane + 1].offsetTop;
  if (y < box.scrollTop + 40 || y + 60 > box.scrollTop + box.clientHeight) box.scrollTop = y - box.clientHeight / 2;
}
