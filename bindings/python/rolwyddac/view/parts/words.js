'use strict';
/* Names and words that all parts of the script share. The parts stand in one script, in the order of page.py. */

const $ = id => document.getElementById(id);
const D = JSON.parse($('data').textContent);

const NEVER = 0x7fffffff;
const OUTSIDE = 0xffff;
const WORD = 2 ** 32;

/* kinds of calls, and what a call came to */
const TURN = 0, DELIVER = 1, COLLECT = 2;
const GATHER = 0, CALCULATE = 1, SEND = 2, DELIVERED = 3, COLLECTED = 4, REFUSED = 5;

/* which of the calls behind one that is not done are done, a bit a call: the next alone */
const SECOND = 1;

const STAGES = ['gather', 'calculate', 'send'];
const MARKS = ['unsent', 'in flight', 'delivered', 'taken'];

/* of every two colours that tell things apart, one is much darker, or their outlines differ */
const INK = '#1a1e23', SOFT = '#565e67', PICK = '#0a4f8f', MAIL = '#c24d00';
const OWN = '#2f5573', BROUGHT = '#e08a3c', UNKNOWN = '#e4e9ee';
const FONT = '"Helvetica Neue", Helvetica, Arial, "Liberation Sans", sans-serif';

const bytesOf = text => Uint8Array.from(atob(text), c => c.charCodeAt(0));
const words = text => new Uint32Array(bytesOf(text).buffer);
const halves = text => new Uint16Array(bytesOf(text).buffer);

const product = numbers => numbers.reduce((a, b) => a * b, 1);
const total = numbers => numbers.reduce((a, b) => a + b, 0);
const upTo = count => Array.from({length: count}, (_, k) => k);
const lists = count => Array.from({length: count}, () => []);

const fmt = n => n.toLocaleString('en-GB');
const hex = n => (n >>> 0).toString(16).padStart(8, '0');
const plural = (n, word) => fmt(n) + ' ' + word + (n === 1 ? '' : 's');
const at = place => '(' + place.join(', ') + ')';
const esc = text => String(text).replace(/&/g, '&amp;').replace(/</g, '&lt;');
const list = things => things.length < 2 ? things.join('') : things.slice(0, -1).join(', ') + ' and ' + things.at(-1);
const span = (low, high) => low === high ? String(low) : low + '–' + high;

/* A table's row; a cell with a class is a list of its text and the class */
function row(cells, kind = 'td') {
  const one = c => Array.isArray(c) ? `<${kind} class="${c[1]}">${c[0]}</${kind}>` : `<${kind}>${c}</${kind}>`;
  return '<tr>' + cells.map(one).join('') + '</tr>';
}
const head = cells => '<thead>' + row(cells, 'th') + '</thead>';

/* Numbers, those that follow each other as a range */
function ranges(numbers) {
  const out = [];
  for (let i = 0, j; i < numbers.length; i = j + 1) {
    for (j = i; j + 1 < numbers.length && numbers[j + 1] === numbers[j] + 1;) j++;
    out.push(j === i + 1 ? numbers[i] + ', ' + numbers[j] : span(numbers[i], numbers[j]));
  }
  return out.join(', ');
}

/* The first of many, cut between two */
const cut = (text, most) => text.length > most ? text.slice(0, most).replace(/[^,]*$/, '') + ' …' : text;
