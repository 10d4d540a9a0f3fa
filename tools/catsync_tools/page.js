
'use strict';
const data = JSON.parse(document.getElementById('data').textContent);
const picture = document.getElementById('picture'), rowsBox = document.getElementById('rows');
const lanesHeight = document.getElementById('lanes').offsetHeight;
const words = ['', 'transaction', 'locks', 'keeps', 'to send'];     // by the sort of a thing; 0 is a command
let here = -1;                                                      // the index of the row that is shown
const opened = new Set();                                           // the backends whose box is opened by a click

// The row of an entry.
function rowOf(number) {
  let low = 0, high = data.rows.length - 1;
  while (low < high) {
    const middle = (low + high) >> 1;
    if (data.rows[middle][1] < number) low = middle + 1; else high = middle;
  }
  return low;
}

// The last value of [entry, value] pairs at an entry.
function valueAt(pairs, number) {
  let low = 0, high = pairs.length;
  while (low < high) {
    const middle = (low + high) >> 1;
    if (pairs[middle][0] <= number) low = middle + 1; else high = middle;
  }
  return low ? pairs[low - 1][1] : 0;
}

function make(name, className, ...content) {
  const made = document.createElement(name);
  if (className) made.className = className;
  made.append(...content);
  return made;
}

// A text with links in place of {numbers}, as far as these entries are in the page.
function linked(text) {
  return text.split(/\{(\d+)\}/).map((part, at) => {
    if (at % 2 === 0 || part < data.first || part >= data.first + data.entries.length) return part;
    const link = make('a', '', part);
    link.href = '#' + part;
    return link;
  });
}

// How many messages wait for a backend, and for which relations.
function waiting(backend, number) {
  const from = valueAt(data.places[backend], number), to = valueAt(data.lengths, number);
  const counts = new Map();
  for (let at = from; at < to; at++) {
    const name = data.names[data.log[at - data.start]];
    counts.set(name, (counts.get(name) || 0) + 1);
  }
  const parts = [...counts].map(([name, count]) => counts.size > 1 ? `${name} (${count})` : name);
  return to > from ? `${to - from}, for ${parts.join(', ')}` : '';
}

// What is kept, as it was read up to an entry, and what is true then where that is something else: [field, value, now].
function valuesOf(kept, number) {
  const [read, truth] = data.kept[kept], now = new Map();
  truth.filter(([entry]) => entry <= number).forEach(([, field, value]) => now.set(field, value));
  return read.filter(([entry]) => entry <= number)
    .map(([, field, value]) => [field, value, now.has(field) && now.get(field) !== value ? now.get(field) : null]);
}

// The values of what is kept: those that have changed on lines of their own, with what is true now; then the others.
function valuesBox(values) {
  const box = make('div', 'values'), stale = values.filter(([, , now]) => now !== null);
  const same = values.filter(([, value, now]) => now === null && value !== '-');
  const none = values.filter(([, value, now]) => now === null && value === '-').map(([field]) => field);
  const named = (field, value) => [make('span', 'field', field + ' '), make('span', 'value', value)];
  stale.forEach(([field, value, now]) => box.append(make('div', 'stale', ...named(field, value), make('span', 'now', ' now '), make('span', 'value true', now))));
  same.forEach(([field, value], at) => box.append(...(at ? ['; '] : []), ...named(field, value)));
  if (none.length) box.append(make('span', 'none', (same.length ? '; no ' : 'no ') + none.join(', ')));
  return box;
}

// The boxes of the backends, and what they were made of: a box is made anew only where that has changed.
const boxes = new Map();
function update(life, indexes, number, active) {
  const [backend, first, last] = life;
  const away = number < first ? ' has not started' : last && number >= last ? ' has stopped' : '';
  const waits = away ? '' : waiting(backend, number);
  const things = indexes.map(index => data.things[index]);
  const isWhole = active || opened.has(backend) || data.lives.length < 4;
  const values = things.map(thing => thing[5] === null ? null : valuesOf(thing[5], number))
    .map(all => all && all.filter(([, , now]) => isWhole || now !== null));
  const made = [indexes, waits, away, active, JSON.stringify(values)].join('|'), box = boxes.get(backend);
  if (box && box.made === made) return;
  const element = backendBox(backend, away, things.map((thing, at) => [...thing, values[at]]), waits, active);
  if (box) box.element.replaceWith(element); else document.getElementById('state').append(element);
  boxes.set(backend, {element, made});
}

// What holds of a backend.
function backendBox(backend, away, things, waits, active) {
  const box = make('div', 'backend' + (active ? ' here' : '') + (away ? ' away' : ''));
  const head = make('h2', '', `backend ${backend}${away}`);
  head.addEventListener('click', () => {
    if (!opened.delete(backend)) opened.add(backend);
    show(here);
  });
  box.append(head);
  if (away) return box;
  const list = make('dl', '');
  let latest = '';
  function line(word, text) {
    const old = text.match(/^(.*)(, (?:out of date|not clear yet).*)$/);
    const content = old ? [...linked(old[1]), make('span', 'old', ...linked(old[2]))] : linked(text);
    list.append(make('dt', '', word === latest ? '' : word), make('dd', '', ...content));
    latest = word;
  }
  things.filter(thing => thing[1] === 0).forEach(thing => line('command', thing[4]));
  for (const sort of [1, 2, 4]) things.filter(thing => thing[1] === sort).forEach(thing => line(words[sort], thing[4]));
  if (waits) line('waits', waits);
  things.filter(thing => thing[1] === 3).forEach(thing => {
    line(words[3], thing[4]);
    if (thing[6].length) list.lastChild.append(valuesBox(thing[6]));
  });
  box.append(list);
  return box;
}

// The entries of a row, with their sentences; and what holds after them.
function show(at) {
  const [first, last] = data.rows[at];
  const entry = document.getElementById('entry'), state = document.getElementById('state');
  const shown = [];
  let looks = 0;
  for (let number = first; number <= last; number++) {
    const [, line, sentence, isPlainLook] = data.entries[number - data.first];
    if (isPlainLook && last > first) {
      looks += 1;
      continue;
    }
    const place = make('span', 'number', String(number));
    shown.push(make('div', '', place, make('code', '', line)), make('p', '', ...linked(sentence)));
  }
  if (looks) shown.push(make('p', 'few', looks === 1 ? 'Beside it 1 look: no message waits.' : `Beside it ${looks} looks: no message waits.`));
  entry.replaceChildren(...shown);
  const active = data.entries[last - data.first][0];
  const held = new Map(data.lives.map(([backend]) => [backend, []]));
  data.things.forEach((thing, index) => {
    if (thing[2] <= last && (thing[3] === null || last < thing[3])) held.get(thing[0]).push(index);
  });
  data.lives.forEach(life => update(life, held.get(life[0]), last, life[0] === active));
  document.body.dataset.entry = last;
  const box = boxes.get(active).element;
  const below = box.offsetTop + box.offsetHeight - state.scrollTop - state.clientHeight;
  if (below > 0 || box.offsetTop < state.scrollTop) state.scrollTop = Math.max(0, box.offsetTop - state.clientHeight / 3);
}

// A text as lines of so many characters at most, broken as the picture's own are (wrapped in layout.py).
function wrapped(text, chars) {
  const lines = [];
  while (text.length > chars) {
    const blank = text.lastIndexOf(' ', chars - 1) + 1, at = blank > Math.floor(chars / 3) ? blank : chars;
    lines.push(text.slice(0, at));
    text = text.slice(at);
  }
  return [...lines, text];
}

// Breaks the texts of several lines anew, so that they use the window's width. The heights of rows stay.
const texts = [...rowsBox.querySelectorAll('text[data-text]')].map(text => [text.dataset.text, [...text.children]]);
let chars = 0;
function fit() {
  const room = Math.floor((Math.max(picture.clientWidth, data.width) - data.text - 10) / data.char + 0.01);
  if (room === chars) return;
  chars = room;
  for (const [text, parts] of texts) {
    const lines = wrapped(text, chars), last = parts.length - 1;
    if (last + 1 < lines.length) lines[last] = lines[last].trimEnd().slice(0, -4) + ' ...';
    parts.forEach((part, at) => part.textContent = lines[at] || '');
  }
}

// Brings a row and the lane of its backend into view.
function reveal(at) {
  const [, last, y, height] = data.rows[at];
  const top = rowsBox.offsetTop + y, room = picture.clientHeight;
  if (top < picture.scrollTop + lanesHeight + 40 || top + height > picture.scrollTop + room - 40)
    picture.scrollTop = at === 0 ? 0 : top - room / 3;
  const [left, right] = data.lanes[data.entries[last - data.first][0]];
  if (left < picture.scrollLeft || right > picture.scrollLeft + picture.clientWidth)
    picture.scrollLeft = Math.max(0, left - 60);
}

let noted;
function note(number) {
  clearTimeout(noted);
  noted = setTimeout(() => history.replaceState(null, '', '#' + number), 400);
}

function select(at) {
  const to = Math.max(0, Math.min(data.rows.length - 1, at));
  if (to === here) return;
  here = to;
  const [, last, y, height] = data.rows[here], stripe = document.getElementById('here');
  stripe.style.transform = `translateY(${y}px)`;
  stripe.style.height = `${height}px`;
  reveal(here);
  show(here);
  note(last);
}

// The next row in a direction, of the same backend if wanted.
function neighbour(step, same) {
  const backend = at => data.entries[data.rows[at][1] - data.first][0];
  let at = here + step;
  while (same && at >= 0 && at < data.rows.length && backend(at) !== backend(here)) at += step;
  return at < 0 || at >= data.rows.length ? here : at;
}

const keys = {
  ArrowDown: 1, ArrowRight: 1, j: 1, J: 1, ArrowUp: -1, ArrowLeft: -1, k: -1, K: -1,
};
document.addEventListener('keydown', event => {
  if (event.ctrlKey || event.altKey || event.metaKey) return;
  if (event.key in keys) select(neighbour(keys[event.key], event.shiftKey));
  else if (event.key === 'PageDown') select(here + 10);
  else if (event.key === 'PageUp') select(here - 10);
  else if (event.key === 'Home') select(0);
  else if (event.key === 'End') select(data.rows.length - 1);
  else return;
  event.preventDefault();
});
rowsBox.addEventListener('click', event => {
  const part = event.target.closest('.row, g.entry');
  if (part) select(rowOf(Number(part.id.replace(/^(row|entry)/, ''))));
});
function fromAddress() {
  const number = Number(location.hash.slice(1));
  select(number ? rowOf(number) : Math.max(0, here));
}
window.addEventListener('hashchange', fromAddress);
window.addEventListener('resize', fit);
fit();
fromAddress();
