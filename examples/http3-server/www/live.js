// Asks the server each second what QPACK did on this connection, and shows both tables and the last sections.
'use strict';

const SHOWN_SECTIONS = 12;
const POLLED = '/live/events'; // what this page asks for by itself
const own = new Set(); // the streams on which it did

// Whether a field is one that only what this page asks for by itself has.
function isOwnField([name, value]) { return name === 'x-next' || name === ':path' && value.startsWith(POLLED); }

// One direction: what its sections took, and a reader of them with a table of its own. The table that is shown is the
// library's.
class Direction {
  constructor(maximum) {
    this.reader = new Table(maximum);
    this.sections = [];
    this.waiting = []; // sections that came before the instructions that they require
    this.count = this.sectionBytes = this.textBytes = this.wrong = 0;
    this.kinds = {};
    this.answers = {acknowledgments: 0, cancellations: 0, increments: 0};
  }

  receive(bytes) {
    this.reader.receive(bytes);
    const ready = this.waiting.filter(event => event.required <= this.reader.insertCount);
    this.waiting = this.waiting.filter(event => event.required > this.reader.insertCount);
    ready.forEach(event => this.addSection(event));
  }

  section(event) {
    if (event.required > this.reader.insertCount) this.waiting.push(event);
    else this.addSection(event);
  }

  addSection({id, hex, fields}) {
    const bytes = bytesOf(hex), lines = this.reader.lines(bytes);
    const isWrong =
      lines.length !== fields.length || lines.some(({name, value}, i) => name !== fields[i][0] || value !== fields[i][1]);
    this.wrong += isWrong;
    if (fields.some(isOwnField)) own.add(id);
    if (own.has(id)) return;
    const textBytes = fields.reduce((sum, [name, value]) => sum + name.length + value.length + 4, 0);
    for (const {how} of lines) this.kinds[how] = (this.kinds[how] || 0) + 1;
    this.sections.unshift({id, bytes: bytes.length, textBytes, lines, isWrong});
    this.sections.length = Math.min(this.sections.length, SHOWN_SECTIONS);
    this.count++;
    this.sectionBytes += bytes.length;
    this.textBytes += textBytes;
  }

  // The decoder stream of this direction (RFC 9204, section 4.4). Its pieces here are whole instructions.
  answer(bytes) {
    const reader = new Reader(bytes);
    while (!reader.isAtEnd) {
      const first = bytes[reader.at];
      if (first & 0x80) reader.integer(7), this.answers.acknowledgments++;
      else if (first & 0x40) reader.integer(6), this.answers.cancellations++;
      else this.answers.increments += reader.integer(6);
    }
  }
}

let received = null, sent = null, tables = null, from = 0, isPaused = false, settings = {};

function take(event) {
  switch (event.event) {
    case 'begin':
      settings.ours = event;
      received = new Direction(event.capacity);
      break;
    case 'settings':
      settings.theirs = event;
      sent = new Direction(event.capacity);
      break;
    case 'received':
      if (event.type === 2) received.receive(bytesOf(event.hex));
      else sent.answer(bytesOf(event.hex));
      break;
    case 'sent':
      if (event.type === 2) sent.receive(bytesOf(event.hex));
      else received.answer(bytesOf(event.hex));
      break;
    case 'section received': received.section(event); break;
    case 'section sent': sent.section(event); break;
    case 'tables': tables = event; break;
  }
}

function row(tag, cells) {
  const made = element('tr');
  cells.forEach((cell, i) => {
    const part = element(tag, i < 2 ? 'number' : '', String(cell));
    if (tag === 'th') part.scope = 'col';
    made.append(part);
  });
  return made;
}

// The newest entries of the library's table, and how often the reader saw each used.
function showTable({insertions, entries}, reader) {
  const shown = element('table');
  shown.append(row('th', ['index', 'used', 'name', 'value']));
  entries.forEach(([name, value], i) => {
    const index = insertions - 1 - i;
    if (!isOwnField([name, value])) shown.append(row('td', [index, reader.uses(index), name, value]));
  });
  return shown;
}

// What the library tells of its table: of the encoder's, how much of it the peer has.
function describe({insertions, blocked, known, unacknowledged}) {
  if (known === undefined) return `${insertions} insertions received, ${blocked} streams blocked`;
  return `${insertions} insertions, of which the peer has ${known}; ${unacknowledged} sections unacknowledged, ` +
    `${blocked} streams may be blocked`;
}

function showSection({id, bytes, textBytes, lines, isWrong}) {
  const title = `stream ${id}: ${bytes} bytes for ${textBytes}${isWrong ? ', WRONG' : ''} `;
  const shown = element('div', isWrong ? 'wrong' : '', title);
  for (const {how, name, value} of lines) {
    const field = element('span', 'field ' + how, `${name}: ${value}`);
    field.title = field.textContent;
    shown.append(field);
  }
  return shown;
}

function show(id, title, direction, table) {
  if (!direction) return;
  const {reader, answers} = direction, {name, literal, duplicate} = reader.insertions;
  const isOther = reader.insertCount === table.insertions && !reader.hasNewest(table.entries);
  const share = direction.textBytes ? (100 * direction.sectionBytes / direction.textBytes).toFixed(1) : '0';
  const bar = element('div', 'bar'), full = element('i');
  full.style.width = (table.capacity ? 100 * table.size / table.capacity : 0) + '%';
  bar.append(full);
  document.getElementById(id).replaceChildren(
    element('h2', '', title),
    element(
      'div', '',
      `${direction.count} sections, ${direction.sectionBytes} bytes for ${direction.textBytes} ` +
        `of text (${share} %), and ${reader.streamBytes} on the encoder stream`),
    element('div', '', describe(table)),
    element('div', '', `insertions: ${name} with a name of a table, ${literal} spelled out, ${duplicate} duplicates`),
    element(
      'div', '',
      `${answers.acknowledgments} acknowledgments, ${answers.increments} insertions reported, ` +
        `${answers.cancellations} cancellations`),
    element('div', '', 'lines: ' + Object.entries(direction.kinds).map(([how, count]) => `${count} ${how}`).join(', ')),
    element(
      'div', direction.wrong || isOther ? 'wrong' : '',
      `${direction.wrong} sections read otherwise by this page` + (isOther ? ', and entries of the table' : '')),
    element('div', '', `table: ${table.size} of ${table.capacity} bytes, at most ${reader.maximum}`), bar,
    showTable(table, reader), element('h2', '', 'The last sections'),
    element('div', 'sections', ...direction.sections.map(showSection)));
}

async function update() {
  try {
    if (!isPaused) {
      const response = await fetch('/live/events?from=' + from);
      const lines = (await response.text()).split('\n').filter(line => line);
      from = Number(response.headers.get('x-next'));
      lines.forEach(line => take(JSON.parse(line)));
      const {ours, theirs} = settings;
      document.getElementById('settings').textContent = `settings: server capacity ${ours.capacity}, ` +
        `blocked ${ours.blocked}; browser capacity ${theirs.capacity}, blocked ${theirs.blocked}`;
      show('received', 'Browser to server: the library decodes', received, tables.received);
      show('sent', 'Server to browser: the library encodes', sent, tables.sent);
    }
    document.getElementById('error').textContent =
      tables && tables.full ? 'The server keeps no more events of this connection. Restart the browser to begin another.' : '';
  } catch (error) {
    document.getElementById('error').textContent = String(error);
  }
  setTimeout(update, 1000);
}

function request(turn) {
  const body = 'x-same\tthe same in every answer\nx-turn\t' + turn + '\n';
  const headers = {'x-page': 'the same in every request', 'x-turn': String(turn)};
  return fetch('/echo', {method: 'POST', body, headers});
}

for (const button of document.querySelectorAll('[data-requests]'))
  button.onclick = () => Array.from({length: Number(button.dataset.requests)}, (_, turn) => request(turn));
document.getElementById('cookie').onclick = () => {
  const value = 'abcdefgh'.repeat(1 + Math.floor(Math.random() * 20));
  document.cookie = `page=${value}; path=/`;
};
document.getElementById('pause').onclick = ({target}) => {
  isPaused = !isPaused;
  target.setAttribute('aria-pressed', isPaused);
};
if (location.hash === '#demo') setTimeout(() => document.querySelector('[data-requests="20"]').click(), 1000);
update();
