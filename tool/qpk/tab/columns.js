// The events of a connection as the page has them: a row each, and each text once. tool/qpk/report/columns.py says what a
// row has.
'use strict';

// The page has the first events that are not more than these, and says so.
const MOST_ROWS = 4_000_000; // events and lines
const MOST_BYTES = 64 << 20; // of events, and of fields, each once
const ANSWERS_OF = {
  acknowledge: 'a',
  cancel: 'x',
  increment: 'n'
};

// The fields and the shapes of lines of all connections, each once.
class Texts {
  constructor() { Object.assign(this, {fields: new Map(), firsts: [], roomOfRows: MOST_ROWS, roomOfBytes: MOST_BYTES}); }

  field(it) {
    return takeOrMake(this.fields, it, () => {
      this.roomOfBytes -= it.length;
      return this.fields.size;
    });
  }

  // Returns the code of a line that is not of the dynamic table.
  code(it) {
    const words = shownForm(it.form);
    const number = takeOrMake(it.field.codes, words, () => {
      this.firsts.push({...it, words});
      this.field(it.field);
      return this.firsts.length - 1;
    });
    return 2 * number + 1;
  }

  data() {
    return {
      fields: Array.from(this.fields.keys(), it => it.shown),
      shapes: {
        hows: this.firsts.map(it => it.how),
        forms: this.firsts.map(it => it.words),
        entries: this.firsts.map(it => it.entry ?? 0),
        fields: this.firsts.map(it => this.fields.get(it.field)),
      },
    };
  }
}

// Makes the rows of a connection, event by event, and keeps no event but those in lines with a finding.
class Columns {
  constructor(texts, wanted, packets) {
    Object.assign(this, {texts, wanted, packets, rows: [], numberOfEvents: 0, events: [], waiting: new Map()});
    Object.assign(this, {lines: [], ends: '', times: [], packetsOf: [], sizes: [], refused: {}, rest: {}, last: 0});
  }

  // Makes the row of an event, if there is room.
  take(event) {
    const {texts} = this;
    this.numberOfEvents++;
    texts.roomOfRows -= 1 + event.lines.length;
    texts.roomOfBytes -= event.data.length;
    if (this.numberOfEvents > this.rows.length + 1 || Math.min(texts.roomOfRows, texts.roomOfBytes) < 0) return;
    this.beginRecord(event);
    if (this.wanted.has(event.line)) this.events.push(event);
    if ('refused' in event.said) this.refused[event.number] = event.said.refused;
    if (event.stream) this.takeInstruction(event);
    else if ('section' in event.said) this.rows.push(this.rowOfSection(event));
    else this.rows.push(['t', '', ...restOfTitle(event)]);
  }

  // Counts an event in its line of the recording.
  beginRecord(event) {
    if (!this.lines.length || this.last !== event.line) {
      this.lines.push(event.line - this.last);
      this.ends += {client: '>', server: '<', '': ' '}[event.end];
      this.times.push(event.said.time ?? null);
      this.packetsOf.push(this.packets[event.line - 1] ?? null);
      this.sizes.push(0);
      this.last = event.line;
    }
    this.sizes[this.sizes.length - 1]++;
  }

  // Makes the row of an instruction. Its bytes are known where the next one of its stream begins, or at the end.
  takeInstruction(event) {
    const key = `${event.of} ${event.stream}`, {said} = event;
    this.complete(key);
    let kind, rest;
    if (!('instruction' in said) || 'refused' in said) [kind, rest] = ['t', restOfTitle(event)];
    else if (event.stream === 'decoder') [kind, rest] = [ANSWERS_OF[said.instruction], [said.decoder, said.stream ?? said.by]];
    else [kind, rest] = this.restOfInstruction(event);
    this.waiting.set(key, event);
    event.row = [kind, '', ...rest];
    this.rows.push(event.row);
  }

  // Returns the kind of an instruction of the encoder stream, and what follows its bytes.
  restOfInstruction({said, field, evicted}) {
    if (!field) return ['c', [said.encoder, said.capacity, evicted]];
    const size = field.length + ENTRY_OVERHEAD, number = this.texts.field(field);
    const [kind, source] = 'of' in said ? ['d', said.of.index] : ['i', sourceOf(said.name_from)];
    return [kind, [said.encoder, source, number, size, evicted]];
  }

  // Completes the row of the last instruction of a stream, whose bytes are known now.
  complete(key) {
    const event = this.waiting.get(key);
    if (!event) return;
    this.waiting.delete(key);
    event.row[1] = toHex(event.data);
    this.texts.roomOfBytes -= event.data.length;
  }

  rowOfSection(event) {
    const {said, lines} = event, base = said.base ?? 0;
    let {data} = event;
    if ('blocked_until' in said) return ['b', toHex(data), said.section, said.blocked_until];
    const codes = lines.map(it => it.how === 'dynamic' ? 2 * (base - it.entry) : this.texts.code(it));
    if ('refused' in said && lines.length) {
      this.rest[event.number] = toHex(data.subarray(said.offset));
      data = data.subarray(0, said.offset);
    }
    const row = ['s', grouped(data, lines), said.section, said.required_insert_count ?? -1, base, codes];
    return event.arrival ? [...row, event.arrival.number] : row;
  }

  // Returns all, once all events were taken.
  finish() {
    for (const key of Array.from(this.waiting.keys())) this.complete(key);
    const known = column => column.some(it => it !== null) ? column : null;
    const records =
      {lines: this.lines, sizes: this.sizes, ends: this.ends, times: known(this.times), packets: known(this.packetsOf)};
    return {records, refused: this.refused, rest: this.rest, events: this.rows};
  }
}

// Returns where an insertion has its name, as a number.
function sourceOf({type, index}) {
  if (type === 'literal') return -1;
  return type === 'static' ? index : -2 - index;
}

// Returns the title of an event, whose encoder it is about, and its stream.
function restOfTitle(event) { return [titleOfEvent(event), Number(event.of === 'server'), event.said.given_up ?? -1]; }

// Returns what an event is, without its fields.
function titleOfEvent({said, stream}) {
  if (stream) return `${stream} ${said[stream]}: ${titleOfInstruction(said)}`;
  if ('section' in said) return `section ${said.section}: ${titleOfSection(said)}`;
  if ('max_capacity' in said) return `settings: maximum capacity ${said.max_capacity}, blocked streams ${said.max_blocked}`;
  if ('given_up' in said) return `stream ${said.given_up}: given up`;
  if ('left_out' in said) return 'half a byte at the end of the recording is left out';
  return `record ${said.record ?? ''}: cut at the end of the recording`;
}

function titleOfInstruction(said) {
  const kind = said.instruction;
  if (kind === undefined) return 'cut' in said ? `cut, bytes that wait: ${said.cut}` : 'refused';
  if (kind === 'set capacity') return `set capacity ${said.capacity}`;
  const inserted = 'entry' in said ? ` as entry ${said.entry}` : '';
  if (kind === 'insert') {
    const name = said.name_from.type === 'literal' ? '' : ` with the name of ${shownForm(said.name_from)}`;
    return `insert${name}${inserted}`;
  }
  if (kind === 'duplicate') {
    const entry = 'entry' in said.of ? ` (entry ${said.of.entry})` : '';
    return `duplicate ${said.of.index}${entry}${inserted}`;
  }
  return kind === 'increment' ? `increment ${said.by}` : `${kind} stream ${said.stream}`;
}

function titleOfSection(said) {
  if ('blocked_until' in said) return `blocked until insertion ${said.blocked_until}`;
  if (!('required_insert_count' in said)) return 'refused';
  return `${said.was_blocked ? 'unblocked, ' : ''}required insert count ${said.required_insert_count}, base ${said.base}`;
}

// Returns the bytes of a section up to the end of its lines, in groups: its prefix, and each line.
function grouped(data, lines) {
  const digits = toHex(data);
  if (!lines.length) return `(${digits})`;
  let text = `(${digits.slice(0, 2 * lines[0].offset)})`;
  for (const [place, {offset}] of lines.entries()) {
    const end = lines[place + 1]?.offset ?? data.length, part = digits.slice(2 * offset, 2 * end);
    text += end === offset + 1 ? part : `(${part})`;
  }
  return text;
}
