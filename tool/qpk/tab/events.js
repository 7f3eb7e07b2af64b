// What is shown of a recording as events, with their bytes. An event is an object as qpk show --json prints it: an
// instruction, a section, SETTINGS, or what ended them.
'use strict';

const ENTRY_OVERHEAD = 32; // bytes that an entry counts beside its name and value (RFC 9204, section 3.2.1)
const PLACES = ['encoder', 'decoder', 'section', 'record']; // where a finding may be

// The fields of all connections, each once: {shown, length, isInQif, bytes, codes}. The codes are of lines that have it, by their words.
class Fields {
  constructor() { this.known = new Map(); }

  of({name, value}) {
    const areTexts = typeof name === 'string' && typeof value === 'string';
    const key = areTexts ? `${name.length} ${name}${value}` : JSON.stringify([name, value]);
    return takeOrMake(this.known, key, () => {
      const [first, second] = [name, value].map(it => typeof it === 'string' ? encoder.encode(it) : fromHex(it.hex));
      const isInQif = ![...first, ...second].includes(10) && !first.includes(9) && first[0] !== 0x23;
      const shown = `${shownText(first, true)}: ${shownText(second)}`;
      return {shown, length: first.length + second.length, isInQif, bytes: [first, second], codes: new Map()};
    });
  }
}

// Returns bytes as text, as qpk show does: a backslash is doubled, and other signs are \x and two digits.
function shownText(bytes, isName = false) {
  let text = '';
  for (const byte of bytes) {
    if (byte === 0x5c) text += '\\\\';
    else if (byte < 0x20 || byte > 0x7e || isName && byte === 0x20) text += `\\x${HEX[byte]}`;
    else text += String.fromCharCode(byte);
  }
  return text;
}

// Returns how a line or an instruction has its field, or its name, as qpk show does.
function shownForm(form) {
  if (form.type === 'literal') {
    const text = form.never_indexed ? 'literal never indexed' : 'literal', names = form.name_from ?? form;
    return names.type === 'literal' ? text : `${text} with the name of ${shownForm(names)}`;
  }
  return `${form.type} ${form.index}${form.entry === undefined ? '' : ` (entry ${form.entry})`}`;
}

// Returns a line of a section: how it has its field, the entry that it references, its form, and the field.
function readLine(said, fields) {
  const {form, offset} = said, names = form.name_from ?? form;
  const source = names.entry === undefined ? names.type : 'dynamic';
  const how = names !== form && source !== 'literal' ? `${source}-name` : source;
  return {how, entry: names.entry, form, field: fields.of(said), offset};
}

class Event {
  constructor(number, said, fields) {
    Object.assign(this, {number, said, line: said.line, end: said.from ?? ''});
    // Which stream of instructions it is of, and the end whose encoder it is about.
    this.stream = 'encoder' in said ? 'encoder' : 'decoder' in said ? 'decoder' : null;
    this.of = this.stream === 'encoder' || 'section' in said ? this.end : OTHER[this.end];
    this.isList = 'lines' in said && !('refused' in said); // a section that was decoded whole
    this.data = EMPTY;
    this.arrival = null; // of a section that was blocked: when it came
    this.lines = (said.lines ?? []).map(it => readLine(it, fields));
    this.field = null; // that an instruction inserts
    this.evicted = 0; // how many entries of its encoder's table were, up to it
  }

  get seconds() {
    const seconds = Number(this.said.time ?? NaN);
    return Number.isNaN(seconds) ? null : seconds;
  }
}

// The bytes of a stream of instructions, of which each ends where the next begins.
class Instructions {
  constructor() { Object.assign(this, {parts: [], begin: 0, last: null, size: 0}); }

  add(data) {
    this.parts.push(data);
    this.size += data.length;
  }

  // Gives the last instruction its bytes, which end at an offset.
  end(offset) {
    const waiting = joined(this.parts);
    if (this.last) this.last.data = waiting.slice(0, offset - this.begin);
    this.parts = [waiting.subarray(offset - this.begin)];
    this.begin = offset;
  }
}

// A dynamic table by its sizes alone.
class Window {
  constructor() { Object.assign(this, {capacity: 0, size: 0, sizes: [], evicted: 0}); }

  // Applies an instruction, and returns the field that it inserts, if it does.
  apply(said, fields) {
    let added = null;
    if (said.instruction === 'set capacity') this.capacity = said.capacity;
    else if ('entry' in said) {
      added = fields.of(said);
      this.sizes.push(added.length + ENTRY_OVERHEAD);
      this.size += added.length + ENTRY_OVERHEAD;
    }
    while (this.size > this.capacity) this.size -= this.sizes[this.evicted++];
    return added;
  }
}

// What is shown of a recording, read once, with the bytes of the recording.
class Reading {
  constructor(shown, pieces, fields) {
    Object.assign(this, {shown, pieces, fields, piece: null, hasEnds: false});
    this.streams = {}; // by the end whose encoder each is about, and its name
    this.windows = {}; // by the end of the encoder
    this.blocked = new Map();
  }

  // Yields the events. An instruction has its bytes once the next one of its stream was yielded, or all.
  * events() {
    let number = 0;
    for (const said of this.shown) {
      const event = new Event(number++, said, this.fields);
      this.hasEnds ||= event.end !== '';
      this.readUpTo(event.line);
      if (event.stream) this.takeInstruction(event);
      else if ('given_up' in said) this.blocked.delete(`${event.of} ${said.given_up}`);
      else if ('section' in said) this.giveSection(event);
      yield event;
    }
    for (const piece of this.pieces) this.take(piece);
    for (const stream of Object.values(this.streams)) stream.end(stream.size);
  }

  takeInstruction(event) {
    const stream = this.stream(event.of, event.stream), {said} = event;
    stream.end(said[event.stream]);
    stream.last = event;
    if (event.stream !== 'encoder' || !('instruction' in said) || 'refused' in said) return;
    const window = this.windows[event.of] ??= new Window();
    event.field = window.apply(said, this.fields);
    event.evicted = window.evicted;
  }

  ends() { return this.hasEnds ? ['client', 'server'] : ['']; }

  stream(owner, name) { return this.streams[`${owner} ${name}`] ??= new Instructions(); }

  // Takes the pieces up to a line, and the next one if there is none in that line.
  readUpTo(line) {
    while (this.piece === null || this.piece.line < line) {
      const {value, done} = this.pieces.next();
      if (done) return;
      this.take(value);
    }
  }

  take(piece) {
    this.piece = piece;
    this.hasEnds ||= piece.end !== '';
    if (piece.kind === 'e') this.stream(piece.end, 'encoder').add(piece.data);
    else if (piece.kind === 'd') this.stream(OTHER[piece.end], 'decoder').add(piece.data);
  }

  // Gives a section its bytes, and when it came if it was blocked.
  giveSection(event) {
    const {said} = event, key = `${event.of} ${said.section}`;
    if (said.was_blocked) {
      event.arrival = this.blocked.get(key).shift();
      event.data = event.arrival.data;
    } else if (this.piece) event.data = this.piece.data;
    if ('blocked_until' in said && !('refused' in said)) takeOrMake(this.blocked, key, () => []).push(event);
  }
}

// Finds the event of a finding, of the events of its line.
class Finder {
  constructor(events) {
    this.near = new Map(); // the last event of a line, an end and a kind
    this.same = new Map(); // and of an offset, or a stream
    for (const event of events) {
      for (const place of PLACES) {
        if (!(place in event.said)) continue;
        this.near.set(`${event.line} ${event.end} ${place}`, event);
        this.same.set(`${event.line} ${event.end} ${place} ${event.said[place]}`, event);
      }
    }
  }

  find(finding) {
    const place = PLACES.find(it => it in finding), key = `${finding.line} ${finding.from ?? ''} ${place}`;
    return this.same.get(`${key} ${finding[place]}`) ?? this.near.get(key) ?? null;
  }
}
