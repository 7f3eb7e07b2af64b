// Reads recordings by JavaScript, where a browser can't run the proved program: by the reader of examples/http3-server,
// qpack.js. It finds what an end must refuse, and what waits to the end. Nothing proves it.
'use strict';

const MOST_INTEGER = 2 ** 62; // RFC 9204, section 4.1.1
const MOST_STRING = 1 << 16; // bytes of a name or a value that is read, and of an instruction
const CAPACITY = 4096, BLOCKED = 100; // where no line s has them
// How many words follow the kind of a line, at least.
const WORDS = {
  e: 1,
  d: 1,
  b: 2,
  c: 1,
  s: 2
};
const CODES_OF_ERRORS = {
  section: [0x200, 'QPACK_DECOMPRESSION_FAILED'],
  encoder: [0x201, 'QPACK_ENCODER_STREAM_ERROR'],
  decoder: [0x202, 'QPACK_DECODER_STREAM_ERROR']
};

// Returns a text whose characters are bytes as the program prints it.
function asSaid(text) {
  const bytes = Uint8Array.from(text, sign => sign.charCodeAt(0));
  try {
    return new TextDecoder('utf-8', {fatal: true, ignoreBOM: true}).decode(bytes);
  } catch {
    return {hex: toHex(bytes)};
  }
}

// An encoder's side of a connection: its table, the bytes of both streams of instructions that wait, and its sections.
class ScriptDirection {
  constructor() {
    Object.assign(this, {capacity: 0, size: 0, evicted: 0, entries: [], maximum: CAPACITY, isEnded: {}});
    // Sections, by the insertion that they wait for, and by streams.
    Object.assign(this, {blocked: new Map(), waiting: new Map()});
    Object.assign(
      this, {rest: {encoder: EMPTY, decoder: EMPTY}, begin: {encoder: 0, decoder: 0}, unacknowledged: new Map(), known: 0});
  }

  get inserted() { return this.entries.length; }

  // Returns an entry by its number, from 1.
  entry(number) {
    if (number > this.evicted && number <= this.inserted) return this.entries[number - 1];
    throw new Refusal(`it references an entry that is not in the table: ${number}`);
  }

  evictTo(size) {
    while (this.size > size) {
      const {name, value} = this.entries[this.evicted];
      this.entries[this.evicted++] = null;
      this.size -= name.length + value.length + ENTRY_OVERHEAD;
    }
  }

  insert(name, value) {
    const size = name.length + value.length + ENTRY_OVERHEAD;
    if (size > this.capacity) throw new Refusal(`an entry of ${size} bytes does not fit a table of ${this.capacity}`);
    this.evictTo(this.capacity - size);
    this.size += size;
    this.entries.push({name, value});
    return {entry: this.inserted, name: asSaid(name), value: asSaid(value)};
  }

  // Returns what an index of the encoder stream names: an entry, counted from the newest.
  newest(index) {
    const entry = this.inserted - index;
    return {form: {type: 'dynamic', index, entry}, ...this.entry(entry)};
  }

  // Reads an instruction of the encoder stream (RFC 9204, section 4.3).
  encoderInstruction(reader) {
    const first = reader.bytes[reader.at];
    if (first & 0x80) {
      const index = reader.integer(6), from = first & 0x40 ? staticName(index) : this.newest(index);
      return {instruction: 'insert', name_from: from.form, ...this.insert(from.name, reader.string(7))};
    }
    if (first & 0x40) {
      const name = reader.string(5);
      return {instruction: 'insert', name_from: {type: 'literal'}, ...this.insert(name, reader.string(7))};
    }
    if (first & 0x20) {
      const capacity = reader.integer(5);
      if (capacity > this.maximum) throw new Refusal(`a capacity of ${capacity} is above the maximum, ${this.maximum}`);
      this.capacity = capacity;
      this.evictTo(capacity);
      return {instruction: 'set capacity', capacity};
    }
    const index = reader.integer(5), {name, value, form} = this.newest(index);
    return {instruction: 'duplicate', of: {index, entry: form.entry}, ...this.insert(name, value)};
  }

  // Reads an instruction of the decoder stream (section 4.4).
  decoderInstruction(reader) {
    const first = reader.bytes[reader.at];
    if (first & 0x80) {
      const stream = reader.integer(7), waiting = this.unacknowledged.get(stream);
      if (!waiting?.length) throw new Refusal(`it acknowledges a section of stream ${stream}, which has none`);
      this.known = Math.max(this.known, waiting.shift());
      return {instruction: 'acknowledge', stream};
    }
    if (first & 0x40) {
      const stream = reader.integer(6);
      this.unacknowledged.delete(stream);
      return {instruction: 'cancel', stream};
    }
    const by = reader.integer(6);
    this.known += by;
    if (!by || this.known > this.inserted) {
      throw new Refusal(`an increment of ${by} after ${this.known - by} of ${this.inserted} insertions`);
    }
    return {instruction: 'increment', by};
  }

  // Reads the prefix of a section (section 4.5.1): how many insertions it requires, and its base.
  prefix(reader) {
    const encoded = reader.integer(8), most = Math.floor(this.maximum / 32), full = 2 * most;
    let required = 0;
    if (encoded) {
      if (encoded > full) throw new Refusal(`no encoder could have written a required insert count of ${encoded}`);
      required = Math.floor((this.inserted + most) / full) * full + encoded - 1;
      if (required > this.inserted + most) required -= full;
      if (required <= 0) throw new Refusal(`no encoder could have written a required insert count of ${encoded}`);
    }
    const isBelow = reader.bytes[reader.at] >> 7, delta = reader.integer(7);
    return {required, base: isBelow ? required - delta - 1 : required + delta};
  }

  // Reads a line of a section (section 4.5).
  line(reader, base) {
    const first = reader.bytes[reader.at];
    const entry = (type, index) => {
      const number = type === 'dynamic' ? base - index : base + index + 1;
      return {form: {type, index, entry: number}, ...this.entry(number)};
    };
    const whole = ({form, name, value}) => ({form, name, value});
    const literal = (isNever, names) => ({type: 'literal', never_indexed: isNever, ...names});
    const named = ({form, name}, isNever) => ({form: literal(isNever, {name_from: form}), name, value: reader.string(7)});
    if (first & 0x80) return whole(first & 0x40 ? staticField(reader.integer(6)) : entry('dynamic', reader.integer(6)));
    if (first & 0x40) {
      const index = reader.integer(4);
      return named(first & 0x10 ? staticName(index) : entry('dynamic', index), (first & 0x20) !== 0);
    }
    if (first & 0x20) return {form: literal((first & 0x10) !== 0), name: reader.string(3), value: reader.string(7)};
    if (first & 0x10) return whole(entry('post-base', reader.integer(4)));
    return named(entry('post-base', reader.integer(3)), (first & 0x08) !== 0);
  }
}

function staticField(index) {
  if (index >= STATIC_TABLE.length) throw new Refusal(`static ${index} is past the static table`);
  const [name, value] = STATIC_TABLE[index];
  return {form: {type: 'static', index}, name, value};
}

const staticName = staticField;

// The strict reader of bytes: as that of qpack.js, and it refuses integers that are too large.
class StrictReader extends Reader {
  integer(bits) {
    const value = super.integer(bits);
    if (value >= MOST_INTEGER) throw new Refusal('an integer is longer than 62 bits');
    return value;
  }

  string(bits) {
    const begin = this.at, length = this.integer(bits);
    if (length > MOST_STRING) throw new Refusal(`a string of ${length} bytes is longer than ${MOST_STRING}`);
    this.at = begin;
    return super.string(bits);
  }
}

class ScriptReader {
  show(text) { return new ScriptRun(text).said; }

  check(text) { return new ScriptRun(text).findings; }
}

// One reading of a recording, line by line.
class ScriptRun {
  constructor(text) {
    Object.assign(this, {said: [], findings: [], directions: {}});
    const lines = text.split('\n');
    for (const [at, line] of lines.entries()) {
      const words = line.trim().split(/\s+/);
      if (words[0] && !words[0].startsWith('#')) this.read(at + 1, words);
    }
    this.finish(lines.length);
  }

  direction(end) { return this.directions[end] ??= new ScriptDirection(); }

  read(number, words) {
    const head = {line: number};
    if (words[0].startsWith('@')) head.time = words.shift().slice(1);
    if (words[0] && ENDS[words[0][0]]) {
      head.from = ENDS[words[0][0]];
      words[0] = words[0].slice(1);
      if (!words[0]) words.shift();
    }
    const [kind, ...rest] = words, end = head.from ?? '';
    if (!Object.hasOwn(WORDS, kind) || rest.length < WORDS[kind]) {
      throw new Refusal(`line ${number}: it is not one of e, d, b, c and s with its words`);
    }
    if (kind === 's') this.settings(head, this.direction(OTHER[end]), rest.map(Number));
    else if (kind === 'c') this.giveUp(head, this.direction(OTHER[end]), Number(rest[0]));
    else {
      const stream = kind === 'b' ? Number(rest.shift()) : null, digits = rest.join('').replace(/0x|:/gi, '');
      if (!isHex(digits)) throw new Refusal(`line ${number}: its bytes are not hexadecimal`);
      if (kind === 'b') this.section(head, this.direction(end), stream, fromHex(digits));
      else this.instructions(head, kind === 'e' ? end : OTHER[end], kind === 'e' ? 'encoder' : 'decoder', fromHex(digits));
    }
  }

  settings(head, direction, [capacity, blocked]) {
    direction.maximum = capacity;
    this.said.push({...head, max_capacity: capacity, max_blocked: blocked});
  }

  giveUp(head, direction, stream) {
    for (const it of direction.waiting.get(stream) ?? []) it.isGivenUp = true;
    direction.waiting.delete(stream);
    this.said.push({...head, given_up: stream});
  }

  // Reads the instructions that are whole, and what waited for them.
  instructions(head, owner, name, data) {
    const direction = this.direction(owner), reader = new StrictReader(joined([direction.rest[name], data]));
    let taken = 0;
    while (!reader.isAtEnd && !direction.isEnded[name]) {
      const event = {...head, [name]: direction.begin[name] + taken};
      try {
        Object.assign(event, name === 'encoder' ? direction.encoderInstruction(reader) : direction.decoderInstruction(reader));
        taken = reader.at;
      } catch (error) {
        if (error === CUT) break;
        this.refuse(error, event, name);
        direction.isEnded[name] = true;
      }
      this.said.push(event);
      if (name === 'encoder') this.unblock(head, direction);
    }
    direction.begin[name] += taken;
    direction.rest[name] = direction.isEnded[name] ? EMPTY : reader.bytes.slice(taken);
    if (direction.rest[name].length <= 2 * MOST_STRING) return;
    const event = {...head, [name]: direction.begin[name]};
    this.refuse(new Refusal(`an instruction is longer than ${2 * MOST_STRING} bytes`), event, name);
    this.said.push(event);
    direction.isEnded[name] = true;
    direction.rest[name] = EMPTY;
  }

  section(head, direction, stream, data) {
    const reader = new StrictReader(data);
    try {
      const {required} = direction.prefix(reader);
      if (required > direction.inserted) {
        const waiting = {stream, data, required};
        takeOrMake(direction.blocked, required, () => []).push(waiting);
        takeOrMake(direction.waiting, stream, () => []).push(waiting);
        this.said.push({...head, section: stream, blocked_until: required});
        return;
      }
    } catch {
      // decode says why.
    }
    this.decode(head, direction, stream, data, false);
  }

  unblock(head, direction) {
    const ready = direction.blocked.get(direction.inserted) ?? [];
    direction.blocked.delete(direction.inserted);
    for (const {stream, data, isGivenUp} of ready) {
      if (isGivenUp) continue;
      direction.waiting.get(stream).shift();
      this.decode(head, direction, stream, data, true);
    }
  }

  decode(head, direction, stream, data, wasBlocked) {
    const reader = new StrictReader(data), event = {...head, section: stream, was_blocked: wasBlocked};
    let begin = 0;
    try {
      const {required, base} = direction.prefix(reader), lines = [];
      Object.assign(event, {required_insert_count: required, base, lines});
      for (begin = reader.at; !reader.isAtEnd; begin = reader.at) {
        const {form, name, value} = direction.line(reader, base);
        lines.push({offset: begin, form, name: asSaid(name), value: asSaid(value)});
      }
      if (required) takeOrMake(direction.unacknowledged, stream, () => []).push(required);
    } catch (error) {
      this.refuse(error, event, 'section', begin);
    }
    this.said.push(event);
  }

  // Notes why an event is refused, as a finding too.
  refuse(error, event, place, offset) {
    if (!(error instanceof Refusal) && error !== CUT) throw error;
    const {line, time, from} = event, [code, name] = CODES_OF_ERRORS[place], where = offset === undefined ? {} : {offset};
    Object.assign(event, {refused: error.message}, where);
    this.findings.push({
      line,
      ...(time === undefined ? {} : {time}),
      ...(from === undefined ? {} : {from}),
      [place]: event[place],
      ...where,
      fault: error.message,
      rfc9204: '2.2.3',
      code,
      code_name: name,
      cause: 'the proved program says more: qpk check'
    });
  }

  // Says what waits to the end.
  finish(line) {
    for (const [end, direction] of Object.entries(this.directions)) {
      const from = end ? {from: end} : {};
      for (const {stream, required, isGivenUp} of Array.from(direction.blocked.values()).flat()) {
        if (isGivenUp) continue;
        const fault = `blocked until insertion ${required} to the end`;
        this.findings.push({
          line,
          ...from,
          section: stream,
          offset: 0,
          fault,
          rfc9204: '2.1.2',
          cause: 'the recording ends early, or the encoder never sent that insertion'
        });
      }
      for (const [name, rest] of Object.entries(direction.rest)) {
        if (!rest.length) continue;
        const sender = name === 'encoder' ? from : OTHER[end] ? {from: OTHER[end]} : {};
        this.said.push({line, ...sender, [name]: direction.begin[name], cut: rest.length});
        this.findings.push({
          line,
          ...sender,
          [name]: direction.begin[name],
          fault: 'cut at the end of the recording',
          rfc9204: '4.2',
          cause: 'the recording ends early, or a length in the instruction is wrong'
        });
      }
    }
  }
}
