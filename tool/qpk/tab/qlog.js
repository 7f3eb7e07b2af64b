// Traces in qlog, and the log of examples/http3-server: QPACK's bytes in them, as lines of a recording. tool/qpk/qlog.py names the
// events that are read, and has the same rules. Bytes that are cut are left out, and so is what has none.
'use strict';

const SEPARATOR = '\x1e';
// Older names of categories and events.
const CATEGORIES = new Map([['h3', 'http3'], ['http', 'http3'], ['transport', 'quic']]);
const EVENTS = new Map([
  ['instruction_sent', 'instruction_created'],
  ['instruction_received', 'instruction_parsed'],
  ['data_moved', 'stream_data_moved'],
]);
const GROUPS = ['group_id', 'odcid', 'ODCID']; // which connection an event is of
// What this end did, of the events in pairs. In the others the peer did it.
const OWN = ['instruction_created', 'headers_encoded', 'frame_created'];
const OF_DECODER = ['section_ack', 'header_ack', 'stream_cancellation', 'insert_count_increment'];
const OF_ENCODER = ['set_dynamic_table_capacity', 'insert_with', 'duplicate'];
const FRAMES = new Map([['headers', HEADERS], ['push_promise', PUSH_PROMISE], ['settings', SETTINGS]]);
const SECTIONS = ['frame', 'section', 'stream']; // where a section may come from, the best first
// Names of the two settings, the last by its number.
const CAPACITY_NAMES = ['settings_qpack_max_table_capacity', 'max_table_capacity', '1'];
const BLOCKED_NAMES = ['settings_qpack_blocked_streams', 'blocked_streams_count', '7'];
const NO_BYTES = 'the trace has no bytes of QPACK: have the program that wrote it log raw bytes';

function isTrace(bytes) { return /^\s*[{\x1e]/.test(decoder.decode(bytes.subarray(0, HEAD))); }

// Returns a value as a whole number, or fails.
function wholeNumberOf(it) {
  const number = Math.trunc(Number(it ?? NaN));
  if (!Number.isFinite(number) || number < 0) throw new TypeError(`${it} is not a whole number`);
  return number;
}

function isObject(it) { return typeof it === 'object' && it !== null && !Array.isArray(it); }

// Returns the objects of a file: one, or one a record. A last record that is cut is left out.
function readRecords(text) {
  try {
    return [JSON.parse(text)];
  } catch {
    // Then there is one a record.
  }
  const separator = text.trimStart().startsWith(SEPARATOR) ? SEPARATOR : '\n', records = [];
  const texts = text.split(separator).filter(it => it.trim());
  for (const [at, it] of texts.entries()) {
    try {
      records.push(JSON.parse(it));
    } catch (error) {
      if (at === 0 || at < texts.length - 1) throw new Refusal(`record ${at + 1} of the trace is no JSON: ${error.message}`);
    }
  }
  return records;
}

// Returns the traces of the records of a file, each with its events.
function readTraces([first, ...events]) {
  if (!isObject(first) || !events.every(isObject)) throw new Refusal('a record of the trace is no object');
  if (first.traces) return first.traces.filter(it => 'events' in it);
  const trace = first.trace ?? {};
  return 'events' in trace ? [trace] : [{...trace, title: first.title ?? trace.title, events}];
}

// The times of a trace: since its reference, or if they are absolute, since its first event.
class Clock {
  constructor(trace) {
    Object.assign(this, {common: trace.common_fields ?? {}, before: 0, first: null});
    this.unit = trace.configuration?.time_units === 'us' ? 1e-6 : 1e-3;
  }

  // Returns when an event was, in seconds.
  read(it) {
    let time = Number(it.time ?? it.relative_time ?? it.delta_time ?? 0);
    const form = String(it.time_format ?? this.common.time_format ?? '');
    if (form === 'delta' || form === 'relative_to_previous_event' || 'delta_time' in it) time += this.before;
    this.first ??= ['', 'absolute', 'relative_to_epoch'].includes(form) && 'time' in it ? time : 0;
    this.before = time;
    return (time - this.first) * this.unit;
  }
}

// Returns the name of an event, with its category, as the newest draft has it.
function nameOfEvent(it) {
  const parts = String(it.name ?? '').toLowerCase().split(':');
  const kind = parts.pop() || String(it.event ?? it.event_type ?? it.type ?? '').toLowerCase();
  const category = parts.join(':') || String(it.category ?? '').toLowerCase();
  return [CATEGORIES.get(category) ?? category, EVENTS.get(kind) ?? kind];
}

// Yields the events of a trace: {time, group, category, kind, data}.
function* eventsOf(trace) {
  const clock = new Clock(trace), names = (trace.event_fields ?? []).map(it => it.toLowerCase());
  for (const record of trace.events) {
    const it = Array.isArray(record) ? Object.fromEntries(names.map((name, at) => [name, record[at]])) : record;
    const group = [it, clock.common].flatMap(place => GROUPS.map(key => place[key])).find(found => found !== undefined) ?? '';
    const [category, kind] = nameOfEvent(it);
    yield {time: clock.read(it), group: String(group), category, kind, data: it.data ?? {}};
  }
}

// Returns the bytes of the first of some values that has them whole: hexadecimal, or an object whose data is.
function wholeBytes(...places) {
  for (const it of places) {
    const size = isObject(it) ? it.length ?? it.payload_length : undefined, digits = isObject(it) ? it.data : it;
    if (typeof digits !== 'string') continue;
    const found = digits.replace(/^0[xX]/, '');
    if (!isHex(found)) throw new TypeError('bytes are not hexadecimal');
    if (size === undefined || size === null || found.length / 2 >= wholeNumberOf(size)) return fromHex(found);
  }
  return null;
}

// Returns the payload of a frame of a type, whose bytes may be the whole frame or the payload alone.
function payloadOf(kind, data) {
  try {
    const [found, after] = readInteger(data, 0), [size, at] = readInteger(data, after);
    const payload = found === kind && size === data.length - at ? data.subarray(at) : data;
    return kind === PUSH_PROMISE ? payload.subarray(readInteger(payload, 0)[1]) : payload;
  } catch (error) {
    if (error !== NOT_WHOLE) throw error;
    return data;
  }
}

// Returns the two limits among settings by their names, or none if neither is there.
function limitsOf(values) {
  const found = [CAPACITY_NAMES, BLOCKED_NAMES].map(names => names.map(it => values[it]).find(it => it !== undefined));
  return found.every(it => it === undefined) ? null : found.map(it => wholeNumberOf(it ?? 0));
}

// Reads the events of one connection from the side of one end.
class TraceReader {
  constructor(own) {
    Object.assign(
      this, {own, peer: PEER[own], streams: new Streams(), found: [], limited: new Set(), withoutBytes: 0, cut: new Set()});
    this.hasLists = false; // of sections that have no bytes
  }

  // Reads an event, if it is one of those with bytes or limits.
  read(event) {
    const {category, kind, data} = event, mark = OWN.includes(kind) ? this.own : this.peer, name = `${category}:${kind}`;
    if (name === 'qpack:instruction_created' || name === 'qpack:instruction_parsed') this.readInstruction(event, mark);
    else if (name === 'qpack:headers_encoded' || name === 'qpack:headers_decoded') {
      this.addSection(event, mark, 'section', wholeBytes(data.raw));
    } else if (name === 'http3:frame_created' || name === 'http3:frame_parsed') this.readFrame(event, mark);
    else if (name === 'http3:parameters_set') {
      this.addLimits(event, (data.initiator ?? data.owner) === 'remote' ? this.peer : this.own, limitsOf(data));
    } else if (kind === 'stream_data_moved' && (category === 'quic' || category === 'http3')) this.readStream(event);
  }

  // Adds a line with bytes, or counts an event that has none.
  add({time}, mark, source, words, data) {
    if (data) this.found.push({time, mark, words: `${words} ${toHex(data)}`, source});
    else this.withoutBytes++;
  }

  // Adds a line of a section, or counts an event without its bytes or its stream.
  addSection(event, mark, source, data) {
    const {stream_id: stream} = event.data, isKnown = stream !== undefined && stream !== null;
    this.add(event, mark, source, `b ${wholeNumberOf(stream ?? 0)}`, isKnown ? data : null);
    this.hasLists ||=
      isKnown && !data && ['headers', 'header_fields', 'fields'].some(it => event.data[it] || event.data.frame?.[it]);
  }

  // Adds a line of SETTINGS. An end sends them once.
  addLimits({time}, mark, limits) {
    if (!limits || this.limited.has(mark)) return;
    this.limited.add(mark);
    this.found.push({time, mark, words: `s ${limits.join(' ')}`, source: 'settings'});
  }

  // Reads an instruction, whose type says on which stream it is. After bytes that are missing nothing means what it would.
  readInstruction(event, mark) {
    const it = event.data.instruction ?? {}, raw = wholeBytes(event.data.raw, it.raw);
    const kind = String(it.instruction_type ?? '').toLowerCase();
    const isOf = names => names.some(name => kind.startsWith(name));
    const name = isOf(OF_ENCODER) ? 'e' : isOf(OF_DECODER) ? 'd' : null;
    if (!name) return;
    if (!raw) this.cut.add(mark + name);
    this.add(event, mark, 'instruction', name, this.cut.has(mark + name) ? null : raw);
  }

  // Reads a frame that has a section, or SETTINGS.
  readFrame(event, mark) {
    const frame = event.data.frame ?? {}, kind = FRAMES.get(String(frame.frame_type ?? '').toLowerCase());
    if (kind === SETTINGS) {
      const values =
        Object.fromEntries((frame.settings ?? []).map(it => [String(it.name ?? it.name_bytes).toLowerCase(), it.value]));
      this.addLimits(event, mark, limitsOf(values) ?? [0, 0]);
    } else if (kind !== undefined) {
      const raw = wholeBytes(frame.raw, event.data.raw);
      this.addSection(event, mark, 'frame', raw && payloadOf(kind, raw));
    }
  }

  // Reads bytes of a stream, which may have been moved more than once, and then have their offset.
  readStream(event) {
    const {from, to, raw, data, stream_id: stream, offset: given} = event.data;
    const isUser = it => it === 'application' || it === 'user', mark = from === 'network' || isUser(to) ? this.peer : this.own;
    const bytes = wholeBytes(raw, data), number = wholeNumberOf(stream ?? 0);
    const offset = given ?? (isUser(from) || isUser(to) ? this.streams.streams.get(mark + number)?.taken ?? 0 : null);
    if (!bytes || stream === undefined || stream === null || offset === null) {
      this.withoutBytes++;
      return;
    }
    for (const words of this.streams.take(mark, number, wholeNumberOf(offset), bytes)) {
      if (words.startsWith('s ')) this.addLimits(event, mark, words.split(' ').slice(1).map(Number));
      else this.found.push({time: event.time, mark, words, source: 'stream'});
    }
  }

  // Returns the lines, each once, though events of several kinds have its bytes.
  lines() {
    const leftOut = new Set([...this.sectionsTwice(), ...this.instructionsTwice()]);
    return this.found.filter(it => !leftOut.has(it)).map(({time, mark, words}) => `@${time.toFixed(6)} ${mark} ${words}`);
  }

  // Returns sections that a better source has too.
  sectionsTwice() {
    const twice = [], before = new Map(); // how often the better sources have each section
    for (const source of SECTIONS) {
      const now = new Map();
      for (const it of this.found) {
        if (it.source !== source || !it.words.startsWith('b ')) continue;
        const key = it.mark + it.words, count = (now.get(key) ?? 0) + 1;
        now.set(key, count);
        if (count <= (before.get(key) ?? 0)) twice.push(it);
      }
      for (const [key, count] of now) before.set(key, Math.max(count, before.get(key) ?? 0));
    }
    return twice;
  }

  // Returns instructions that the bytes of their stream have too, or the other way round.
  instructionsTwice() {
    const streamOf = it => it.mark + it.words[0], there = new Set(this.found.map(it => `${streamOf(it)} ${it.source}`));
    const isBoth = key => there.has(`${key} instruction`) && there.has(`${key} stream`);
    const worse = key => !isBoth(key) ? null : this.cut.has(key) ? 'instruction' : 'stream';
    return this.found.filter(it => 'ed'.includes(it.words[0]) && worse(streamOf(it)) === it.source);
  }

  // Yields what is missing.
  * missing() {
    yield* this.streams.gaps();
    for (const [mark, name] of Array.from(this.cut).sort()) {
      yield `${mark} ${name === 'e' ? 'encoder' : 'decoder'} stream: an instruction has no bytes`;
    }
    if (this.withoutBytes) yield `events without their bytes, or after such, which are left out: ${this.withoutBytes}`;
  }
}

// Returns the mark of the end from whose side a trace was made.
function markOf({vantage_point: point = {}}) {
  const {type, flow} = isObject(point) ? point : {type: point};
  return type === 'server' || flow === 'server' ? '<' : '>';
}

// Returns a connection of a trace or a log.
function tracedConnection(number, about, lines, missing) {
  const name = `connection ${number}, ${about}`.replace(/\p{C}/gu, ' ');
  return {number, name, text: lines.map(it => `${it}\n`).join(''), lines, packets: [], streams: {}, seen: null, missing};
}

// Returns the connections of a trace or of a log of the example server, and what is said of it.
function readTrace(text) {
  const records = readRecords(text), [first] = records;
  if (!first) throw new Refusal('the trace has no record');
  let connections;
  try {
    if (first.log?.entries) throw new Refusal('the file is a HAR, which has no bytes: qpk show prints its header lists');
    connections =
      'event' in first && 'connection' in first ? connectionsOfLog(records) : connectionsOfTraces(readTraces(records));
  } catch (error) {
    if (error instanceof Refusal) throw error;
    throw new Refusal(`the trace can't be read, as a value is of another kind (${error.message}): choose another file`);
  }
  return {connections, said: connections.flatMap(({number, missing}) => missing.map(it => `connection ${number}: ${it}`))};
}

function connectionsOfTraces(traces) {
  const connections = [];
  let hasLists = false;
  for (const trace of traces) {
    const readers = new Map();
    for (const event of eventsOf(trace)) takeOrMake(readers, event.group, () => new TraceReader(markOf(trace))).read(event);
    for (const [group, reader] of readers) {
      hasLists ||= reader.hasLists;
      if (!reader.found.length && !Array.from(reader.streams.gaps()).length) continue;
      const about = [String(trace.title || 'a trace'), group].filter(it => it).join(', ');
      connections.push(tracedConnection(connections.length, about, reader.lines(), Array.from(reader.missing())));
    }
  }
  const hasSections = connections.some(it => it.lines.some(line => line.includes(' b ')));
  if (hasLists && !hasSections) throw new Refusal('the trace has header lists without their bytes: qpk show prints them');
  if (!connections.length) throw new Refusal(NO_BYTES);
  return connections;
}

// Returns the connections of a log of the example server. It logs a section before the instructions that it needs, and sends them
// before it. So they come first here.
function connectionsOfLog(records) {
  const found = new Map(), waiting = new Map(); // sections that were logged, and whose instructions may follow
  for (const it of records) {
    const lines = takeOrMake(found, wholeNumberOf(it.connection), () => []), words = wordsOfEvent(it),
          number = wholeNumberOf(it.connection);
    if (it.event !== 'sent') {
      lines.push(...waiting.get(number) ?? []);
      waiting.delete(number);
    }
    if (it.event === 'section sent') waiting.set(number, [words]);
    else if (words) lines.push(words);
  }
  for (const [number, words] of waiting) found.get(number).push(...words);
  const connections =
    Array.from(found).filter(([, lines]) => lines.length).map(([
                                                                number, lines
                                                              ]) => tracedConnection(number, 'the example server', lines, []));
  if (!connections.length) throw new Refusal('the log has no bytes of QPACK: have a browser open a page of the server');
  return connections;
}

// Returns the line that an event of the server is, or nothing.
function wordsOfEvent({event, capacity, blocked, type, id, hex}) {
  if (event === 'begin' || event === 'settings')
    return `${event === 'begin' ? '<' : '>'} s ${wholeNumberOf(capacity)} ${wholeNumberOf(blocked)}`;
  const mark = String(event).endsWith('sent') ? '<' : '>', isStream = event === 'sent' || event === 'received';
  if (isStream && type === undefined) throw new TypeError(`an event ${event} has no type`);
  if (isStream && (type === 2 || type === 3)) return `${mark} ${type === 2 ? 'e' : 'd'} ${bytesOfEvent(hex)}`;
  return event === 'section sent' || event === 'section received' ? `${mark} b ${wholeNumberOf(id)} ${bytesOfEvent(hex)}` : '';
}

function bytesOfEvent(hex) {
  if (typeof hex !== 'string') throw new TypeError('an event has no bytes');
  return toHex(wholeBytes(hex));
}
