// A recorded connection, of the rows that tool/qpk/report/columns.py made: its events, its entries and its requests.

const NONE = -1;
const ENDS = {
  '>': 'client',
  '<': 'server',
  ' ': ''
};
const OF_ENCODER = 'cid'; // instructions of the encoder stream
const OF_DECODER = 'axn'; // instructions of the decoder stream, which are about the other end's encoder
const REQUEST_FIELDS = [':method', ':path', ':status'];

function bytesIn(hex) {
  let marks = 0;
  for (let at = hex.indexOf('('); at >= 0; at = hex.indexOf('(', at + 1)) marks += 2;
  return (hex.length - marks) / 2;
}

// A number for each field: 1 and up for a field of a request's row, and else 0.
function kindsOfFields(fields) {
  return Uint8Array.from(fields, field => 1 + REQUEST_FIELDS.findIndex(name => field.startsWith(name + ': ')));
}

// What faults together are, as a class: nothing, wrong, or what may be nothing with what the file lacks.
function stateOfFaults(faults) {
  if (!faults.length) return '';
  return faults.every(it => it.perhaps) ? 'doubtful' : 'faulty';
}

// The entries of an encoder, and its table after each of its instructions.
class Encoder {
  constructor(end) {
    Object.assign(this, {end, events: [], fields: [], sizes: [], last: [], evictedAt: []});
    this.steps = []; // the events at which the table changed
    this.states = [{capacity: 0, size: 0, inserted: 0, evicted: 0}];
  }

  get name() { return this.end ? `${this.end}'s encoder` : 'the encoder'; }

  change(event, evicted, {capacity = this.states.at(-1).capacity, field, size}) {
    const before = this.states.at(-1), state = {...before, capacity, evicted};
    if (field !== undefined) {
      this.events.push(event), this.fields.push(field), this.sizes.push(size), this.last.push(event);
      state.inserted++, state.size += size;
    }
    for (let i = before.evicted; i < evicted; i++) state.size -= this.sizes[i], this.evictedAt[i] = event;
    this.steps.push(event);
    this.states.push(state);
  }

  // The table after an event.
  at(moment) {
    let low = 0, high = this.steps.length;
    while (low < high) {
      const middle = (low + high) >> 1;
      if (this.steps[middle] <= moment) low = middle + 1;
      else high = middle;
    }
    return this.states[low];
  }

  refer(entry, event) { this.last[entry - 1] = event; }
}

class Connection {
  constructor({trace, ...said}, {fields, shapes, kinds}) {
    Object.assign(this, said, {fields, shapes, kinds, refused: trace.refused, rest: trace.rest, events: trace.events});
    this.readRecords(trace.records);
    this.encoders = this.directions.map(({end}) => new Encoder(end));
    this.sizes = new Uint32Array(this.events.length); // bytes of each event
    this.owner = new Int32Array(this.events.length).fill(NONE); // the request to which an event belongs
    this.requests = [];
    this.byStream = new Map();
    this.waits = new Map(); // by the event at which each began
    this.since = this.encoders.map(() => ({event: 0, bytes: 0})); // the last list of each encoder
    this.events.forEach((row, event) => this.read(row, event));
    this.finish();
  }

  readRecords({lines, sizes, ends, times, packets}) {
    let line = 0, event = 0;
    this.lines = lines.map(step => line += step);
    this.recordOf = new Int32Array(this.events.length);
    sizes.forEach((size, record) => {
      this.recordOf.fill(record, event, event += size);
    });
    Object.assign(this, {ends, times, packets});
    const isTime = time => time !== null && time !== '' && Number.isFinite(Number(time));
    this.hasTimes = times !== null && times.some(isTime);
    let now = this.hasTimes ? Number(times.find(isTime)) : 0;
    this.positions = this.hasTimes ? times.map(time => now = isTime(time) ? Number(time) : now) : this.lines;
    this.last = this.positions.at(-1) ?? 0;
  }

  // Where an event is: its line, its end, its time, its packet, and its position on the axis of the waterfall.
  line(event) { return this.lines[this.recordOf[event]]; }
  end(event) { return ENDS[this.ends[this.recordOf[event]]]; }
  time(event) { return this.times?.[this.recordOf[event]] ?? ''; }
  packet(event) { return this.packets?.[this.recordOf[event]] ?? null; }
  position(event) { return this.positions[this.recordOf[event]]; }

  // The place of the encoder that an event is about.
  direction(event) {
    const row = this.events[event];
    if (row[0] === 't') return Math.min(row[3], this.encoders.length - 1);
    const own = this.encoders.length > 1 && this.ends[this.recordOf[event]] === '<' ? 1 : 0;
    return OF_DECODER.includes(row[0]) && this.encoders.length > 1 ? 1 - own : own;
  }

  read(row, event) {
    const place = this.direction(event), encoder = this.encoders[place], kind = row[0];
    this.sizes[event] = bytesIn(row[1]);
    if (this.rest[event]) this.sizes[event] += this.rest[event].length / 2;
    if (kind === 's' || kind === 'b') this.readSection(row, event, place);
    else if (kind === 'c') encoder.change(event, row[4], {capacity: row[3]});
    else if (kind === 'i' || kind === 'd') {
      const named = this.referencedBy(event);
      if (named) encoder.refer(named, event);
      encoder.change(event, row[6], {field: row[4], size: row[5]});
    } else if (kind === 'a' || kind === 'x' || kind === 't' && row[4] >= 0) this.join(row[kind === 't' ? 4 : 3], event);
    if (OF_ENCODER.includes(kind)) this.since[place].bytes += this.sizes[event];
  }

  readSection(row, event, place) {
    const request = this.request(row[2], event);
    this.join(row[2], event);
    if (row[0] === 'b') {
      const wait = {event, until: row[3], place, end: null};
      request.waits.push(wait);
      this.waits.set(event, wait);
      return;
    }
    const wait = this.waits.get(row[6]);
    if (wait) wait.end = event;
    const {event: from, bytes} = this.since[place];
    request.sections.push({event, from, place});
    request.bytes += this.sizes[event];
    request.instructions += bytes;
    for (let i = from; i < event; i++)
      if (this.owner[i] === NONE && this.direction(i) === place) this.owner[i] = request.number;
    this.since[place] = {event: event + 1, bytes: 0};
    this.readFields(row, request, this.encoders[place], event);
  }

  readFields([, , , , base, codes], request, encoder, event) {
    for (const code of codes) {
      let field;
      if (code & 1) {
        field = this.shapes.fields[code >> 1];
        if (this.shapes.entries[code >> 1]) encoder.refer(this.shapes.entries[code >> 1], event);
      } else {
        const entry = base - code / 2;
        field = encoder.fields[entry - 1];
        encoder.refer(entry, event);
      }
      const kind = this.kinds[field];
      if (kind) request.fields[kind - 1] = field;
    }
  }

  request(stream, event) {
    let found = this.byStream.get(stream);
    if (!found) {
      found = {
        number: this.requests.length,
        stream,
        event,
        sections: [],
        waits: [],
        bytes: 0,
        instructions: 0,
        blocked: 0,
        fields: [NONE, NONE, NONE],
        begin: this.position(event),
        finish: this.position(event),
        faults: [],
        known: ''
      };
      this.byStream.set(stream, found);
      this.requests.push(found);
    }
    return found;
  }

  join(stream, event) {
    const found = this.byStream.get(stream);
    if (!found) return;
    this.owner[event] = found.number;
    found.finish = Math.max(found.finish, this.position(event));
  }

  finish() {
    for (const request of this.requests) {
      for (const [begin, end] of request.waits.map(it => this.spanOf(it))) request.blocked += end - begin;
      if (request.waits.some(it => it.end === null)) request.finish = this.last;
      [request.method, request.path, request.status] = request.fields.map((field, i) => this.valueOf(field, i));
    }
    this.faultsOf = new Map(); // by the number of the event
    for (const fault of this.faults) {
      if (!this.faultsOf.has(fault.event)) this.faultsOf.set(fault.event, []);
      this.faultsOf.get(fault.event).push(fault);
      const request = this.requests[this.owner[fault.event]];
      if (request) request.faults.push(fault);
    }
  }

  // When a wait began and ended, or the end of the recording came.
  spanOf({event, end}) { return [this.position(event), end === null ? this.last : this.position(end)]; }

  valueOf(field, kind) { return field === NONE ? '' : this.fields[field].slice(REQUEST_FIELDS[kind].length + 2); }

  // What is wrong with an event, as a class: what is refused is wrong, also if no fault says so.
  stateOf(event) { return stateOfFaults(this.faultsOf.get(event) ?? []) || (this.refused[event] ? 'faulty' : ''); }

  // The entry that an instruction of the encoder stream references, or 0.
  referencedBy(event) {
    const row = this.events[event], {inserted} = this.encoders[this.direction(event)].at(event - 1);
    if (row[0] === 'd') return inserted - row[3];
    return row[0] === 'i' && row[3] < NONE ? inserted + 2 + row[3] : 0;
  }

  // The lines of a section: bytes, how each has its field, its form as qpk show prints it, its field, and its entry.
  linesOf(event) {
    const [, hex, , , base, codes] = this.events[event], groups = groupsOf(hex).slice(1);
    const encoder = this.encoders[this.direction(event)], {hows, forms, fields, entries} = this.shapes;
    return codes.map((code, i) => {
      if (code & 1) {
        const shape = code >> 1;
        return {
          hex: groups[i],
          how: hows[shape],
          form: forms[shape],
          field: this.fields[fields[shape]],
          entry: entries[shape]
        };
      }
      const distance = code / 2, entry = base - distance, postBase = -1 - distance;
      const form = distance < 0 ? `post-base ${postBase}` : `dynamic ${distance}`;
      const field = this.fields[encoder.fields[entry - 1]];
      return {hex: groups[i], how: 'dynamic', form: `${form} (entry ${entry})`, field, entry};
    });
  }

  // The events that reference an entry, in order.
  usesOf(place, entry, most) {
    const encoder = this.encoders[place], found = [];
    const end = Math.min(encoder.last[entry - 1], this.events.length - 1);
    for (let event = encoder.events[entry - 1] + 1; event <= end && found.length < most; event++)
      if (this.direction(event) === place && this.refersTo(event, entry)) found.push(event);
    return found;
  }

  refersTo(event, entry) {
    const row = this.events[event];
    if (row[0] === 's')
      return row[5].some(code => code & 1 ? this.shapes.entries[code >> 1] === entry : row[4] - code / 2 === entry);
    return (row[0] === 'i' || row[0] === 'd') && this.referencedBy(event) === entry;
  }
}

// The bytes of a section in groups: its prefix, and each line.
function groupsOf(hex) { return Array.from(hex.matchAll(/\((\w*)\)|(\w\w)/g), ([, long, short]) => long ?? short); }
