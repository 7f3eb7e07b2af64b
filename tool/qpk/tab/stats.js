// What QPACK did on a connection, in numbers: the rows of qpk stats.
'use strict';

const PREFIX = 2; // bytes of that of a section without a dynamic table (RFC 9204, section 4.5.1)
const NAMES_OF_HITS = {
  static: 'static',
  dynamic: 'dynamic',
  'static-name': 'name static',
  'dynamic-name': 'name dynamic',
  literal: 'literal'
};

// Counts what QPACK did in a direction, event by event.
class Counting {
  constructor() {
    Object.assign(this, {
      settings: null,
      notDecoded: 0,
      sections: 0,
      fields: 0,
      listBytes: 0,
      sectionBytes: 0,
      notCounted: 0,
      countedBytes: 0,
      insertions: 0,
      duplicates: 0,
      blockedSections: 0,
      arrivals: 0,
      blockedLines: 0,
      blockedSeconds: 0
    });
    this.hits = Object.fromEntries(Object.keys(NAMES_OF_HITS).map(how => [how, 0]));
    this.referenced = new Set();
    this.withoutTable = new Map(); // how often fields are in the lists that QIF can have
  }

  take(event) {
    const {said} = event;
    if ('section' in said) this.takeSection(event);
    else if (event.stream === 'encoder') this.takeInstruction(event);
    else if ('max_capacity' in said) this.settings ??= said;
  }

  takeInstruction({said, field}) {
    if (!field || 'refused' in said) return;
    this.insertions++;
    this.duplicates += said.instruction === 'duplicate';
    const entry = (said.of ?? said.name_from)?.entry;
    if (entry !== undefined) this.referenced.add(entry);
  }

  takeSection(event) {
    if (event.arrival) this.takeArrival(event, event.arrival);
    this.blockedSections += 'blocked_until' in event.said && !('refused' in event.said);
    for (const {entry} of event.lines)
      if (entry !== undefined) this.referenced.add(entry);
    if (!event.isList) {
      this.notDecoded++;
      return;
    }
    this.sections++;
    this.sectionBytes += event.data.length;
    this.takeLines(event);
  }

  // Counts how long a section was blocked. Its arrival is no section of its own.
  takeArrival(event, arrival) {
    this.notDecoded--;
    this.arrivals++;
    this.blockedLines += event.line - arrival.line;
    const begin = arrival.seconds, end = event.seconds;
    if (begin === null || end === null || this.blockedSeconds === null) this.blockedSeconds = null;
    else this.blockedSeconds += end - begin;
  }

  takeLines({lines, data}) {
    const isInQif = lines.every(it => it.field.isInQif);
    this.notCounted += !isInQif;
    this.countedBytes += isInQif ? data.length : 0;
    for (const {how, field} of lines) {
      this.fields++;
      this.hits[how]++;
      this.listBytes += field.length;
      if (isInQif) this.withoutTable.set(field, (this.withoutTable.get(field) ?? 0) + 1);
    }
  }

  // Returns the bytes of the lists as they are encoded without a dynamic table: there each field has a line of its own.
  async sizeWithoutTable(encode) {
    const newline = Uint8Array.of(10), qif = [];
    for (const {bytes: [name, value]} of this.withoutTable.keys()) qif.push(name, Uint8Array.of(9), value, newline, newline);
    const sizes = qif.length ? await encode(joined(qif)) : [];
    let sum = PREFIX * (this.sections - this.notCounted), at = 0;
    for (const times of this.withoutTable.values()) sum += times * (sizes[at++] - PREFIX);
    return sum;
  }

  // Returns the rows: what is counted, and the number.
  async rows(encoderBytes, decoderBytes, evictions, encode) {
    const taken = this.sectionBytes + encoderBytes, lost = this.notCounted ? `; lists not counted ${this.notCounted}` : '';
    const notDecoded = this.notDecoded ? `; not decoded ${this.notDecoded}` : '';
    const hits = Object.entries(NAMES_OF_HITS).map(([how, name]) => `${name} ${this.hits[how]}`).join(', ');
    const [mean, share] = [[this.sections, 1], [this.listBytes, 3]].map(([of, digits]) => fixed(of ? taken / of : 0, digits));
    const neverReferenced = this.insertions - Array.from(this.referenced).filter(it => it <= this.insertions).length;
    const seconds = this.arrivals > 0 && this.blockedSeconds !== null ? `, seconds ${fixed(this.blockedSeconds, 6)}` : '';
    const waited = this.blockedSections ? `; lines waited ${this.blockedLines}${seconds}` : '';
    const found = [
      ['sections', `${this.sections}; fields in them ${this.fields}${notDecoded}`],
      ['names and values', `${this.listBytes} bytes`],
      ['sections took', `${this.sectionBytes} bytes`],
      ['the encoder stream took', `${encoderBytes} bytes`],
      ['a list took', `${mean} bytes, ${share} of its names and values`],
      ['fields', hits],
    ];
    if (encode) {
      const without = await this.sizeWithoutTable(encode), saved = without - this.countedBytes - encoderBytes;
      found.push(['without a dynamic table', `${without} bytes; saved ${saved}${lost}`]);
    }
    return [
      ...found, ['insertions', `${this.insertions}; duplicates ${this.duplicates}, never referenced ${neverReferenced}`],
      ['evictions', String(evictions)], ['blocked sections', `${this.blockedSections}${waited}`],
      ['the decoder stream took', `${decoderBytes} bytes`]
    ];
  }
}

// Returns a number with some digits behind its point. One that is just between two, as 0.25 with one digit, is
// rounded to the even one.
function fixed(number, digits) {
  const isBetween = number * 2 ** (digits + 1) % 2 === 1, below = Math.floor(number * 10 ** digits);
  return (isBetween && below % 2 === 0 ? below / 10 ** digits : number).toFixed(digits);
}

// Counts what QPACK did on a connection, by the end of each direction.
class Count {
  constructor() { this.directions = {}; }

  take(event) { (this.directions[event.of] ??= new Counting()).take(event); }

  // Returns the numbers of each direction as the page has them, once all events were counted.
  async data(reading, encode) {
    const found = [];
    for (const end of reading.ends()) {
      const counting = this.directions[end] ??= new Counting(), {settings} = counting;
      const [encoderBytes, decoderBytes] = ['encoder', 'decoder'].map(name => reading.stream(end, name).size);
      const evictions = reading.windows[end]?.evicted ?? 0;
      const limits =
        settings ? `the decoder allows ${settings.max_capacity} bytes and ${settings.max_blocked} blocked streams` : '';
      found.push({end, settings: limits, rows: await counting.rows(encoderBytes, decoderBytes, evictions, encode)});
    }
    return found;
  }
}
