// Streams of HTTP/3 that come in pieces, and the lines of a recording that their bytes are. tool/qpk/streams.py has the same
// rules.
'use strict';

const HEADERS = 1, SETTINGS = 4, PUSH_PROMISE = 5; // types of frames (RFC 9114, section 7.2), whose payload is kept
// Types of unidirectional streams (RFC 9114, section 6.2; RFC 9204, section 4.2).
const CONTROL = 0, PUSH = 1, ENCODER = 2, DECODER = 3;
const MAX_TABLE_CAPACITY = 1, BLOCKED_STREAMS = 7; // settings (RFC 9204, section 5)
const LONGEST_HEAD = 16; // bytes of the type and the length of a frame
const MOST_PAYLOAD = 1 << 20; // bytes of a frame that is read; a longer one is left out
const MOST_WAITING = 1 << 24; // bytes of a stream that are kept after a gap; with more, the stream ends at the gap
const MOST_STREAMS = 1 << 17; // of a connection that are read; others are left out

function readSettings(payload) {
  const settings = {};
  for (let at = 0, name; at < payload.length;) {
    [name, at] = readInteger(payload, at);
    [settings[name], at] = readInteger(payload, at);
  }
  return settings;
}

// The frames of a stream, whose bytes come in pieces. Each byte is copied once, and only of frames that are kept.
class Frames {
  constructor() { Object.assign(this, {head: EMPTY, kind: null, left: 0, parts: null, tooLong: 0}); }

  // Takes bytes, and yields each frame that is whole by then and may have anything of QPACK: type and payload.
  * take(data) {
    for (let at = 0;;) {
      if (this.kind === null) at = this.takeHead(data, at);
      if (this.kind === null) return;
      const end = Math.min(at + this.left, data.length);
      this.parts?.push(data.subarray(at, end));
      this.left -= end - at;
      at = end;
      if (this.left) return;
      if (this.parts) yield [this.kind, joined([EMPTY, ...this.parts])];
      this.kind = null;
    }
  }

  // Takes the type and the length of a frame from an offset on, and returns the offset after what was taken.
  takeHead(data, begin) {
    const head = joined([this.head, data.subarray(begin, begin + LONGEST_HEAD)]);
    let kind, size, at;
    try {
      [kind, at] = readInteger(head, 0);
      [size, at] = readInteger(head, at);
    } catch (error) {
      if (error !== NOT_WHOLE) throw error;
      this.head = head;
      return data.length;
    }
    const isKept = kind === HEADERS || kind === SETTINGS || kind === PUSH_PROMISE;
    const next = begin + at - this.head.length;
    Object.assign(this, {head: EMPTY, kind, left: size, parts: isKept && size <= MOST_PAYLOAD ? [] : null});
    this.tooLong += isKept && size > MOST_PAYLOAD;
    return next;
  }
}

// What an end sent on a stream.
class Stream {
  constructor(number) {
    Object.assign(this, {number, pieces: new Map(), offsets: new Heap(), waiting: 0, isGivenUp: false, taken: 0});
    Object.assign(this, {head: EMPTY, kind: null, frames: new Frames()});
  }

  get isOneWay() { return Math.floor(this.number / 2) % 2 === 1; }

  // Takes a piece, and returns the bytes that are next in order by then.
  receive(offset, data) {
    if (!this.isGivenUp) this.keep(offset, data);
    const got = [];
    while (this.offsets.least !== undefined && this.offsets.least <= this.taken) {
      const start = this.offsets.pop(), piece = this.pieces.get(start), part = piece.subarray(this.taken - start);
      this.pieces.delete(start);
      this.waiting -= piece.length;
      got.push(part);
      this.taken += part.length;
    }
    if (this.waiting > MOST_WAITING)
      Object.assign(this, {isGivenUp: true, pieces: new Map(), offsets: new Heap(), waiting: 0});
    return joined(got);
  }

  // Keeps a piece, unless one from the same offset on is as long.
  keep(offset, data) {
    const before = this.pieces.get(offset), length = before?.length ?? 0;
    if (data.length <= length) return;
    if (!before) this.offsets.push(offset);
    this.pieces.set(offset, data);
    this.waiting += data.length - length;
  }

  // Whether bytes of it are missing before others, or are left out.
  get hasGap() { return this.isGivenUp || this.offsets.least !== undefined || this.frames.tooLong > 0; }

  // Yields which of its bytes are not read.
  * leftOut() {
    if (this.isGivenUp) yield `bytes from ${this.taken} on are left out: more than ${MOST_WAITING} came after a gap there`;
    else if (this.offsets.least !== undefined) yield `bytes from ${this.taken} to ${this.offsets.least} are missing`;
    const {tooLong} = this.frames;
    if (tooLong) yield `frames that are longer than ${MOST_PAYLOAD} bytes, which are left out: ${tooLong}`;
  }

  // Returns bytes without the type of the stream, and without the push ID of a push stream.
  withoutHead(data) {
    if (!this.isOneWay || this.kind !== null) return data;
    this.head = joined([this.head, data]);
    let kind, at;
    try {
      [kind, at] = readInteger(this.head, 0);
      if (kind === PUSH) [, at] = readInteger(this.head, at);
    } catch (error) {
      if (error !== NOT_WHOLE) throw error;
      return EMPTY;
    }
    const rest = this.head.subarray(at);
    Object.assign(this, {head: EMPTY, kind});
    return rest;
  }

  // Yields the words of the lines that bytes of it are.
  * lines(data) {
    if (this.kind === ENCODER || this.kind === DECODER) {
      if (data.length) yield `${this.kind === ENCODER ? 'e' : 'd'} ${toHex(data)}`;
    } else if (this.kind === CONTROL || this.kind === PUSH || this.kind === null && !this.isOneWay) {
      for (const [kind, payload] of this.frames.take(data)) yield* this.lineOfFrame(kind, payload);
    }
  }

  // Yields the words of the line that a frame is, if it has anything of QPACK.
  * lineOfFrame(kind, payload) {
    try {
      if (this.kind === CONTROL && kind === SETTINGS) {
        const settings = readSettings(payload);
        yield `s ${settings[MAX_TABLE_CAPACITY] ?? 0} ${settings[BLOCKED_STREAMS] ?? 0}`;
      } else if (this.kind !== CONTROL && kind === HEADERS) yield `b ${this.number} ${toHex(payload)}`;
      else if (this.kind === null && kind === PUSH_PROMISE) {
        yield `b ${this.number} ${toHex(payload.subarray(readInteger(payload, 0)[1]))}`;
      }
    } catch (error) {
      if (error !== NOT_WHOLE) throw error;
      throw new Refusal(`stream ${this.number} has a frame of type ${kind} that ends within an integer`);
    }
  }
}

// Numbers, of which the least is taken first.
class Heap {
  constructor() { this.all = []; }

  get least() { return this.all[0]; }

  push(number) {
    const {all} = this;
    let at = all.push(number) - 1;
    for (let above = (at - 1) >> 1; at > 0 && all[above] > all[at]; at = above, above = (at - 1) >> 1) {
      [all[above], all[at]] = [all[at], all[above]];
    }
  }

  pop() {
    const {all} = this, [least] = all, last = all.pop();
    if (!all.length) return least;
    all[0] = last;
    for (let at = 0;;) {
      const [left, right] = [2 * at + 1, 2 * at + 2];
      const lesser = right < all.length && all[right] < all[left] ? right : left;
      if (lesser >= all.length || all[lesser] >= all[at]) return least;
      [all[lesser], all[at]] = [all[at], all[lesser]];
      at = lesser;
    }
  }
}

// The streams of a connection, by the mark of the end that sends on them, and their number.
class Streams {
  constructor() { Object.assign(this, {streams: new Map(), leftOut: 0, ended: new Set()}); }

  // Takes bytes of a stream, and yields the words of the lines that are whole by then.
  * take(mark, number, offset, data) {
    let stream = this.streams.get(mark + number);
    if (!stream) {
      if (this.streams.size >= MOST_STREAMS) {
        this.leftOut++;
        return;
      }
      this.streams.set(mark + number, stream = new Stream(number));
    }
    yield* stream.lines(stream.withoutHead(stream.receive(offset, data)));
  }

  // Notes that the sender of a stream gave it up, so that what is missing of it never comes.
  end(mark, number) {
    if (this.streams.has(mark + number)) this.ended.add(mark + number);
  }

  // Returns how many streams of an end have a gap, of those that it did not give up.
  countGaps(mark) {
    return Array.from(this.streams).filter(([key, it]) => key[0] === mark && it.hasGap && !this.ended.has(key)).length;
  }

  // Returns the numbers of the streams of instructions, by the marks of their ends and the words of their lines.
  numbers() {
    const found = {};
    for (const [key, {kind, number}] of this.streams) {
      if (kind === ENCODER || kind === DECODER) found[key[0] + (kind === ENCODER ? 'e' : 'd')] = number;
    }
    return found;
  }

  // Yields which bytes are missing, or are left out.
  * gaps() {
    const of = mark =>
      Array.from(this.streams).filter(([key]) => key[0] === mark).sort(([, one], [, other]) => one.number - other.number);
    for (const [key, stream] of [...of('<'), ...of('>')]) {
      for (const it of stream.leftOut()) {
        yield `${key[0]} stream ${stream.number}: ${it}${this.ended.has(key) ? ', and its sender gave it up' : ''}`;
      }
    }
    if (this.leftOut) yield `there are more than ${MOST_STREAMS} streams, of which the others are left out`;
  }
}
