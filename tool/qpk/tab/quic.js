// Headers and frames of QUIC packets (RFC 9000, RFC 9369), and which packet numbers were seen. tool/qpk/quic.py has the same
// rules.
'use strict';

const LONGEST_ID = 20; // bytes of a connection ID
const FIXED_BIT = 0x40; // of the first byte of a packet, which most programs set (RFC 9287)
const MOST_RANGES = 1 << 14; // of packet numbers that are kept; with more, gaps between them are closed
const MOST_LOOKED_AT = 16; // ranges in which a number is looked for that was acknowledged
// Types of frames (RFC 9000, section 19; RFC 9221).
const PADDING = 0, PING = 1, ACK = 2, ACK_ECN = 3, RESET_STREAM = 4, STOP_SENDING = 5, CRYPTO = 6, NEW_TOKEN = 7;
const STREAM = 8, STREAM_END = 15; // the first and the last type of STREAM frames
const HAS_OFFSET = 4, HAS_LENGTH = 2; // bits of the type of a STREAM frame
const NEW_CONNECTION_ID = 0x18, PATH_CHALLENGE = 0x1a, PATH_RESPONSE = 0x1b, CLOSE = 0x1c, CLOSE_BY_APPLICATION = 0x1d;
const DATAGRAM = 0x30, DATAGRAM_WITH_LENGTH = 0x31;
// How many integers a frame has that is nothing else, and how many stand before the length of one that is skipped.
const INTEGERS = {
  [RESET_STREAM]: 3,
  [STOP_SENDING]: 2,
  0x10: 1,
  0x11: 2,
  0x12: 1,
  0x13: 1,
  0x14: 1,
  0x15: 2,
  0x16: 1,
  0x17: 1,
  0x19: 1,
  0x1e: 0,
  0xaf: 4
};
const BEFORE_LENGTHS = {
  [CLOSE]: 2,
  [CLOSE_BY_APPLICATION]: 1,
  [NEW_TOKEN]: 0,
  [DATAGRAM_WITH_LENGTH]: 0
};

function isLong(data, begin) { return (data[begin] & 0x80) !== 0; }

// Returns the long header at an offset, or nothing if it is of another version or is cut: its connection IDs, where its packet
// number begins, and where its packet ends.
function readLongHeader(data, begin) {
  const version = VERSIONS.get(numberAt(data, begin + 1, 4));
  if (!version || data.length < begin + 7) return null;
  let at = begin + 6 + data[begin + 5];
  const target = data.subarray(begin + 6, at);
  if (target.length > LONGEST_ID || at >= data.length) return null;
  const source = data.subarray(at + 1, at + 1 + data[at]);
  at += 1 + data[at];
  if (source.length > LONGEST_ID || at > data.length) return null;
  const kind = version.types[data[begin] >> 4 & 3];
  if (kind === RETRY) return {version, kind, target, source, numberAt: data.length, end: data.length};
  let size;
  try {
    if (kind === INITIAL) {
      [size, at] = readInteger(data, at);
      at += size;
    }
    [size, at] = readInteger(data, at);
  } catch (error) {
    if (error === NOT_WHOLE) return null;
    throw error;
  }
  return at + size <= data.length ? {version, kind, target, source, numberAt: at, end: at + size} : null;
}

// Yields what is read of the frames of a packet, to the first that is unknown or cut: {kind, number, offset, data}. The number is
// that of a stream, or of an acknowledgment the first packet; there the offset is the last one.
function* readFrames(data) {
  const reader = new FrameReader(data);
  try {
    while (reader.at < data.length) {
      if (data[reader.at] === PADDING || data[reader.at] === PING) reader.at++;
      else yield* reader.frames();
    }
  } catch (error) {
    if (error !== NOT_WHOLE) throw error;
  }
}

class FrameReader {
  constructor(data) { Object.assign(this, {data, at: 0}); }

  integer() {
    const [number, at] = readInteger(this.data, this.at);
    this.at = at;
    return number;
  }

  take(size) {
    if (this.at + size > this.data.length) throw NOT_WHOLE;
    return this.data.subarray(this.at, this.at += size);
  }

  // Returns the next frame; of an acknowledgment one for each range.
  frames() {
    const kind = this.integer();
    if (kind >= STREAM && kind <= STREAM_END) return [this.stream(kind)];
    return kind === ACK || kind === ACK_ECN ? this.acknowledgment(kind) : [this.other(kind)];
  }

  stream(kind) {
    const number = this.integer(), offset = kind & HAS_OFFSET ? this.integer() : 0;
    const size = kind & HAS_LENGTH ? this.integer() : this.data.length - this.at;
    return {kind: STREAM, number, offset, data: this.take(size)};
  }

  acknowledgment(kind) {
    let last = this.integer();
    this.integer(); // the delay
    const count = this.integer(), ranges = [];
    for (let range = 0; range <= count; range++) {
      if (range) last -= this.integer() + 2;
      const first = last - this.integer();
      ranges.push({kind: ACK, number: first, offset: last});
      last = first;
    }
    for (let more = kind === ACK_ECN ? 3 : 0; more > 0; more--) this.integer();
    return ranges.filter(it => it.number >= 0 && it.number <= it.offset);
  }

  other(kind) {
    if (kind === CRYPTO) {
      const offset = this.integer();
      return {kind, number: 0, offset, data: this.take(this.integer())};
    }
    if (kind === NEW_CONNECTION_ID) {
      this.integer();
      this.integer();
      const data = this.take(this.take(1)[0]);
      this.take(16);
      return {kind, data};
    }
    if (kind === CLOSE_BY_APPLICATION) {
      const [number] = readInteger(this.data, this.at);
      this.skip(kind);
      return {kind, number};
    }
    if (kind in INTEGERS) return {kind, number: Array.from({length: INTEGERS[kind]}, () => this.integer())[0] ?? 0};
    this.skip(kind);
    return {kind};
  }

  // Skips a frame of which nothing is read. None follows one that is unknown.
  skip(kind) {
    if (kind === PATH_CHALLENGE || kind === PATH_RESPONSE) this.at += 8;
    else if (kind === DATAGRAM) this.at = this.data.length;
    else if (kind in BEFORE_LENGTHS) {
      for (let before = BEFORE_LENGTHS[kind]; before > 0; before--) this.integer();
      const size = this.integer();
      this.at += size;
    } else throw NOT_WHOLE;
  }
}

// A set of packet numbers, as ranges in order.
class Numbers {
  constructor() { Object.assign(this, {firsts: [], lasts: []}); }

  // Adds the numbers from a first to a last one. Ranges that touch become one.
  add(first, last) {
    const {firsts, lasts} = this;
    let begin = lasts.length && lasts.at(-1) >= first - 1 ? placeAbove(lasts, first - 2) : lasts.length;
    let end = Math.max(begin, placeAbove(firsts, last + 1));
    if (end > begin) [first, last] = [Math.min(first, firsts[begin]), Math.max(last, lasts[end - 1])];
    else if (firsts.length >= MOST_RANGES) {
      begin = Math.min(begin, firsts.length - 1); // the gap between this range and a neighbour is closed
      end = begin + 1;
      [first, last] = [Math.min(first, firsts[begin]), Math.max(last, lasts[begin])];
    }
    firsts.splice(begin, end - begin, first);
    lasts.splice(begin, end - begin, last);
  }

  // Returns the ranges from a first to a last number that are not in the set, among the newest ranges alone.
  missingBetween(first, last) {
    const begin = Math.max(this.firsts.length - MOST_LOOKED_AT, 0), found = [];
    if (begin) first = Math.max(first, this.firsts[begin]);
    for (let at = begin; at < this.firsts.length; at++) {
      const [one, other] = [this.firsts[at], this.lasts[at]];
      if (first < one) found.push([first, Math.min(one - 1, last)]);
      first = Math.max(first, other + 1);
      if (first > last) return found;
    }
    return [...found, [first, last]];
  }

  ranges() { return this.firsts.map((first, at) => [first, this.lasts[at]]); }

  count() { return countOf(this.ranges()); }

  // Returns the ranges of numbers that are not in another set.
  without(other) {
    const found = [], others = other.ranges();
    let at = 0;
    for (let [first, last] of this.ranges()) {
      while (at < others.length && others[at][1] < first) at++;
      for (let here = at; first <= last; here++) {
        if (here >= others.length || others[here][0] > last) {
          found.push([first, last]);
          break;
        }
        if (others[here][0] > first) found.push([first, others[here][0] - 1]);
        first = others[here][1] + 1;
      }
    }
    return found;
  }
}

// Returns the place of the first number in an ordered list that is above one.
function placeAbove(numbers, number) {
  let [low, high] = [0, numbers.length];
  while (low < high) {
    const middle = (low + high) >> 1;
    if (numbers[middle] > number) high = middle;
    else low = middle + 1;
  }
  return low;
}
