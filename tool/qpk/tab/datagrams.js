// Datagrams of UDP in the packets of a capture: links, IP and its fragments. tool/qpk/datagrams.py has the same rules. An
// address is its text, with the port.
'use strict';

const MOST_FRAGMENTED = 64; // datagrams whose fragments are kept at once; the oldest is left out for another
const MOST_FRAGMENTS = 1 << 13; // of a datagram, which has at most 2^16 bytes; with more it is left out
const MOST_HEADERS = 16; // extension headers of IPv6 before the datagram; with more the packet is left out
const UDP = 17; // the protocol, in IP
const HOP_BY_HOP = 0, ROUTING = 43, FRAGMENT = 44, DESTINATION = 60; // extension headers of IPv6 (RFC 8200, section 4)
// Where the packet of IP begins, by the type of the link: BSD loopback, raw IP, Linux cooked capture.
const HEADS = {
  0: 4,
  108: 4,
  12: 0,
  14: 0,
  101: 0,
  228: 0,
  229: 0,
  113: 16,
  276: 20
};
const ETHERNET = 1, VLAN = [0x8100, 0x88a8, 0x9100]; // types of Ethernet before which a tag of four bytes stands

// Returns where the packet of IP begins in one of a link, or -1 if the link is of another type.
function beginOfIp(link, data) {
  if (link !== ETHERNET) return HEADS[link] ?? -1;
  let at = 12;
  while (VLAN.includes(numberAt(data, at, 2))) at += 4;
  return at + 2;
}

// A datagram whose fragments come.
class Fragmented {
  constructor() { Object.assign(this, {pieces: new Map(), size: 0, end: null}); }

  // Takes a fragment, and returns the datagram if it is whole by then.
  take(offset, data, isLast) {
    this.size += data.length - (this.pieces.get(offset)?.length ?? 0);
    this.pieces.set(offset, data);
    if (isLast) this.end = offset + data.length;
    return this.end !== null && this.size >= this.end ? this.whole() : null;
  }

  // Returns the datagram, or nothing of one that has a gap, as pieces that overlap may leave.
  whole() {
    const parts = [];
    let taken = 0;
    for (const offset of Array.from(this.pieces.keys()).sort((a, b) => a - b)) {
      if (offset > taken) return EMPTY;
      const part = this.pieces.get(offset).subarray(taken - offset);
      parts.push(part);
      taken += part.length;
    }
    return joined(parts);
  }
}

// Finds the datagrams of UDP in packets.
class Datagrams {
  constructor() { Object.assign(this, {count: 0, fragmented: new Map()}); }

  // Returns the datagram of a packet, if it has one, or is the last fragment of one: {source, target, data, isShort}.
  ofPacket(link, data) {
    const at = beginOfIp(link, data), version = data[at] >> 4;
    if (at < 0 || data.length < at + 20) return null;
    const found = this.ofVersion(version, data.subarray(at));
    this.count += found !== null;
    return found;
  }

  ofVersion(version, data) {
    if (version === 4) return this.ofVersion4(data);
    return version === 6 ? this.ofVersion6(data) : null;
  }

  // A packet of IPv4 (RFC 791).
  ofVersion4(data) {
    const head = (data[0] & 15) * 4, size = numberAt(data, 2, 2), part = numberAt(data, 6, 2);
    if (data[9] !== UDP || head < 20) return null;
    const end = size >= head ? size : data.length; // of a packet that a segmenting device sends the size is 0
    const payload = data.subarray(head, end);
    const [source, target] = [data.subarray(12, 16), data.subarray(16, 20)];
    if (!(part & 0x3fff)) return datagramOf(source, target, payload);
    return this.fragment([source, target, data.subarray(4, 6)], (part & 0x1fff) * 8, payload, !(part & 0x2000));
  }

  // A packet of IPv6 (RFC 8200).
  ofVersion6(whole) {
    const size = numberAt(whole, 4, 2), data = size ? whole.subarray(0, 40 + size) : whole;
    const [source, target] = [data.subarray(8, 24), data.subarray(24, 40)];
    let kind = data[6], at = 40;
    for (let headers = 0; headers < MOST_HEADERS; headers++) {
      if (kind === UDP) return datagramOf(source, target, data.subarray(at));
      if (data.length < at + 8) return null;
      if (kind === FRAGMENT && data[at] === UDP) {
        const part = numberAt(data, at + 2, 2);
        return this.fragment(
          [source, target, data.subarray(at + 4, at + 8)], part & 0xfff8, data.subarray(at + 8), !(part & 1));
      }
      if (![HOP_BY_HOP, ROUTING, DESTINATION].includes(kind)) return null;
      [kind, at] = [data[at], at + 8 + data[at + 1] * 8];
    }
    return null;
  }

  // Takes a fragment, and returns its datagram if that is whole by then.
  fragment([source, target, id], offset, data, isLast) {
    const key = [source, target, id].map(toHex).join(' '), it = takeOrMake(this.fragmented, key, () => new Fragmented());
    const whole = it.take(offset, data, isLast);
    if (whole !== null || it.pieces.size > MOST_FRAGMENTS) this.fragmented.delete(key);
    for (const oldest of this.fragmented.keys()) {
      if (this.fragmented.size <= MOST_FRAGMENTED) break;
      this.fragmented.delete(oldest);
    }
    return whole?.length ? datagramOf(source, target, whole) : null;
  }
}

// Returns the datagram of UDP that bytes are (RFC 768).
function datagramOf(source, target, data) {
  if (data.length < 8) return null;
  const size = numberAt(data, 4, 2), payload = data.subarray(8, size >= 8 ? size : data.length);
  const [from, to] = [addressOf(source, numberAt(data, 0, 2)), addressOf(target, numberAt(data, 2, 2))];
  return {source: from, target: to, data: payload, isShort: size > data.length};
}

// Returns an address and its port as text.
function addressOf(host, port) { return `${host.length === 4 ? host.join('.') : textOfVersion6(host)}:${port}`; }

// Returns an address of IPv6 as text, with the first of its longest runs of zeros left out (RFC 5952).
function textOfVersion6(host) {
  const groups = Array.from({length: 8}, (_, at) => numberAt(host, 2 * at, 2));
  let [first, length] = [-1, 1];
  for (let at = 0; at < 8; at++) {
    const end = groups.findIndex((it, place) => place >= at && it !== 0), run = (end < 0 ? 8 : end) - at;
    if (run > length) [first, length] = [at, run];
  }
  const words = groups.map(it => it.toString(16));
  if (first === 0 && (length === 6 || length === 5 && groups[5] === 0xffff)) words.splice(6, 2, host.slice(12).join('.'));
  if (first < 0) return words.join(':');
  return `${words.slice(0, first).join(':')}::${words.slice(first + length).join(':')}`;
}
