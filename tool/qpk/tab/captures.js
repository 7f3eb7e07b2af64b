// Captures as files: pcap and pcapng. One is read to where it is cut or damaged. tool/qpk/files.py has the same rules.
'use strict';

const MOST_PACKET = 1 << 18; // bytes of a packet that is read, as the snap length of captures has it; a longer one is damage
const MOST_BLOCK = 1 << 24; // bytes of a block of pcapng that is read; a longer one is damage
const MOST_INTERFACES = 1 << 12; // of a section of pcapng whose link types are kept; more are damage
const SECOND = 1_000_000_000n; // in nanoseconds
// Files of pcap, by their first four bytes: whether the lowest byte is first, and how many nanoseconds a unit of time has.
const PCAP = {
  d4c3b2a1: [true, 1000n],
  a1b2c3d4: [false, 1000n],
  '4d3cb2a1': [true, 1n],
  a1b23c4d: [false, 1n]
};
const PCAPNG = '0a0d0d0a';
// Blocks of pcapng, by their types.
const SECTION = 0x0a0d0d0a, INTERFACE = 1, OLD_PACKET = 2, SIMPLE_PACKET = 3, ENHANCED_PACKET = 6, SECRETS = 10;
const TLS_KEY_LOG = 0x544c534b; // the kind of secrets that is a key log
const OPTION_RESOLUTION = 9, OPTION_OFFSET = 14; // of an interface: the unit of its times, and the seconds to be added

function isCapture(bytes) {
  const magic = toHex(bytes.subarray(0, 4));
  return magic === PCAPNG || magic in PCAP;
}

// The packets of a capture, and what was seen of the file. Secrets in it go to a function as they come.
class Capture {
  constructor(bytes, learn) {
    Object.assign(this, {bytes, learn, at: 0, count: 0, cut: 0, longestCut: 0, damage: ''});
    this.view = new DataView(bytes.buffer, bytes.byteOffset, bytes.length);
  }

  // Yields the packets: {number, time, link, data}.
  packets() {
    const magic = toHex(this.bytes.subarray(0, 4));
    return magic === PCAPNG ? this.packetsOfPcapng() : this.packetsOfPcap(...PCAP[magic]);
  }

  packet(time, link, data, size) {
    this.count++;
    if (data.length < size) {
      this.cut++;
      this.longestCut = Math.max(this.longestCut, data.length);
    }
    return {number: this.count, time, link, data};
  }

  stopAtCut() { this.damage ||= `the capture is cut after packet ${this.count}, and was read to there`; }

  stopAtDamage() { this.damage ||= `the capture is damaged after packet ${this.count}, and was read to there`; }

  * packetsOfPcap(isLittle, unit) {
    if (this.bytes.length < 24) return this.stopAtCut();
    const link = this.view.getUint32(20, isLittle) & 0xffff;
    for (let at = 24; at < this.bytes.length;) {
      if (at + 16 > this.bytes.length) return this.stopAtCut();
      const [seconds, units, kept, size] = [0, 4, 8, 12].map(it => this.view.getUint32(at + it, isLittle));
      if (kept > MOST_PACKET) return this.stopAtDamage();
      at += 16;
      if (at + kept > this.bytes.length) return this.stopAtCut();
      yield this.packet(BigInt(seconds) * SECOND + BigInt(units) * unit, link, this.bytes.subarray(at, at + kept), size);
      at += kept;
    }
  }

  * packetsOfPcapng() {
    let interfaces = [];
    for (let block = this.nextBlock(); block; block = this.nextBlock()) {
      const {kind, body, view} = block;
      try {
        if (kind === SECTION) interfaces = [];
        else if (kind === INTERFACE && interfaces.length < MOST_INTERFACES)
          interfaces.push(new Interface(view, this.isLittle));
        else if ([OLD_PACKET, SIMPLE_PACKET, ENHANCED_PACKET].includes(kind)) {
          const packet = this.packetOfBlock(kind, body, view, interfaces);
          if (!packet) return this.stopAtDamage();
          yield packet;
        } else if (kind === SECRETS) this.learnSecrets(body, view);
      } catch (error) {
        if (error instanceof RangeError) return this.stopAtDamage(); // of a block that is too short
        throw error;
      }
    }
  }

  // Returns the type of the next block and its body, or nothing at the end of the file.
  nextBlock() {
    const {at, view, bytes} = this;
    if (at === bytes.length) return null;
    if (at + 12 > bytes.length) return void this.stopAtCut();
    if (view.getUint32(at) === SECTION) this.isLittle = view.getUint32(at + 8) === 0x4d3c2b1a;
    const kind = view.getUint32(at, this.isLittle), size = view.getUint32(at + 4, this.isLittle);
    if (size < 12 || size > MOST_BLOCK || size % 4) return void this.stopAtDamage();
    if (at + size > bytes.length) return void this.stopAtCut();
    this.at += size;
    const body = bytes.subarray(at + 8, at + size - 4);
    return {kind, body, view: new DataView(body.buffer, body.byteOffset, body.length)};
  }

  packetOfBlock(kind, body, view, interfaces) {
    const number = at => view.getUint32(at, this.isLittle);
    if (kind === SIMPLE_PACKET) {
      const size = number(0), data = body.subarray(4, 4 + size);
      return interfaces.length ? this.packet(0n, interfaces[0].link, data, Math.min(size, interfaces[0].snapLength || size)) :
                                 null;
    }
    const its = interfaces[kind === ENHANCED_PACKET ? number(0) : view.getUint16(0, this.isLittle)];
    const time = (BigInt(number(4)) << 32n) + BigInt(number(8)), size = number(16);
    return its ? this.packet(its.time(time), its.link, body.subarray(20, 20 + number(12)), size) : null;
  }

  learnSecrets(body, view) {
    const size = view.getUint32(4, this.isLittle);
    if (view.getUint32(0, this.isLittle) === TLS_KEY_LOG) this.learn(decoder.decode(body.subarray(8, 8 + size)));
  }
}

// An interface of a section of pcapng: the type of its link, and the unit of its times.
class Interface {
  constructor(view, isLittle) {
    this.link = view.getUint16(0, isLittle);
    this.snapLength = view.getUint32(4, isLittle);
    this.units = 1_000_000n;
    this.offset = 0n;
    for (let at = 8; at + 4 <= view.byteLength;) {
      const code = view.getUint16(at, isLittle), size = view.getUint16(at + 2, isLittle);
      if (code === 0) break;
      if (code === OPTION_RESOLUTION && size) this.units = unitsOf(view.getUint8(at + 4));
      if (code === OPTION_OFFSET && size === 8) this.offset = view.getBigInt64(at + 4, isLittle);
      at += 4 + 4 * Math.ceil(size / 4);
    }
  }

  // Returns a count of units in nanoseconds.
  time(count) { return count * SECOND / this.units + this.offset * SECOND; }
}

function unitsOf(resolution) { return resolution & 0x80 ? 1n << BigInt(resolution & 0x7f) : 10n ** BigInt(resolution); }
