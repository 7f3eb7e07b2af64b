// QUIC connections of a capture: their keys, what was seen of them, their lines, and which packet is of which one.
// tool/qpk/connections.py and tool/qpk/owners.py have the same rules.
'use strict';

const MOST_FRAME_FAULTS = 8; // of a connection that are told
const QPACK_ERRORS = [0x200, 0x201, 0x202]; // RFC 9204, section 6
const CLIENT_HELLO = 1, RANDOM_AT = 6, RANDOM_END = 38; // in the bytes of the handshake (RFC 8446, section 4.1.2)
const MOST_IDS = 1 << 16; // connection IDs that are kept of a capture
const MOST_PAIRS = 1 << 16; // pairs of addresses whose connection is kept
const MOST_NAMELESS = 32; // connections without a connection ID that are tried for a packet from a new address
const MOST_LINES = 2 ** 53;

// Returns a time in nanoseconds as lines of a recording have it: seconds, and six digits of their parts.
function shownTime(nanoseconds) {
  const sign = nanoseconds < 0n ? '-' : '', size = nanoseconds < 0n ? -nanoseconds : nanoseconds;
  return `${sign}${size / SECOND}.${String(size % SECOND / 1000n).padStart(6, '0')}`;
}

function ofBothEnds(make) { return {'>': make(), '<': make()}; }

class QuicConnection {
  constructor(client, server) {
    Object.assign(this, {client, server, random: '', versions: [VERSIONS.get(1)], initial: {}, firstTarget: EMPTY});
    Object.assign(this, {hello: new Stream(0), helloBytes: EMPTY, candidates: {}, kept: [], isAnswered: false, isLate: false});
    Object.assign(this, {streams: new Streams(), lines: [], packets: [], newIds: [], faults: [], isRefused: false});
    this.ids = ofBothEnds(() => new Set()); // in short packets that this end sends
    this.lengths = ofBothEnds(() => new Set()); // of these
    this.lineNumbers = ofBothEnds(() => []); // of lines, and of their packets
    this.heard = ofBothEnds(() => 0); // how many lines there were with the last acknowledgments of this end
    this.early = ofBothEnds(() => new Numbers()); // packets that were acknowledged before they were in the file
    this.seen = ofBothEnds(() => new Numbers());
    this.acknowledged = ofBothEnds(() => new Numbers());
    this.unread = ofBothEnds(() => 0); // packets that no key opened
    this.inARow = ofBothEnds(() => 0); // of these, since the last that one opened
    this.hasSettings = ofBothEnds(() => false);
  }

  // Takes the connection ID that the client chose, of which the keys of Initial packets are made.
  begin(version, firstTarget) { Object.assign(this, {versions: [version], firstTarget, initial: {}}); }

  // Returns the keys of Initial packets that an end sends. The server may choose another version.
  async initialKeys(mark, version) {
    if (!this.versions.includes(version)) this.versions.push(version);
    const key = `${mark}${version.number}`;
    return this.initial[key] ??= await Keys.of((await initialSecrets(version, this.firstTarget))[mark], AES_128, version);
  }

  // Takes the handshake's bytes of an Initial packet of the client, up to its random.
  takeHello(payload) {
    for (const frame of readFrames(payload)) {
      if (frame.kind !== CRYPTO || this.helloBytes.length >= RANDOM_END) continue;
      this.helloBytes = joined([this.helloBytes, this.hello.receive(frame.offset, frame.data)]);
      if (this.helloBytes.length < RANDOM_END || this.helloBytes[0] !== CLIENT_HELLO) continue;
      this.random = toHex(this.helloBytes.subarray(RANDOM_AT, RANDOM_END));
    }
  }

  // Returns the keys that may open packets of an end, or of early data. None are there without their secret.
  async keys(which, log) {
    if (this.candidates[which]) return this.candidates[which];
    const secret = log.secretOf(this.random, which);
    return secret ? this.candidates[which] = await keysOf(secret, this.versions) : [];
  }

  // Keeps the keys that opened a packet, and no others.
  choose(which, keys) { this.candidates[which] = [keys]; }

  // Takes a packet that was opened, which came in a datagram, and adds the lines that are whole by then.
  take(came, mark, packet) {
    this.seen[mark].add(packet.number, packet.number);
    this.isAnswered ||= mark === '<';
    this.inARow[mark] = 0;
    let hasHeard = false;
    for (const frame of readFrames(packet.payload)) {
      const {kind} = frame;
      if (kind === STREAM) this.takeStream(came, mark, packet.number, frame);
      else if (kind === ACK) {
        this.takeAcknowledgment(PEER[mark], frame.number, frame.offset);
        hasHeard = true;
      } else if (kind === CLOSE_BY_APPLICATION && QPACK_ERRORS.includes(frame.number)) this.isRefused = true;
      else if (kind === RESET_STREAM) this.streams.end(mark, frame.number);
      else if (kind === NEW_CONNECTION_ID) this.newIds.push([PEER[mark], frame.data]);
    }
    if (hasHeard) this.heard[mark] = this.lines.length;
  }

  // Takes a STREAM frame of the packet with a number. A frame of HTTP/3 in it that can't be read is left out.
  takeStream(came, mark, packet, frame) {
    try {
      for (const words of this.streams.take(mark, frame.number, frame.offset, frame.data)) {
        this.lines.push(`@${shownTime(came.time)} ${mark} ${words}`);
        this.packets.push(came.datagram.packet ?? 0);
        this.lineNumbers[mark].push([this.lines.length, packet]);
        this.hasSettings[mark] ||= words.startsWith('s ');
      }
    } catch (error) {
      if (!(error instanceof Refusal)) throw error;
      if (this.faults.length < MOST_FRAME_FAULTS) this.faults.push(`${mark} ${error.message}, and is left out`);
    }
  }

  // Takes the numbers of packets of an end that the peer acknowledged. Notes those that are not in the file yet.
  takeAcknowledgment(mark, first, last) {
    this.acknowledged[mark].add(first, last);
    for (const range of this.seen[mark].missingBetween(first, last)) this.early[mark].add(...range);
  }

  // Counts a packet of an end that no key opened.
  fail(mark) {
    this.unread[mark]++;
    this.inARow[mark]++;
  }

  // Whether a packet of its streams was opened.
  get isRead() { return Object.values(this.seen).some(it => it.firsts.length); }

  // Returns what was seen of an end.
  seenOf(mark) {
    const seen = this.seen[mark], known = this.acknowledged[mark];
    const found = {
      packets: seen.count(),
      missing: known.without(seen),
      unread: this.unread[mark],
      gaps: this.streams.countGaps(mark),
      hasSettings: this.hasSettings[mark],
      early: this.early[mark].count() - countOf(this.early[mark].without(seen)),
      acknowledgedTo: MOST_LINES,
      heardTo: MOST_LINES
    };
    if (this.isRefused) return found; // a peer that refuses a line acknowledges it no more
    const last = known.lasts.at(-1) ?? -1, line = this.lineNumbers[mark].findLast(([, number]) => number <= last)?.[0] ?? 0;
    return {...found, acknowledgedTo: line, heardTo: this.heard[mark]};
  }
}

function pairOf({source, target}) { return `${source} ${target}`; }

function peerPairOf({source, target}) { return `${target} ${source}`; }

// The connections of a capture by what their packets have. An owner is a connection, and the mark of the end that sends.
class Owners {
  constructor() { Object.assign(this, {byId: new Map(), lengths: [], byPair: new Map(), nameless: new Map()}); }

  // Forgets whose packets those between two addresses are.
  forget(datagram) {
    this.byPair.delete(pairOf(datagram));
    this.byPair.delete(peerPairOf(datagram));
  }

  // Notes the connection ID of packets that an end sends.
  name(connection, mark, target) {
    const ids = connection.ids[mark], id = toHex(target);
    if (ids.has(id) || this.byId.size >= MOST_IDS) return;
    ids.add(id);
    connection.lengths[mark].add(target.length);
    if (!target.length) {
      const nameless = takeOrMake(this.nameless, connection.server, () => []);
      if (!nameless.includes(connection)) nameless.unshift(connection);
      nameless.length = Math.min(nameless.length, MOST_NAMELESS);
      return;
    }
    const owners = takeOrMake(this.byId, id, () => []);
    owners.unshift([connection, mark]);
    owners.length = Math.min(owners.length, MOST_NAMELESS);
    if (!this.lengths.includes(target.length)) this.lengths = [...this.lengths, target.length].sort((a, b) => b - a);
  }

  // Notes that packets between two addresses are those of a connection, whose client may have moved.
  join(datagram, connection, mark) {
    if (this.byPair.get(pairOf(datagram))?.[0] === connection || this.byPair.size >= MOST_PAIRS) return;
    this.byPair.set(pairOf(datagram), [connection, mark]);
    this.byPair.set(peerPairOf(datagram), [connection, PEER[mark]]);
  }

  // Returns the newest connection that has a connection ID, and the mark of the end that sends to it.
  findById(target) { return this.byId.get(toHex(target))?.[0] ?? null; }

  // Yields the connections that a short packet may be of, the mark of its sender, and the length of its ID.
  * ofShort(datagram, begin) {
    const {data, source, target} = datagram;
    for (const length of this.lengths) {
      const owners = this.byId.get(toHex(data.subarray(begin + 1, begin + 1 + length)));
      for (const [connection, mark] of owners ?? []) yield [connection, mark, length];
    }
    const own = this.byPair.get(pairOf(datagram));
    if (own) {
      const lengths = Array.from(own[0].lengths[own[1]]);
      for (const length of lengths.length ? lengths : Array(LONGEST_ID + 1).keys()) yield [...own, length];
    }
    for (const [server, mark] of [[source, '<'], [target, '>']]) {
      for (const connection of this.nameless.get(server) ?? []) {
        if (connection.ids[mark].has('') && connection !== own?.[0]) yield [connection, mark, 0];
      }
    }
  }
}
