// Reads the QUIC packets in the datagrams of a capture. A connection is found by the connection IDs of its packets, and else by
// the addresses of its ends. Its keys are those of the client's random, which Initial packets have. tool/qpk/reader.py has the
// same rules.
'use strict';

const MOST_CONNECTIONS = 1 << 12; // that are read; Initial packets of more are left out
const LEAST_SEGMENT = 1200, MOST_SEGMENT = 1500; // bytes of a datagram of those that were captured as one
const MOST_SIZES = 8; // of these datagrams, between two addresses

function orderOfTimes(one, other) { return one.time < other.time ? -1 : Number(one.time > other.time); }

class PacketReader {
  constructor(log) {
    if (!crypto.subtle) throw new Refusal('this page can decrypt nothing here: open it as a file, or over HTTPS');
    const room = new Room();
    Object.assign(this, {log, room, connections: [], owners: new Owners(), strangers: new Strangers(log, room)});
    Object.assign(this, {early: new Map(), sizes: new Map(), firstTime: null, others: new Set(), quic: 0, leftOut: 0});
  }

  // Reads a datagram.
  async read(time, datagram) {
    this.firstTime ??= time;
    this.quic += datagram.data.length > SHORTEST && (datagram.data[0] & FIXED_BIT) !== 0;
    await this.readFrom(time, datagram, 0);
  }

  // Reads the packets of a datagram from an offset on.
  async readFrom(time, datagram, begin) {
    const {data} = datagram;
    while (begin < data.length) {
      const end = isLong(data, begin) ? await this.readLong(time, datagram, begin) :
                                        await this.readShort(time, datagram, begin) || endOfFilling(data, begin);
      if (!end) return this.noteUnread(time, datagram, begin);
      begin = end;
    }
  }

  // Counts a packet that no key opens, or keeps it if it is of no connection.
  async noteUnread(time, datagram, begin) {
    const [connection, mark] = this.ownerOf(datagram, begin) ?? [];
    if (connection && !(connection.isLate && !connection.candidates[mark])) connection.fail(mark);
    else if (!begin && !isLong(datagram.data, begin)) await this.meet({time, datagram, begin});
  }

  // Returns the connection that a packet is of, as its addresses or its connection ID tell.
  ownerOf(datagram, begin) {
    const own = this.owners.byPair.get(pairOf(datagram));
    if (own || isLong(datagram.data, begin)) return own ?? null;
    return this.owners.ofShort(datagram, begin).next().value ?? null;
  }

  // ---- Long headers

  // Reads a packet with a long header, and returns where it ends, or 0.
  async readLong(time, datagram, begin) {
    const header = readLongHeader(datagram.data, begin);
    if (!header) {
      this.noteVersion(datagram.data, begin);
      return 0;
    }
    let found = this.owners.findById(header.target) ?? this.owners.byPair.get(pairOf(datagram)) ?? null;
    if (header.kind === INITIAL) found = await this.readInitial(datagram, begin, header, found);
    if (!found) {
      if (header.kind === EARLY) this.room.keep(takeOrMake(this.early, pairOf(datagram), () => []), {time, datagram, begin});
      return header.end;
    }
    const [connection, mark] = found;
    if (!connection.versions.includes(header.version)) connection.versions.push(header.version);
    this.owners.join(datagram, connection, mark);
    if (header.kind === RETRY && !connection.isAnswered) connection.begin(header.version, header.source);
    this.owners.name(connection, PEER[mark], header.source);
    if (header.kind === EARLY) await this.readEarly({time, datagram, begin}, header, connection);
    if (connection.random && connection.kept.length) await this.readKept(connection);
    return header.end;
  }

  // Notes the version of a packet that can't be read, if it is one.
  noteVersion(data, begin) {
    const number = numberAt(data, begin + 1, 4);
    if (data.length >= LEAST_SEGMENT && number && !VERSIONS.has(number) && this.others.size < ENOUGH) this.others.add(number);
  }

  // Reads an Initial packet, and returns its connection, which it may begin, and the mark of its sender.
  async readInitial(datagram, begin, header, found) {
    const {data} = datagram, ends = [header.end];
    if (found) {
      const packet = await (await found[0].initialKeys(found[1], header.version)).open(data, begin, header.numberAt, ends);
      if (packet) {
        this.takeInitial(...found, packet);
        return found;
      }
    }
    const keys = await Keys.of((await initialSecrets(header.version, header.target))['>'], AES_128, header.version);
    const packet = await keys.open(data, begin, header.numberAt, ends);
    if (!packet) return found;
    if (!found || found[1] === '<' || found[0].isAnswered) {
      found = this.beginConnection(datagram);
      if (!found) return null;
    }
    found[0].begin(header.version, header.target); // after a Retry again, whose packet may be missing
    this.owners.name(found[0], '>', header.target);
    this.takeInitial(found[0], '>', packet);
    return found;
  }

  // Begins a connection. One before it between the same ends is over. Packets that came before it may be its own.
  beginConnection(datagram) {
    if (this.connections.length >= MOST_CONNECTIONS) {
      this.leftOut++;
      return null;
    }
    const connection = new QuicConnection(datagram.source, datagram.target), pair = pairOf(datagram);
    this.connections.push(connection);
    this.owners.forget(datagram);
    const early = this.early.get(pair) ?? [];
    this.early.delete(pair);
    this.room.release(early);
    for (const it of [...early, ...this.forget(datagram)].sort(orderOfTimes)) this.room.keep(connection.kept, it);
    return [connection, '>'];
  }

  takeInitial(connection, mark, packet) {
    if (mark === '>') connection.takeHello(packet.payload);
    else connection.isAnswered = true;
  }

  // Reads a packet of early data, or keeps it until the client's random is known.
  async readEarly(kept, header, connection) {
    if (!connection.random) {
      this.room.keep(connection.kept, kept);
      return;
    }
    for (const keys of await connection.keys(EARLY, this.log)) {
      const packet = await keys.open(kept.datagram.data, kept.begin, header.numberAt, [header.end]);
      if (!packet) continue;
      connection.choose(EARLY, keys);
      connection.take({...kept, time: kept.time - this.firstTime}, '>', packet);
      return;
    }
  }

  // Reads the packets that were kept.
  async readKept(connection) {
    const {kept} = connection;
    connection.kept = [];
    this.room.release(kept);
    for (const it of kept) {
      if (!isLong(it.datagram.data, it.begin)) await this.readShort(it.time, it.datagram, it.begin);
      else {
        const header = readLongHeader(it.datagram.data, it.begin);
        if (header) await this.readEarly(it, header, connection);
      }
    }
  }

  // ---- Short headers

  // Reads a packet with a short header, and returns where it ends, or 0.
  async readShort(time, datagram, begin) {
    for (const [connection, mark, length] of this.owners.ofShort(datagram, begin)) {
      if (connection.isLate && !connection.candidates[mark]) continue; // its keys are looked for
      if (!connection.random) {
        this.room.keep(connection.kept, {time, datagram, begin});
        return datagram.data.length;
      }
      const packet = await this.openShort(connection, mark, datagram, begin, length);
      if (!packet) continue;
      this.owners.join(datagram, connection, mark);
      if (!connection.ids[mark].size)
        this.owners.name(connection, mark, datagram.data.subarray(begin + 1, begin + 1 + length));
      connection.take({time: time - this.firstTime, datagram, begin}, mark, packet);
      while (connection.newIds.length) this.owners.name(connection, ...connection.newIds.pop());
      return packet.end;
    }
    return 0;
  }

  // Opens a short packet with a connection ID of some length by the keys of an end.
  async openShort(connection, mark, datagram, begin, length) {
    const {data} = datagram, at = begin + 1 + length, pair = pairOf(datagram);
    for (const keys of await connection.keys(mark, this.log)) {
      let packet = await keys.open(data, begin, at, this.likelyEnds(pair, data, begin, length));
      if (!packet && connection.inARow[mark] < ENOUGH)
        packet = await this.openAfterGap(connection, mark, keys, data, begin, at);
      if (!packet) continue;
      connection.choose(mark, keys);
      if (!begin && packet.end < data.length) {
        const sizes = takeOrMake(this.sizes, pair, () => new Set());
        if (sizes.size < MOST_SIZES) sizes.add(packet.end);
      }
      return packet;
    }
    return null;
  }

  // Opens a short packet that is captured with others as one, or comes after many that are not in the capture.
  async openAfterGap(connection, mark, keys, data, begin, at) {
    if (data.length - begin > LEAST_SEGMENT) {
      const packet = await keys.open(data, begin, at, this.possibleEnds(data, begin));
      if (packet) return packet;
    }
    const {largest} = keys, known = connection.acknowledged[mark].lasts.at(-1);
    if (known > largest) {
      keys.largest = known; // the peer tells of packets that are not here
      const packet = await keys.open(data, begin, at, [data.length]);
      if (packet) return packet;
      keys.largest = largest;
    }
    if (largest < 0) return null;
    for await (const packet of keys.search(data, begin, at))
      if (packet || !this.room.mayTry()) return packet;
    return null;
  }

  // Yields where a short packet may end: with the datagram, or before another one that was captured with it.
  * likelyEnds(pair, data, begin, length) {
    for (const size of this.sizes.get(pair) ?? []) {
      const end = (Math.floor(begin / size) + 1) * size;
      if (end < data.length) yield end;
    }
    yield data.length;
    if (length < 4) return;
    const target = data.subarray(begin + 1, begin + 1 + length);
    for (let at = placeOf(data, target, begin + 1 + length); at > 0 && this.room.mayTry(); at = placeOf(data, target, at + 1))
      yield at - 1;
  }

  // Yields where a short packet may end, if nothing tells how long the datagrams are that were captured as one.
  * possibleEnds(data, begin) {
    for (let end = Math.min(data.length - 1, begin + MOST_SEGMENT); end >= begin + LEAST_SEGMENT; end--) {
      if (!this.room.mayTry()) return;
      yield end;
    }
  }

  // ---- Connections without their first packets

  // Keeps a short packet of no connection. Looks for its keys once there are enough between its addresses.
  async meet(kept) {
    if (this.strangers.meet(pairOf(kept.datagram), kept)) await this.findKeys(kept.datagram);
  }

  // Returns the packets that were kept between two addresses, in both directions, in the order of their times.
  forget(datagram) {
    return [...this.strangers.forget(pairOf(datagram)), ...this.strangers.forget(peerPairOf(datagram))].sort(orderOfTimes);
  }

  // Looks for the keys of short packets between two addresses, and reads these if it finds them.
  async findKeys(datagram) {
    const [pair, back] = [pairOf(datagram), peerPairOf(datagram)], own = this.owners.byPair.get(pair);
    const found = await this.strangers.find(pair, own ? [own[0].random, own[1]] : null);
    if (!found || !this.beginLate(found, datagram)) {
      this.strangers.giveUp(pair);
      return;
    }
    if (this.strangers.kept.has(back)) {
      const other = await this.strangers.find(back, [found.random, PEER[found.mark]]);
      if (other) this.beginLate(other, {source: datagram.target, target: datagram.source});
    }
    for (const it of this.forget(datagram)) await this.readFrom(it.time, it.datagram, it.begin);
  }

  // Begins a connection whose first packets are not in the capture, or goes on with it. Returns whether it does.
  beginLate({random, mark, keys, target}, datagram) {
    let connection = this.connections.find(it => it.random === random);
    if (!connection) {
      if (this.connections.length >= MOST_CONNECTIONS) {
        this.leftOut++;
        return false;
      }
      const {source, target: other} = datagram;
      connection = mark === '>' ? new QuicConnection(source, other) : new QuicConnection(other, source);
      Object.assign(connection, {random, isLate: true, versions: [keys.version]});
      this.connections.push(connection);
    }
    connection.choose(mark, keys);
    this.owners.join(datagram, connection, mark);
    this.owners.name(connection, mark, target);
    return true;
  }

  // ---- What was read

  // Looks for the keys of what is left, once all packets came. Counts the packets that no key opened.
  async finish() {
    for (const [pair, [first]] of Array.from(this.strangers.kept))
      if (this.strangers.kept.has(pair)) await this.findKeys(first.datagram);
    for (const connection of this.connections) {
      for (const {datagram} of connection.kept) connection.fail(datagram.target === connection.server ? '>' : '<');
    }
  }

  // Yields the connections of which a packet was opened.
  * connectionsRead() {
    for (const [number, it] of this.connections.entries()) {
      if (!it.isRead) continue;
      const seen = {ends: {'>': it.seenOf('>'), '<': it.seenOf('<')}, isLate: it.isLate};
      yield {
        number,
        name: `connection ${number}, ${it.client} > ${it.server}`,
        lines: it.lines,
        packets: it.packets,
        streams: it.streams.numbers(),
        missing: [...it.streams.gaps(), ...it.faults],
        seen
      };
    }
  }
}

// Returns where the zeros end that fill a datagram behind its packets, or 0 if there are none.
function endOfFilling(data, begin) {
  let end = begin;
  while (begin && data[end] === 0) end++;
  return end > begin ? end : 0;
}

// Returns where some bytes are in others from an offset on, or -1.
function placeOf(data, wanted, from) {
  for (let at = data.indexOf(wanted[0], from); at >= 0; at = data.indexOf(wanted[0], at + 1)) {
    if (isEqual(data.subarray(at, at + wanted.length), wanted)) return at;
  }
  return -1;
}
