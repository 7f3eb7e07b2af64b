// Packets of connections that began before a capture: each secret of the key log is tried. tool/qpk/strangers.py has the same
// rules.
'use strict';

const MOST_KEPT = 1 << 24; // bytes of packets that are kept until there are keys for them
const MOST_STRANGERS = 1 << 12; // pairs of addresses whose packets are kept so
const MOST_TRIES = 1 << 17; // of keys, ends and numbers of packets in a capture, where none is known
const TRIES_OF_KEYS = 16; // as many tries as making keys takes
const ENOUGH = 8; // short packets between two addresses that tell the length of their connection ID

// How many bytes are kept of a capture, and how much was tried.
class Room {
  constructor() { Object.assign(this, {keptBytes: 0, tries: 0}); }

  // Keeps a packet until there are keys, if there is room, and returns whether it does.
  keep(to, kept) {
    const size = kept.datagram.data.length;
    if (this.keptBytes + size > MOST_KEPT) return false;
    this.keptBytes += size;
    to.push(kept);
    return true;
  }

  // Notes that packets are kept no more.
  release(kept) {
    for (const it of kept) this.keptBytes -= it.datagram.data.length;
  }

  // Counts tries, and returns whether there are any left.
  mayTry(tries = 1) { return (this.tries += tries) <= MOST_TRIES; }
}

// The short packets of no known connection, by their addresses.
class Strangers {
  constructor(log, room) { Object.assign(this, {log, room, kept: new Map(), hopeless: new Set()}); }

  // Keeps a packet, and returns whether there are enough now to look for their keys.
  meet(pair, kept) {
    const isKnown = this.kept.has(pair) || this.kept.size < MOST_STRANGERS;
    if (this.hopeless.has(pair) || kept.datagram.isShort || !isKnown) return false;
    const strangers = takeOrMake(this.kept, pair, () => []);
    return this.room.keep(strangers, kept) && strangers.length % ENOUGH === 0;
  }

  // Returns the packets that were kept between two addresses, and keeps them no more.
  forget(pair) {
    const kept = this.kept.get(pair) ?? [];
    this.kept.delete(pair);
    this.room.release(kept);
    return kept;
  }

  // Forgets packets whose keys are not found, if there were enough, or nothing more is tried.
  giveUp(pair) {
    if (this.kept.get(pair).length <= ENOUGH && this.room.tries <= MOST_TRIES) return;
    this.forget(pair);
    if (this.hopeless.size < MOST_STRANGERS) this.hopeless.add(pair);
  }

  // Returns the keys of the packets between two addresses, if a secret gives them: {random, mark, keys, target}. The client's
  // random and the mark of the sender may be known.
  async find(pair, own) {
    for (const random of own ? [own[0]] : this.log.secrets.keys()) {
      for (const mark of own ? own[1] : '><') {
        const found = this.room.tries <= MOST_TRIES ? await this.trySecret(random, mark, this.kept.get(pair)) : null;
        if (found) return found;
      }
    }
    return null;
  }

  // Returns the keys that a secret gives, if they open one of some packets.
  async trySecret(random, mark, kept) {
    const secret = this.log.secretOf(random, mark);
    if (!secret) return null;
    const length = Math.min(commonLength(kept.map(it => it.datagram.data.subarray(1))), LONGEST_ID);
    const least = kept.length >= ENOUGH ? Math.max(length - 1, 0) : 0;
    for (const keys of await keysOf(secret, VERSIONS.values())) {
      this.room.mayTry(TRIES_OF_KEYS);
      for (const {datagram: {data}} of kept) {
        for (let size = length; size >= least; size--) {
          for await (const packet of keys.search(data, 0, 1 + size)) {
            if (packet) return {random, mark, keys, target: data.subarray(1, 1 + size)};
            if (!this.room.mayTry()) return null;
          }
        }
      }
    }
    return null;
  }
}

// Returns how many first bytes all of some have in common. One alone does not tell.
function commonLength(parts) {
  if (parts.length < 2) return LONGEST_ID;
  let length = Math.min(...parts.map(it => it.length));
  for (const part of parts) {
    const at = part.subarray(0, length).findIndex((byte, place) => byte !== parts[0][place]);
    if (at >= 0) length = at;
  }
  return length;
}
