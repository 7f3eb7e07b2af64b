// Keys of QUIC packets (RFC 9001, RFC 9369), by the browser's own ciphers, and the secrets of a key log. tool/qpk/keys.py has
// the same rules.
'use strict';

const SAMPLE = 16, TAG = 16; // bytes that mask a header, and bytes behind a payload
const BLOCK = 16; // bytes of a block of AES
const AES_128 = {
  digest: 'SHA-256',
  size: 16
};
const AES_256 = {
  digest: 'SHA-384',
  size: 32
};
const CHACHA20 = {
  digest: 'SHA-256',
  size: 32,
  isChacha: true
};
const AES_128_CCM = {
  digest: 'SHA-256',
  size: 16,
  isCcm: true
};
// By the length of a secret.
const SUITES = {
  32: [AES_128, CHACHA20, AES_128_CCM],
  48: [AES_256]
};
const SHORTEST = 4 + SAMPLE; // bytes of a packet from its number on
const MOST_SECRETS = 1 << 16; // connections of a key log that are kept; the others are left out
const LONGEST_SECRET = 64; // bytes
// How many upper parts of a packet number are tried where none is known, by the bytes written.
const UPPER_PARTS = {
  1: 256,
  2: 16,
  3: 2,
  4: 1
};
const AHEAD = 1; // generations of keys, after the newest that opened a packet, that are tried
const INITIAL = 'initial', EARLY = 'early', HANDSHAKE = 'handshake', RETRY = 'retry';
const VERSIONS = new Map([
  [
    1, {number: 1, salt: '38762cf7f55934b34d179ae6a4c80cadccbb7f0a', prefix: 'quic', types: [INITIAL, EARLY, HANDSHAKE, RETRY]}
  ],
  [
    0x6b3343cf, {
      number: 0x6b3343cf,
      salt: '0dede3def700a6db819381be6e269dcbf9bd2ed9',
      prefix: 'quicv2',
      types: [RETRY, INITIAL, EARLY, HANDSHAKE]
    }
  ],
]);
const NAMES_OF_SECRETS = {
  '>': 'CLIENT_TRAFFIC_SECRET_0',
  '<': 'SERVER_TRAFFIC_SECRET_0',
  [EARLY]: 'CLIENT_EARLY_TRAFFIC_SECRET'
};

async function hmac(secret, digest, data) {
  const key = await crypto.subtle.importKey('raw', secret, {name: 'HMAC', hash: digest}, false, ['sign']);
  return new Uint8Array(await crypto.subtle.sign('HMAC', key, data));
}

// Returns HKDF-Expand-Label of a secret, without a context (RFC 8446, section 7.1). One block of the hash is enough.
async function expand(secret, label, size, digest) {
  const name = encoder.encode(`tls13 ${label}`);
  return (await hmac(secret, digest, Uint8Array.of(size >> 8, size & 255, name.length, ...name, 0, 1))).slice(0, size);
}

// Returns the secrets of Initial packets, by the marks of their senders (RFC 9001, section 5.2). They are made of the connection
// ID that the client chose for the server.
async function initialSecrets(version, target) {
  const secret = await hmac(fromHex(version.salt), 'SHA-256', target);
  return {'>': await expand(secret, 'client in', 32, 'SHA-256'), '<': await expand(secret, 'server in', 32, 'SHA-256')};
}

// The secrets of connections, by their client's random, as SSLKEYLOGFILE names them.
class KeyLog {
  constructor() { Object.assign(this, {secrets: new Map(), lines: 0}); }

  // Takes the lines of a key log. Other lines are skipped.
  learn(text) {
    for (const line of text.split(/[\n\r]+/)) {
      const words = line.trim().split(/\s+/);
      if (words.length === 3 && !line.startsWith('#') && words.slice(1).every(isHex)) this.learnLine(...words);
    }
  }

  learnLine(name, random, digits) {
    this.lines++;
    if (!Object.values(NAMES_OF_SECRETS).includes(name) || digits.length > 2 * LONGEST_SECRET) return;
    const key = random.toLowerCase();
    if (this.secrets.has(key) || this.secrets.size < MOST_SECRETS)
      takeOrMake(this.secrets, key, () => ({}))[name] = fromHex(digits);
  }

  // Returns a secret of a connection: that of an end by its mark, or that of early data.
  secretOf(random, which) { return this.secrets.get(random)?.[NAMES_OF_SECRETS[which]] ?? null; }
}

function importedKey(suite, key) {
  if (suite.isChacha) return key;
  return suite.isCcm ? keysOfCcm(key) : crypto.subtle.importKey('raw', key, 'AES-GCM', false, ['decrypt']);
}

// Opens payloads by a key (RFC 9001, section 5.3).
class Payloads {
  static async of(suite, key, iv) {
    const made = new Payloads();
    return Object.assign(made, {suite, key: await importedKey(suite, key), iv});
  }

  // Returns the payload of the packet with a number, or nothing if the key does not open it.
  async open(number, head, sealed) {
    if (sealed.length < TAG) return null;
    const nonce = this.iv.slice();
    for (let at = 11, rest = number; at > 3; at--, rest = Math.floor(rest / 256)) nonce[at] ^= rest % 256;
    if (this.suite.isChacha) return openByChacha(this.key, nonce, head, sealed);
    if (this.suite.isCcm) return openByCcm(this.key, nonce, head, sealed);
    try {
      return new Uint8Array(await crypto.subtle.decrypt({name: 'AES-GCM', iv: nonce, additionalData: head}, this.key, sealed));
    } catch {
      return null;
    }
  }
}

// Returns the keys of AES-CCM, of which the browser has the parts: blocks that are counted, and blocks that are chained.
async function keysOfCcm(key) {
  return {
    counted: await crypto.subtle.importKey('raw', key, 'AES-CTR', false, ['decrypt']),
    chained: await crypto.subtle.importKey('raw', key, 'AES-CBC', false, ['encrypt']),
  };
}

// Opens what AES-CCM sealed with a nonce of 12 bytes and a tag of 16 (RFC 3610): lengths are of 3 bytes. The block with the
// count 0 masks the tag, which is the last one of a chain of the lengths, the head and the payload.
async function openByCcm(keys, nonce, head, sealed) {
  const size = sealed.length - TAG, masked = new Uint8Array(sealed.length);
  masked.set(sealed.subarray(size));
  masked.set(sealed.subarray(0, size), TAG);
  const counter = Uint8Array.of(2, ...nonce, 0, 0, 0);
  const clear = new Uint8Array(await crypto.subtle.decrypt({name: 'AES-CTR', counter, length: 24}, keys.counted, masked));
  const begin = BLOCK + wholeBlocks(2 + head.length), blocks = new Uint8Array(begin + wholeBlocks(size));
  blocks.set([0x7a, ...nonce, size >> 16, size >> 8 & 255, size & 255]);
  blocks.set([head.length >> 8, head.length & 255, ...head], BLOCK);
  blocks.set(clear.subarray(TAG), begin);
  const chain =
    new Uint8Array(await crypto.subtle.encrypt({name: 'AES-CBC', iv: new Uint8Array(BLOCK)}, keys.chained, blocks));
  const tag = chain.subarray(blocks.length - BLOCK);
  return clear.subarray(0, TAG).every((byte, at) => byte === tag[at]) ? clear.slice(TAG) : null;
}

// Returns the bytes of the blocks that as many bytes fill.
function wholeBlocks(size) { return Math.ceil(size / BLOCK) * BLOCK; }

// Makes the masks of headers by a key (RFC 9001, section 5.4). A block of AES alone is the first one of a chain of blocks.
class Masks {
  static async of(suite, key) {
    const imported = suite.isChacha ? key : await crypto.subtle.importKey('raw', key, 'AES-CBC', false, ['encrypt']);
    return Object.assign(new Masks(), {suite, key: imported});
  }

  async of(sample) {
    if (this.suite.isChacha) {
      return chacha(this.key, new DataView(sample.slice().buffer).getUint32(0, true), sample.subarray(4), new Uint8Array(5));
    }
    return new Uint8Array(await crypto.subtle.encrypt({name: 'AES-CBC', iv: new Uint8Array(16)}, this.key, sample));
  }
}

// Returns a packet number of which the last bytes were written (RFC 9000, appendix A.3).
function wholeNumber(written, size, largest) {
  const window = 256 ** size, expected = largest + 1, number = expected - expected % window + written;
  if (number <= expected - window / 2) return number + window;
  return number > expected + window / 2 && number >= window ? number - window : number;
}

// The keys of packets of one direction, and the numbers of those that they opened.
class Keys {
  static async of(secret, suite, version) {
    const made = Object.assign(new Keys(), {suite, version, largest: -1, newestSecret: secret, generation: 0});
    made.masks = await Masks.of(suite, await made.derive(secret, ' hp', suite.size));
    made.payloads = [await made.payloadsOf(secret)];
    return made;
  }

  derive(secret, label, size) { return expand(secret, this.version.prefix + label, size, this.suite.digest); }

  async payloadsOf(secret) {
    return Payloads.of(this.suite, await this.derive(secret, ' key', this.suite.size), await this.derive(secret, ' iv', 12));
  }

  // Returns what opens payloads of a generation. Each is made of the one before it; old ones are left out.
  async atGeneration(number) {
    while (this.payloads.length <= number) {
      this.newestSecret = await this.derive(this.newestSecret, ' ku', this.newestSecret.length);
      this.payloads.push(await this.payloadsOf(this.newestSecret));
    }
    return number >= 0 ? this.payloads[number] : null;
  }

  // Returns the header of a packet that begins at an offset, and whose packet number begins at another.
  async unmask(packet, begin, at) {
    if (packet.length < at + SHORTEST) return null;
    const mask = await this.masks.of(packet.subarray(at + 4, at + SHORTEST));
    const first = packet[begin] ^ mask[0] & (packet[begin] & 0x80 ? 0x0f : 0x1f), size = (first & 3) + 1;
    const head = packet.slice(begin, at + size);
    head[0] = first;
    for (let place = 0; place < size; place++) head[at - begin + place] ^= mask[1 + place];
    return {first, size, number: numberAt(head, at - begin, size), head};
  }

  // Returns the generations of keys that may open a packet, by its key phase bit (RFC 9001, section 6.3).
  generations({first}) {
    if (first & 0x80 || (first >> 2 & 1) === (this.generation & 1)) return [this.generation];
    return [this.generation + AHEAD, this.generation - 1];
  }

  // Opens a packet that begins at an offset, whose number begins at another, and that ends at one of some.
  async open(packet, begin, at, ends) {
    const header = await this.unmask(packet, begin, at);
    if (!header) return null;
    const number = wholeNumber(header.number, header.size, this.largest), generations = this.generations(header);
    for (const end of ends) {
      const payload = await this.openBy(header, number, packet.subarray(at + header.size, end), generations);
      if (payload) return {number, payload, end};
    }
    return null;
  }

  // Opens what is sealed in the packet with a number, by keys of one of some generations.
  async openBy(header, number, sealed, generations) {
    for (const generation of generations) {
      const payloads = await this.atGeneration(generation), payload = await payloads?.open(number, header.head, sealed);
      if (!payload) continue;
      this.note(number, generation);
      return payload;
    }
    return null;
  }

  // Notes what opened a packet. Keys older than those before these open no more.
  note(number, generation) {
    this.largest = Math.max(this.largest, number);
    if (generation <= this.generation) return;
    this.generation = generation;
    this.payloads.fill(null, 0, Math.max(generation - 1, 0));
  }

  // Tries to open a short packet, if many packets before it are not there. Yields each try. The upper bytes of its number are
  // not known, so small ones are tried. Before the first packet its generation is not known either.
  async * search(packet, begin, at) {
    const header = await this.unmask(packet, begin, at);
    if (!header || header.first & 0x18) return; // reserved bits, which are 0 (RFC 9000, section 17.3.1)
    const phase = header.first >> 2 & 1, generations = this.largest < 0 ? [phase, phase + 2] : this.generations(header);
    const window = 256 ** header.size;
    for (let number = header.number; number < window * UPPER_PARTS[header.size]; number += window) {
      const payload = await this.openBy(header, number, packet.subarray(at + header.size), generations);
      yield payload && {number, payload, end: packet.length};
      if (payload) return;
    }
  }
}

// Returns the keys that a secret may give, by the suites of its length.
async function keysOf(secret, versions) {
  const found = [];
  for (const version of versions)
    for (const suite of SUITES[secret.length] ?? []) found.push(await Keys.of(secret, suite, version));
  return found;
}
