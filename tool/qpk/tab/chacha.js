// ChaCha20 and Poly1305 (RFC 8439), which browsers do not have for scripts.
'use strict';

const PRIME = (1n << 130n) - 5n, LAST_16 = (1n << 128n) - 1n;
const CLAMP = 0x0ffffffc0ffffffc0ffffffc0fffffffn; // of the key of Poly1305 (section 2.5)

// Returns the block of 64 bytes of a key for a counter and a nonce (section 2.3).
function chachaBlock(key, counter, nonce) {
  const words = new Uint32Array(16), view = new DataView(new ArrayBuffer(48));
  [...key, ...nonce].forEach((byte, at) => view.setUint8(at, byte));
  words.set([0x61707865, 0x3320646e, 0x79622d32, 0x6b206574]);
  for (let at = 0; at < 8; at++) words[4 + at] = view.getUint32(4 * at, true);
  words[12] = counter;
  for (let at = 0; at < 3; at++) words[13 + at] = view.getUint32(32 + 4 * at, true);
  const state = words.slice();
  const turn = (a, b, bits) => state[a] << bits | state[a] >>> (32 - bits);
  const quarter = (a, b, c, d) => {
    for (const [one, other, third, bits] of [[a, b, d, 16], [c, d, b, 12], [a, b, d, 8], [c, d, b, 7]]) {
      state[one] += state[other];
      state[third] ^= state[one];
      state[third] = turn(third, 0, bits);
    }
  };
  for (let round = 0; round < 10; round++) {
    for (let at = 0; at < 4; at++) quarter(at, 4 + at, 8 + at, 12 + at);
    for (let at = 0; at < 4; at++) quarter(at, 4 + (at + 1) % 4, 8 + (at + 2) % 4, 12 + (at + 3) % 4);
  }
  const out = new DataView(new ArrayBuffer(64));
  state.forEach((word, at) => out.setUint32(4 * at, word + words[at], true));
  return new Uint8Array(out.buffer);
}

// Returns bytes with the stream of a key over them, from a counter on (section 2.4).
function chacha(key, counter, nonce, bytes) {
  const out = bytes.slice();
  for (let at = 0; at < out.length; at += 64) {
    const block = chachaBlock(key, counter++, nonce);
    for (let place = 0; place < 64 && at + place < out.length; place++) out[at + place] ^= block[place];
  }
  return out;
}

// Returns the number that bytes are, the lowest first.
function littleNumber(bytes) { return bytes.length ? BigInt(`0x${toHex(bytes.slice().reverse())}`) : 0n; }

// Returns the tag of a message (section 2.5).
function poly1305(key, message) {
  const factor = littleNumber(key.subarray(0, 16)) & CLAMP;
  let sum = 0n;
  for (let at = 0; at < message.length; at += 16) {
    const part = message.subarray(at, at + 16);
    sum = (sum + littleNumber(part) + (1n << BigInt(8 * part.length))) * factor % PRIME;
  }
  return sum + littleNumber(key.subarray(16, 32)) & LAST_16;
}

// Returns what was sealed, or nothing if the key does not open it (section 2.8).
function openByChacha(key, nonce, head, sealed) {
  const text = sealed.subarray(0, sealed.length - 16), lengths = new DataView(new ArrayBuffer(16));
  const filling = bytes => new Uint8Array((16 - bytes.length % 16) % 16);
  lengths.setUint32(0, head.length, true);
  lengths.setUint32(8, text.length, true);
  const message = joined([head, filling(head), text, filling(text), new Uint8Array(lengths.buffer)]);
  const tag = poly1305(chachaBlock(key, 0, nonce), message);
  return tag === littleNumber(sealed.subarray(text.length)) ? chacha(key, 1, nonce, text) : null;
}
