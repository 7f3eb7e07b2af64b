// Bytes as hexadecimal, in one piece, and the integers of QUIC.
'use strict';

// What a file has that can't be read, with what to do.
class Refusal extends Error {}

// More bytes are needed.
const NOT_WHOLE = new Error('more bytes are needed');

const EMPTY = new Uint8Array(0);
const HEX = Array.from({length: 256}, (_, byte) => byte.toString(16).padStart(2, '0'));
const encoder = new TextEncoder(), decoder = new TextDecoder();

function toHex(bytes) {
  let text = '';
  for (const byte of bytes) text += HEX[byte];
  return text;
}

const DIGITS = new Uint8Array(128); // their values, by their codes
for (const [code, digit] of Array.from('0123456789abcdef').entries()) {
  DIGITS[digit.charCodeAt(0)] = DIGITS[digit.toUpperCase().charCodeAt(0)] = code;
}

// Returns the bytes of digits, which are two for each.
function fromHex(text) {
  const bytes = new Uint8Array(text.length >> 1);
  for (let at = 0; at < bytes.length; at++)
    bytes[at] = DIGITS[text.charCodeAt(2 * at)] << 4 | DIGITS[text.charCodeAt(2 * at + 1)];
  return bytes;
}

function isHex(text) { return text.length % 2 === 0 && /^[0-9a-fA-F]*$/.test(text); }

// Returns parts in one piece.
function joined(parts) {
  if (parts.length === 1) return parts[0];
  const whole = new Uint8Array(parts.reduce((sum, it) => sum + it.length, 0));
  let at = 0;
  for (const it of parts) {
    whole.set(it, at);
    at += it.length;
  }
  return whole;
}

function isEqual(one, other) { return one.length === other.length && one.every((byte, at) => byte === other[at]); }

function beginsWith(bytes, digits) { return toHex(bytes.subarray(0, digits.length / 2)) === digits; }

// Returns the number that some bytes are, the highest first.
function numberAt(bytes, at, size) {
  let number = 0;
  for (let end = at + size; at < end; at++) number = number * 256 + (bytes[at] ?? 0);
  return number;
}

// Returns the integer of variable length at an offset, and the offset after it (RFC 9000, section 16). One above 2^53 is
// rounded: no place of a file is that large.
function readInteger(bytes, at) {
  if (at >= bytes.length) throw NOT_WHOLE;
  const size = 1 << (bytes[at] >> 6);
  if (at + size > bytes.length) throw NOT_WHOLE;
  let number = bytes[at] & 0x3f;
  for (let next = at + 1; next < at + size; next++) number = number * 256 + bytes[next];
  return [number, at + size];
}

// Takes something for a key, and makes it if it is not there.
function takeOrMake(map, key, make) {
  let found = map.get(key);
  if (found === undefined) map.set(key, found = make());
  return found;
}
