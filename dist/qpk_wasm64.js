// Runs the program qpk in a page, a worker or Node, from the module qpk-wasm64.wasm. Nothing leaves the page: the module
// imports nothing, so it reads the words and the input of a run, and writes its output.
//
//   const qpk = await loadQpk(await (await fetch('qpk-wasm64.wasm')).arrayBuffer());
//   const {status, output, error} = await qpk.run(['decode', '42'], '0000d1');
//
// A word and the input are each a text, or bytes as a Uint8Array. The output and the error are bytes, as is written to
// standard output and standard error: new TextDecoder().decode(output) is the text. Each run has memory of its own, of at
// most a gigabyte, which ends with it.
'use strict';

// The smallest module with a memory of 64 bits.
const WITH_MEMORY64 = Uint8Array.of(0, 0x61, 0x73, 0x6d, 1, 0, 0, 0, 5, 3, 1, 4, 1);
const NO_MEMORY64 = 'qpk needs WebAssembly with 64-bit memory: Chromium 133, Firefox 134 or Node 24, or a later one';

// Returns what runs the program of a module, which is given as bytes. Fails in one line without 64-bit memory.
async function loadQpk(bytes) {
  if (typeof WebAssembly !== 'object' || !WebAssembly.validate(WITH_MEMORY64)) throw new Error(NO_MEMORY64);
  const module = await WebAssembly.compile(bytes);
  return {
    // Runs the program once. Returns its status, and the bytes of its output and of what it says on standard error. Fails
    // if a word has a zero byte, if memory does not hold the input, or if the program stops.
    async run(words, input = '') {
      const given = [joinWords(['qpk', ...words].map(toBytes)), toBytes(input)];
      const {exports} = await WebAssembly.instantiate(module);
      const lengths = given.map(it => it.length);
      let at = Number(exports.qpk_begin(...lengths.map(BigInt)));
      if (!at) throw new Error(`qpk has no memory for an input of ${lengths[1]} bytes: pass a shorter one`);
      for (const part of given) {
        new Uint8Array(exports.memory.buffer, at, part.length).set(part);
        at += part.length;
      }
      let status;
      try {
        status = exports.qpk_run();
      } catch (why) {
        throw new Error(`qpk stopped (${why.message}): ${new TextDecoder().decode(written(exports, 2))}`);
      }
      return {status, output: written(exports, 1), error: written(exports, 2)};
    },
  };
}

// Returns a copy of what a run wrote to a descriptor.
function written(exports, descriptor) {
  const len = Number(exports.qpk_writtenlen(descriptor));
  return new Uint8Array(exports.memory.buffer, Number(exports.qpk_written(descriptor)), len).slice();
}

function toBytes(text) { return typeof text === 'string' ? new TextEncoder().encode(text) : text; }

// Returns words in one piece, each with a zero behind it.
function joinWords(words) {
  if (words.some(word => word.includes(0))) throw new Error('qpk takes no word with a zero byte: leave it out');
  const joined = new Uint8Array(words.reduce((sum, word) => sum + word.length + 1, 0));
  let at = 0;
  for (const word of words) {
    joined.set(word, at);
    at += word.length + 1;
  }
  return joined;
}

if (typeof module === 'object') module.exports = {loadQpk};
