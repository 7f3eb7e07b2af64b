// Runs a batch of cases over modules, by dist/qpk_wasm64.js, in Node or in a page:
//   node tests/wasm64/batch.js BATCH OUTCOMES MODULE..
// A batch is numbers of 32 bits, the lowest byte first, and bytes, each behind their length. A case is the number of its
// module, that of its words, each word, and the input. Its outcome is the status, the output, and what was said on standard
// error. Where a run stops, the status is 2^31, and the reason is in the place of what was said. A case of the library's
// module is its input, lists that are sent through it.
'use strict';

const STOPPED = 2 ** 31;

async function runBatch(batch, modules) {
  const programs = [];
  for (const bytes of modules) programs.push(await isProgram(bytes) ? await loadQpk(bytes) : asProgram(bytes));
  const view = new DataView(batch.buffer, batch.byteOffset, batch.length);
  const parts = [];
  let at = 0;
  const readNumber = () => view.getUint32((at += 4) - 4, true);
  const readBytes = () => {
    const len = readNumber();
    return batch.subarray(at, at += len);
  };
  const putNumber = number => parts.push(new Uint8Array(Uint32Array.of(number).buffer));
  while (at < batch.length) {
    const program = programs[readNumber()];
    const words = Array.from({length: readNumber()}, readBytes);
    const {status, output, error} = await runCase(program, words, readBytes());
    putNumber(status);
    for (const bytes of [output, error]) {
      putNumber(bytes.length);
      parts.push(bytes);
    }
  }
  return parts;
}

async function isProgram(bytes) {
  return WebAssembly.Module.exports(await WebAssembly.compile(bytes)).some(({name}) => name === 'qpk_run');
}

// Returns what runs the library's module as a program is run.
function asProgram(bytes) {
  return {
    async run(words, input) {
      const output = new TextEncoder().encode(await sendLists(bytes, input));
      return {status: 0, output, error: new Uint8Array()};
    },
  };
}

async function runCase(program, words, input) {
  try {
    return await program.run(words, input);
  } catch (why) {
    return {status: STOPPED, output: new Uint8Array(), error: new TextEncoder().encode(why.message)};
  }
}

// Fetches the batch and the modules of a page, and sends the outcomes back.
async function runPage(count) {
  const fetchBytes = async path => new Uint8Array(await (await fetch(path)).arrayBuffer());
  try {
    const modules = [];
    for (let i = 0; i < count; i++) modules.push(await fetchBytes(`/module/${i}`));
    await fetch('/outcomes', {method: 'POST', body: new Blob(await runBatch(await fetchBytes('/batch'), modules))});
  } catch (why) {
    await fetch('/failed', {method: 'POST', body: String(why)});
  }
}

async function runNode([batch, outcomes, ...modules]) {
  const {readFileSync, writeFileSync} = require('fs');
  Object.assign(globalThis, require('../../dist/qpk_wasm64.js'), require('./library.js'));
  writeFileSync(outcomes, Buffer.concat(await runBatch(readFileSync(batch), modules.map(it => readFileSync(it)))));
}

if (typeof window === 'undefined') {
  runNode(process.argv.slice(2)).catch(why => {
    console.error(why.message);
    process.exitCode = 1;
  });
}
