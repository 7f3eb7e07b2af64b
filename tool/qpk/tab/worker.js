// Reads files in a worker, so that the page can be used meanwhile. A message has the files, each with the number of its drop, and the
// module of the program if there is one. The answer is the data of the page, or a fault. Or a message has what was typed.
'use strict';

const MOST_ON_A_PAGE = 64; // connections of a file
const BY_SCRIPT =
  'JavaScript read this, and not the proved program. It does not look for what an end may do and should not: qpk ' +
  'check finds that.';

let program = null; // once it was compiled

// Returns what runs the program, which is compiled once.
function loadOnce(module) { return program ??= loadQpk(module); }

// Returns the reader of recordings: the proved program, or without it JavaScript.
async function chooseReader(module) { return module ? new ProvedReader(await loadOnce(module)) : new ScriptReader(); }

// Returns the newest file that is no key log, as its name and its bytes. Key logs are learned.
async function chooseSource(files, log) {
  const sources = [];
  for (const {file, drop} of files) {
    const bytes = await openFile(file);
    if (isKeyLog(bytes)) log.learn(decoder.decode(bytes));
    else sources.push({name: file.name, bytes, drop});
  }
  if (!sources.length) throw new Refusal('these are key logs alone: choose the capture or the net log too');
  const newest = Math.max(...sources.map(it => it.drop)), found = sources.filter(it => it.drop === newest);
  if (found.length > 1) throw new Refusal(`these are ${found.length} files: choose one, and its key log`);
  return found[0];
}

// Returns the data of files: one that is read, and key logs.
async function readFiles(files, module) {
  const log = new KeyLog(), {name, bytes} = await chooseSource(files, log);
  const {connections, said} = await readSource(name, bytes, log), maker = new DataMaker(await chooseReader(module));
  const shown = connections.slice(0, MOST_ON_A_PAGE), others = connections.length - shown.length;
  if (others) said.push(`connections after the first ${MOST_ON_A_PAGE} are left out: ${others}`);
  for (const it of shown) await maker.add(it);
  const data = maker.finish();
  if (!module)
    for (const it of data.connections) it.left_out.push(BY_SCRIPT);
  return {data, said};
}

// Returns what is wrong, and what to do.
function reasonOf(error) {
  if (error instanceof Refusal) return error.message;
  return `it can't be read (${error.message}): choose a recording, a capture, a net log or a trace`;
}

onmessage = async ({data: {files, typed, module}}) => {
  const number = typed?.number;
  try {
    postMessage(typed ? {...await readTyped(typed), number} : await readFiles(files, module));
  } catch (error) {
    postMessage({fault: reasonOf(error), number});
  }
};
