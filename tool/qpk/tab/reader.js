// Reads recordings by the program qpk, which is proved, as a module for WebAssembly.
'use strict';

class ProvedReader {
  constructor(qpk) {
    this.qpk = qpk;
    this.encode = qif => this.sizes(qif);
  }

  show(text) { return this.run(['show', '--json', '-'], text, [0, 2]); }

  check(text) { return this.run(['check', '--json', '-'], text, [0, 1]); }

  // Runs a command on a text. Returns the objects that it prints, a line each, as they are asked for.
  async run(words, text, statuses) {
    const {status, output, error} = await this.qpk.run(words, text), said = decoder.decode(error).trim().replace(/^qpk: /, '');
    if (!statuses.includes(status) || status === 1 && said) throw new Refusal(said || `qpk ended with status ${status}`);
    return objectsOf(output);
  }

  // Returns how many bytes the section of each list of QIF has, without a dynamic table.
  async sizes(qif) {
    const {status, output} = await this.qpk.run(['encode', '--qif', '0', '0', '0'], qif), found = [];
    if (status !== 0) throw new Refusal(`qpk ended with status ${status}`);
    for (let at = 0; at < output.length; at += 12 + numberAt(output, at + 8, 4)) {
      if (numberAt(output, at, 8)) found.push(numberAt(output, at + 8, 4));
    }
    return found;
  }
}

// Yields the objects that lines of JSON are.
function* objectsOf(bytes) {
  for (let at = 0; at < bytes.length;) {
    let end = bytes.indexOf(10, at);
    if (end < 0) end = bytes.length;
    if (end > at) yield JSON.parse(decoder.decode(bytes.subarray(at, end)));
    at = end + 1;
  }
}
