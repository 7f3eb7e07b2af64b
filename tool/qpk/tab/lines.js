// The lines of a recording that have bytes. Which lines there may be is checked by what reads them.
'use strict';

const ENDS = {
  '>': 'client',
  '<': 'server',
  '': ''
};
const PEER = {
  '>': '<',
  '<': '>',
  '': ''
};
const OTHER = {
  client: 'server',
  server: 'client',
  '': ''
};
// What is before the bytes: a time; a mark; the kind; of a section its stream. And the words of hexadecimal.
const LINE = /^\s*(?:@\S*\s+)?(?:([<>])\s*)?([edb])(?:(?<=b)\s+(\S+))?(?!\S)(.*)/;

// Yields the lines of a text that have bytes: {line, end, kind, data, stream}.
function* piecesOf(text) {
  let number = 0;
  for (const line of text.split('\n')) {
    number++;
    const found = LINE.exec(line);
    if (!found) continue;
    const digits = found[4].replace(/\b0[xX]|[:\s]/g, '');
    yield {line: number, end: ENDS[found[1] ?? ''], kind: found[2], data: fromHex(digits), stream: found[3] ?? ''};
  }
}
