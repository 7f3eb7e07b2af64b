// Makes requests to /echo, and compares what came back with what is known: the fields of the request, as the server
// decoded them, and the fields of the answer, as the browser decoded them. Reports each difference to /report.
'use strict';

const REQUESTS = 150, AT_ONCE = 12, ABORTED = 20;
const wrong = [];
let compared = 0;

// Numbers that are the same in every run (mulberry32).
function generator(seed) {
  let state = seed >>> 0;
  return below => {
    state = (state + 0x6D2B79F5) >>> 0;
    let t = Math.imul(state ^ (state >>> 15), state | 1);
    t ^= t + Math.imul(t ^ (t >>> 7), t | 61);
    return ((t ^ (t >>> 14)) >>> 0) % below;
  };
}

const LETTERS = 'abcdefghijklmnopqrstuvwxyzABCDEFGHIJKLMNOPQRSTUVWXYZ0123456789-_.~!$&\'()*+;=:@/?%#[]{}<>|^`\\"';
const text = (random, length) => Array.from({length}, () => LETTERS[random(LETTERS.length)]).join('');

// Fields of all sorts: some repeat in every request, some seldom, some never; some are empty, some long.
function makeFields(prefix, random) {
  const fields = new Map([[prefix + 'same', 'the same in every message, 0123456789abcdefghijklmnopqrstuvwxyz']]);
  fields.set(prefix + 'id', random(2 ** 30).toString(16));
  for (let i = random(8); i > 0; i--) fields.set(prefix + random(30), 'value ' + random(6));
  if (random(4) === 0) fields.set(prefix + 'empty', '');
  if (random(3) === 0) fields.set(prefix + 'text', text(random, random(300)));
  if (random(20) === 0) fields.set(prefix + 'long', text(random, 9000));
  return fields;
}

function compare(what, expected, found) {
  compared++;
  if (expected !== found && wrong.length < 20) wrong.push(`${what}: ${JSON.stringify(found)} for ${JSON.stringify(expected)}`);
}

async function exchange(turn) {
  const random = generator(turn), sent = makeFields('x-q-', random), asked = makeFields('x-a-', random);
  const body = [...asked].map(([name, value]) => `${name}\t${value}\n`).join('');
  const path = `/echo?turn=${turn}&of=${'abcdefgh'[turn % 8].repeat(turn % 30)}`, cookie = document.cookie;
  const response = await fetch(path, {method: 'POST', headers: [...sent], body});
  const received = new Map(await response.json());
  for (const [name, value] of [...asked, ['content-type', 'application/json']])
    compare('answer ' + turn + ' ' + name, value.trim(), response.headers.get(name));
  for (const [name] of response.headers)
    if (name.startsWith('x-a-')) compare('answer ' + turn + ' ' + name, true, asked.has(name));
  const known = [
    ...sent, [':method', 'POST'], [':scheme', 'https'], [':authority', location.host], [':path', path],
    ['user-agent', navigator.userAgent], ['cookie', cookie]
  ];
  for (const [name, value] of known) compare('request ' + turn + ' ' + name, value.trim(), received.get(name));
  for (const name of received.keys())
    if (name.startsWith('x-q-')) compare('request ' + turn + ' ' + name, true, sent.has(name));
}

async function abort(turn) {
  const controller = new AbortController(), random = generator(turn);
  setTimeout(() => controller.abort(), random(15));
  try {
    const body = random(2) ? 'x'.repeat(200000) : '';
    const headers = [...makeFields('x-q-', random)];
    await fetch('/echo?aborted=' + turn, {method: 'POST', body, signal: controller.signal, headers});
  } catch (error) {
    if (error.name !== 'AbortError') wrong.push('abort ' + turn + ': ' + error);
  }
}

async function run(tasks) {
  const next = async () => {
    for (let task; (task = tasks.shift());) {
      try {
        await task();
      } catch (error) {
        wrong.push(String(error));
      }
    }
  };
  await Promise.all(Array.from({length: AT_ONCE}, next));
}

(async () => {
  document.cookie = 'visitor=' + text(generator(7), 32).replace(/[;,"\\ ]/g, '-') + '; path=/';
  const exchanges = Array.from({length: REQUESTS}, (_, turn) => () => exchange(turn));
  await run(exchanges.slice(0, REQUESTS / 2));
  await run(Array.from({length: ABORTED}, (_, turn) => () => abort(1000 + turn)));
  await run(exchanges.slice(REQUESTS / 2));
  const loaded = performance.getEntriesByType('resource').map(entry => entry.nextHopProtocol);
  const protocols = [...new Set(loaded.filter(name => name))];
  await fetch('/report', {method: 'POST', body: JSON.stringify({wrong, compared, protocols})});
})();
