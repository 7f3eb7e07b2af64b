// What a file is, and which connections are in it. tool/qpk/source.py has the same rules.
'use strict';

const MOST_FILE = 1 << 28; // bytes of a file that is read, and of what is compressed in it
const MOST_SECONDS = 120; // by the clock for the packets of a file; what comes later is left out
const GZIP = '1f8b08', XZ = 'fd377a58', ZSTD = '28b52ffd';
const KEY_LOG = /^(#[^\n]*\n|\s)*(CLIENT|SERVER|EXPORTER|EARLY_EXPORTER)_[A-Z_0-9]+ [0-9a-fA-F]+ [0-9a-fA-F]+/;
const HEAD = 1 << 12; // bytes of a file that tell whether it is a key log
const CAPTURE_AGAIN = "capture again with `dumpcap -s 0 -f 'udp port 443'`";

// Returns the bytes of a file. What is compressed in it takes its place, to where that is cut or damaged.
async function openFile(file) {
  const tooLong = new Refusal(`${file.name} is longer than ${MOST_FILE} bytes: choose a part of it, or read it by qpk report`);
  if (file.size > MOST_FILE) throw tooLong;
  const bytes = new Uint8Array(await file.arrayBuffer());
  for (const [magic, name] of [[XZ, 'xz'], [ZSTD, 'zstd']]) {
    if (beginsWith(bytes, magic))
      throw new Refusal(`${file.name} is compressed by ${name}: decompress it first, or read it by qpk report`);
  }
  if (!beginsWith(bytes, GZIP)) return bytes;
  const parts = [], reader = new Blob([bytes]).stream().pipeThrough(new DecompressionStream('gzip')).getReader();
  let size = 0;
  try {
    for (let {value, done} = await reader.read(); !done; {value, done} = await reader.read()) {
      parts.push(value);
      size += value.length;
      if (size > MOST_FILE) break;
    }
  } catch (error) {
    if (!(error instanceof TypeError)) throw error; // of what is damaged
  }
  if (size > MOST_FILE) throw tooLong;
  if (!size) throw new Refusal(`${file.name} can't be decompressed, or has nothing in it: choose another file`);
  return joined(parts);
}

function isKeyLog(bytes) { return KEY_LOG.test(decoder.decode(bytes.subarray(0, HEAD))); }

// Returns the connections of a file, as {number, name, text, lines, packets, streams, seen}, and what is to be said of it.
async function readSource(name, bytes, log) {
  if (isCapture(bytes)) return readCapture(bytes, log);
  const text = decoder.decode(bytes);
  if (NET_LOG.test(text.slice(0, HEAD))) return readNetLog(text, log);
  if (isTrace(bytes)) return readTrace(text);
  return {connections: [{number: null, name, text, lines: [], packets: [], streams: {}, seen: null}], said: []};
}

// Whether the packets that began to be read at a time take too long.
function isLate(begun) { return performance.now() - begun > 1000 * MOST_SECONDS; }

async function readCapture(bytes, log) {
  const begun = performance.now();
  const capture = new Capture(bytes, text => log.learn(text)), datagrams = new Datagrams(), reader = new PacketReader(log);
  for (const packet of capture.packets()) {
    if (isLate(begun)) {
      capture.damage = `the packets took longer than ${MOST_SECONDS} seconds, so those from ${packet.number} on are left out`;
      break;
    }
    reader.firstTime ??= packet.time;
    const datagram = datagrams.ofPacket(packet.link, packet.data);
    if (datagram) await reader.read(packet.time, {...datagram, packet: packet.number});
  }
  const said = [capture.damage, capture.cut ? cutPackets(capture) : ''].filter(it => it);
  return finished(reader, log, said, () => whyNoPackets(capture, datagrams) || whyNothing(reader, log));
}

async function readNetLog(text, log) {
  const netLog = new NetLog(text), reader = new PacketReader(log), begun = performance.now();
  const said = [];
  for (const [time, datagram] of netLog.datagrams()) {
    if (isLate(begun)) {
      said.push(`the packets took longer than ${MOST_SECONDS} seconds, so the others are left out`);
      break;
    }
    await reader.read(time, datagram);
  }
  return finished(reader, log, said, () => reader.connections.length ? whyNothing(reader, log) : whyNoBytes(netLog));
}

// Returns the connections that were read, and what is said of the file and of the others, or fails with why there are none.
async function finished(reader, log, said, why) {
  await reader.finish();
  const connections = Array.from(reader.connectionsRead(), it => ({...it, text: it.lines.map(line => `${line}\n`).join('')}));
  if (!connections.length) throw new Refusal(why());
  for (const [number, it] of reader.connections.entries()) {
    if (!it.random || it.isRead) continue;
    const reason = log.secrets.has(it.random) ? 'no packets that its secrets open' : 'no secrets';
    said.push(`connection ${number} is left out: ${reason} for the client random ${it.random}`);
  }
  if (reader.leftOut) said.push(`connections above ${reader.connections.length} are left out: ${reader.leftOut}`);
  for (const {number, missing} of connections) said.push(...missing.map(it => `connection ${number}: ${it}`));
  return {connections, said};
}

// ---- Why there is nothing

function cutPackets({count, cut, longestCut}) {
  return `${cut} of ${count} packets are cut to ${longestCut} bytes: ${CAPTURE_AGAIN}`;
}

function whyNoPackets(capture, datagrams) {
  const {count, cut} = capture;
  if (!count) return `the capture has no packets: ${CAPTURE_AGAIN}`;
  if (cut * 2 > count) return cutPackets(capture);
  return datagrams.count ? '' : `none of the ${count} packets is a datagram of UDP: ${CAPTURE_AGAIN}`;
}

function whyNothing(reader, log) {
  const randoms = reader.connections.map(it => it.random).filter(it => it), first = randoms[0] ?? 'of its connections';
  if (reader.others.size && !randoms.length) {
    const versions = Array.from(reader.others).sort((a, b) => a - b).map(it => `0x${it.toString(16)}`).join(', ');
    return `its versions of QUIC are not read: ${versions}; this reads versions 1 and 2`;
  }
  if (!reader.connections.length) {
    if (!reader.quic) return `no datagram is QUIC of version 1 or 2: ${CAPTURE_AGAIN}`;
    if (!log.secrets.size)
      return 'there are no secrets: choose the key log too, which the program writes where SSLKEYLOGFILE says';
    return 'it has no first packet of a connection, and no secret of the key log opens the others: start the capture before the connection';
  }
  if (!log.secrets.size) return `there are no secrets for the client random ${first}: choose the key log too`;
  const known = randoms.find(it => log.secrets.has(it));
  if (known) return `the secrets for the client random ${known} open none of its packets: capture both directions, to the end`;
  const lacks = `the key log has secrets of ${log.secrets.size} other connections, and none for the client random ${first}`;
  return `${lacks}: choose the log that was written during this capture`;
}

function whyNoBytes(netLog) {
  const lists = netLog.lists ? `it has ${netLog.lists} header lists, which qpk show prints; ` : '';
  return `the net log has no raw bytes: ${lists}export it again with the choice to include raw bytes`;
}
