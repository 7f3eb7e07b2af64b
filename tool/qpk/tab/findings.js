// Findings: which may be none with what is not in the file, and which packet each is in. What a finding is, is said by what
// reads the bytes. tool/qpk/findings.py has the same rules.
'use strict';

const CUT_SECTION = '4.2'; // of what the end of a recording cuts
const WAITS = 'to the end'; // how a fault of what waits ends
const CUT_AT_THE_END = 'cut at the end';
// Sections of RFC 9204 of findings that are none ..
const OF_SECTIONS = ['2.1.2', '2.2.3', '4.5.1.1', '4.5.1.2']; // if an insertion is not in the file, about a section
const OF_SETTINGS = ['2.1.2', '2.2.3', '4.3.1', '4.5.1.1', '4.5.1.2']; // with other limits
const OF_DECODERS = ['4.4.1', '4.4.3']; // if a section or an insertion of the peer is not in the file
const OF_ACKNOWLEDGMENTS = ['2.1.1', '2.2.2.1']; // if an acknowledgment is not in the file
const AT_RISK = 'streams that could be blocked'; // the first words of a fault that is none with one too
const MOST_NAMED = 8; // ranges of packet numbers that are named of an end; the others are counted
const MOST_FAULTS = 1_000; // of a connection that the page lists
const NAMED_STREAM = /\bstream (\d+)\b/;
const MARKS = {
  client: '>',
  server: '<',
  '': ''
};
// What was seen of a connection whose packets are not known, as of a trace, where something is missing.
const OF_GAPS = {
  missing: [],
  unread: 0,
  gaps: 1,
  early: 0,
  hasSettings: false,
  acknowledgedTo: Infinity,
  heardTo: Infinity
};
const WITH_GAPS = {
  ends: {'>': OF_GAPS, '<': OF_GAPS},
  isLate: false
};

function lacks(end) { return end.missing.length > 0 || end.unread > 0 || end.gaps > 0 || end.early > 0; }

// Whether something of a connection is missing: {ends, isLate}.
function lacksAny(seen) { return seen.isLate || Object.values(seen.ends).some(lacks); }

// Returns what was seen of the packets of a connection as a line.
function lineOfSeen({ends, isLate}) {
  const all = Object.entries(ends),
        counts = all.map(([mark, it]) => `${ENDS[mark]} ${it.packets} of ${it.packets + countOf(it.missing)}`);
  const parts = [`packets: ${counts.join(', ')}`];
  for (const [mark, it] of all) {
    if (it.missing.length) parts.push(`not in the file: ${ENDS[mark]} ${namesOf(it.missing)}`);
    if (it.unread) parts.push(`opened by no key: ${ENDS[mark]} ${it.unread}`);
    if (it.early) parts.push(`acknowledged before they came: ${ENDS[mark]} ${it.early}`);
    if (it.gaps) parts.push(`streams with a gap: ${ENDS[mark]} ${it.gaps}`);
  }
  if (isLate) parts.push('its first packets are not in the file');
  return parts.join('; ');
}

function countOf(ranges) { return ranges.reduce((sum, [first, last]) => sum + last - first + 1, 0); }

// Returns ranges of numbers as text.
function namesOf(ranges) {
  const named = ranges.slice(0, MOST_NAMED).map(([first, last]) => first === last ? `${first}` : `${first} to ${last}`);
  const more = countOf(ranges.slice(MOST_NAMED));
  return [...named, ...(more ? [`and ${more} more`] : [])].join(', ');
}

// Whether a finding may be none with an acknowledgment that is not in the file.
function restsOnAcknowledgments({rfc9204, fault}) { return OF_ACKNOWLEDGMENTS.includes(rfc9204) || fault.startsWith(AT_RISK); }

// Whether a finding may be none, with what is not in the file.
function explains(seen, it) {
  if (it.rfc9204 === CUT_SECTION || it.fault.endsWith(WAITS)) return true;
  const mark = MARKS[it.from ?? ''], own = seen.ends[mark], peer = seen.ends[PEER[mark]];
  if (!own || !peer) return lacksAny(seen);
  if (restsOnAcknowledgments(it)) {
    const hasLimit = peer.hasSettings || !it.fault.startsWith(AT_RISK);
    return lacks(own) || lacks(peer) || seen.isLate || !hasLimit || it.line > ('decoder' in it ? peer : own).heardTo;
  }
  const isLacking = lacks(own) || seen.isLate || it.line > own.acknowledgedTo;
  if ('rfc9114' in it) return isLacking;
  if ('section' in it)
    return OF_SECTIONS.includes(it.rfc9204) && isLacking || OF_SETTINGS.includes(it.rfc9204) && !peer.hasSettings;
  if ('encoder' in it) return it.rfc9204 === '4.3.1' && !peer.hasSettings;
  const isDeaf = lacks(peer) || seen.isLate || it.line > own.heardTo;
  return OF_DECODERS.includes(it.rfc9204) && !it.fault.includes('increment of 0') && isDeaf;
}

// Returns the number of the packet that made the line of a finding whole, or 0 if there is none. Of what the end of the file
// cuts it is the last packet of its stream.
function packetOf(connection, it) {
  if (!it.fault.startsWith(CUT_AT_THE_END)) return connection.packets[it.line - 1] ?? 0;
  const front = `${MARKS[it.from ?? '']} ${'encoder' in it ? 'e' : 'decoder' in it ? 'd' : 'b'}`;
  const at = connection.lines.findLastIndex(line => line.split(' ').slice(1, 3).join(' ') === front);
  return connection.packets[at] ?? 0;
}

// Returns a filter for Wireshark: the packet, and the stream that a finding names, or is on.
function filterOf(connection, packet, it) {
  const named = NAMED_STREAM.exec(it.fault), mark = MARKS[it.from ?? ''];
  const own = 'section' in it ? it.section : connection.streams[`${mark}${'encoder' in it ? 'e' : 'd'}`];
  const number = named ? Number(named[1]) : own;
  return [...(number === undefined ? [] : [`quic.stream.stream_id == ${number}`]), `frame.number == ${packet}`].join(' || ');
}

// Returns a finding with its mark, its packet and its filter.
function placed(connection, it) {
  const seen = connection.seen ?? (connection.missing?.length ? WITH_GAPS : null);
  const marked = seen && explains(seen, it) ? {perhaps: true, ...it} : it;
  const packet = connection.packets.length ? packetOf(connection, it) : 0;
  return packet ? {...marked, packet, filter: filterOf(connection, packet, it)} : marked;
}

// Returns the findings on a connection, or the first ones, and the verdict of the page.
function judged(connection, checked) {
  const faults = [], verdict = {certain: 0, explained: 0};
  for (const it of checked) {
    if (!('fault' in it)) continue;
    const found = placed(connection, it);
    verdict[found.perhaps ? 'explained' : 'certain']++;
    if (faults.length < MOST_FAULTS) faults.push(found);
  }
  const {seen} = connection;
  return [faults, seen ? {...verdict, seen: lineOfSeen(seen), lacks: lacksAny(seen)} : verdict];
}
