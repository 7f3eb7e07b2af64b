// Chrome's net log: the datagrams in it, if it has raw bytes. It has an event a line, and may end anywhere. tool/qpk/netlog.py has
// the same rules.
'use strict';

const NET_LOG = /^\s*\{"constants"/;
const MOST_SOCKETS = 1 << 16; // whose addresses are kept
const MILLISECOND = 1_000_000n; // in nanoseconds

class NetLog {
  constructor(text) {
    this.text = text;
    const first = text.slice(0, (text.indexOf('\n') + 1 || text.length + 1) - 1).trim();
    this.begin = text.indexOf('\n') + 1 || text.length;
    try {
      const {logEventTypes} = JSON.parse(first.replace(/,$/, '') + '}').constants;
      this.names = new Map(Object.entries(logEventTypes).map(([name, number]) => [number, name]));
    } catch {
      throw new Refusal('the net log has no events: name a file as Chrome wrote it');
    }
    Object.assign(this, {own: new Map(), peer: new Map(), lists: 0});
  }

  // Yields the parameters of each event with its name, its source and its time.
  * events() {
    for (let at = this.begin, end; at < this.text.length; at = end + 1) {
      end = this.text.indexOf('\n', at);
      if (end < 0) end = this.text.length;
      const line = this.text.slice(at, end).trim().replace(/,$/, '');
      let it;
      try {
        it = JSON.parse(line.endsWith(']}') && !line.endsWith(']}}') ? line.slice(0, -2) : line);
      } catch {
        continue; // the line before the events, and a last one that is cut
      }
      const time = String(it?.time), number = it?.source?.id;
      if (typeof it?.params !== 'object' || it.params === null || !Number.isInteger(number) || !/^\d+$/.test(time)) continue;
      yield {name: this.names.get(it.type) ?? '', number, time: BigInt(time.slice(0, 18)) * MILLISECOND, params: it.params};
    }
  }

  // Yields the datagrams with their times.
  * datagrams() {
    for (const {name, number, time, params} of this.events()) {
      if (name === 'UDP_BYTES_SENT' || name === 'UDP_BYTES_RECEIVED') {
        const datagram = this.datagram(name, number, params);
        if (datagram) yield [time, datagram];
      } else if (name === 'HTTP3_HEADERS_SENT' || name === 'HTTP3_HEADERS_DECODED') this.lists++;
      else if (typeof params.address === 'string' && this.own.size + this.peer.size < MOST_SOCKETS) {
        if (name === 'UDP_CONNECT') this.peer.set(number, plainAddress(params.address));
        else if (name === 'UDP_LOCAL_ADDRESS') this.own.set(number, plainAddress(params.address));
      }
    }
  }

  // Returns the datagram of an event, if it has its bytes.
  datagram(name, number, {bytes, address}) {
    if (typeof bytes !== 'string') return null;
    const data = bytesOfBase64(bytes);
    if (!data.length) return null;
    const own = this.own.get(number) ?? `socket ${number}:0`,
          peer = this.peer.get(number) ?? plainAddress(String(address ?? 'server:0'));
    const [source, target] = name === 'UDP_BYTES_SENT' ? [own, peer] : [peer, own];
    return {source, target, data, isShort: false, packet: 0};
  }
}

// Returns an address without the brackets of IPv6.
function plainAddress(text) { return text.replace(/^\[(.*)\]:/, '$1:'); }

// Returns the bytes that a text has in base64, up to its padding. Other signs say nothing. A text that is cut has none.
function bytesOfBase64(text) {
  const [signs, ...padding] = text.replace(/[^A-Za-z0-9+/=]/g, '').split('=');
  const isWhole = padding.length > 0 || signs.length % 4 === 0, lone = signs.length % 4 === 1 ? 1 : 0;
  return Uint8Array.from(isWhole ? atob(signs.slice(0, signs.length - lone)) : '', sign => sign.charCodeAt(0));
}
