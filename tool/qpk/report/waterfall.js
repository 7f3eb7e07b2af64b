// The waterfall: when each request in view began and ended, when it was blocked, and the insertion that it waited for.

const SVG = 'http://www.w3.org/2000/svg';

function drawn(tag, values) {
  const made = document.createElementNS(SVG, tag);
  Object.entries(values).forEach(([name, value]) => made.setAttribute(name, value));
  return made;
}

class Waterfall {
  constructor(connection, requestAt) {
    Object.assign(this, {connection, requestAt, begin: 0, span: 1});
    this.lines = drawn('svg', {class: 'waits', 'aria-hidden': 'true'});
  }

  cell(request) {
    const {connection} = this, made = element('div', 'track'), bar = element('i', 'bar-of-request');
    const title = [`${spanText(connection, request.finish - request.begin)} from its first section`];
    made.append(bar);
    for (const [begin, end] of request.waits.map(it => connection.spanOf(it))) {
      made.append(element('i', 'bar-of-wait'));
      title.push(`blocked for ${spanText(connection, end - begin)}`);
    }
    made.title = title.join('; ');
    this.place(made, request);
    return made;
  }

  // Where a position is, in percent of the column.
  at(position) { return 100 * (position - this.begin) / this.span; }

  place(track, request) {
    const bars = [[request.begin, request.finish], ...request.waits.map(it => this.connection.spanOf(it))];
    bars.forEach(([begin, end], i) => {
      const {style} = track.children[i], left = Math.min(99, Math.max(0, this.at(begin)));
      style.left = left + '%';
      style.width = Math.max(0, Math.min(100, this.at(end)) - left) + '%';
    });
  }

  // Scales the column to the requests in view, and draws what they waited for.
  render(list, first, end) {
    const shown = [];
    for (let place = first; place < end; place++) shown.push(this.requestAt(place));
    this.begin = shown.reduce((least, {begin}) => Math.min(least, begin), Infinity);
    this.span = shown.reduce((most, {finish}) => Math.max(most, finish), -Infinity) - this.begin;
    if (!(this.span > 0)) this.span = 1;
    for (const [place, row] of list.rows) {
      const track = row.querySelector('.track');
      if (track) this.place(track, this.requestAt(place));
    }
    this.drawScale(list);
    this.drawWaits(list, shown, first);
  }

  // Writes at the head of the column where it begins and ends.
  drawScale(list) {
    const {head} = list.columns.at(-1), {connection} = this, end = this.begin + this.span;
    const texts =
      connection.hasTimes ? [`${this.begin.toFixed(3)} s`, `${end.toFixed(3)} s`] : [`line ${this.begin}`, `${end}`];
    head.replaceChildren(...texts.map(text => element('span', '', text)));
    head.setAttribute('aria-label', 'Waterfall');
  }

  // A line from the end of each wait to the insertion: to the row of the request that it came with, if that is in view.
  drawWaits(list, shown, first) {
    const track = list.body.querySelector('.track'), left = track ? track.parentElement.offsetLeft : 0;
    const width = track ? track.clientWidth : 0, {connection} = this;
    this.lines.replaceChildren();
    if (!width) return;
    if (!this.lines.isConnected) list.body.append(this.lines);
    const places = new Map(shown.map((request, i) => [request.number, i]));
    const top = list.element.scrollTop - (list.top - first) * ROW;
    shown.forEach((request, i) => request.waits.forEach(({until, place}) => {
      const insertion = connection.encoders[place].events[until - 1];
      if (insertion === undefined) return;
      const x = Math.min(width, Math.max(0, this.at(connection.position(insertion)) * width / 100));
      const row = places.get(connection.owner[insertion]);
      const to = row === undefined ? connection.owner[insertion] < request.number ? 0 : shown.length : row + 0.5;
      const y = (i + 0.5) * ROW, end = to * ROW === y ? y - ROW / 3 : to * ROW;
      this.lines.append(drawn('path', {d: `M${x} ${y}V${end}`}), drawn('circle', {cx: x, cy: end, r: 3}));
    }));
    this.lines.style.cssText = `left:${left}px;width:${width}px;height:${shown.length * ROW}px;top:${top}px`;
  }
}
