// What is chosen: a request or an event with its bytes and lines, and both tables at that moment.

const MOST_LINES = 400; // of a section, and entries of a table, that are made at once
const MOST_LINKS = 12; // of the events that reference an entry
const MOST_USES = 200;
const MOST_EVICTED = 8; // entries that are shown after they were evicted

class Details {
  constructor(connection, number) { Object.assign(this, {connection, number}); }

  link(event, text) {
    const made = element('a', '', text);
    made.href = `#${this.number}/event/${event}`;
    return made;
  }

  // What there is of a request: its sections, each with the instructions before it.
  request(request) {
    const {method, path, status, stream, sections, waits} = request, {connection} = this;
    const title = [method, path].filter(it => it).join(' ') || `Stream ${stream}`;
    const facts = [
      `stream ${stream}`, status ? `status ${status}` : '', `${counted(request.bytes, 'byte')} of sections`,
      `${counted(request.instructions, 'byte')} of instructions`
    ];
    const parts = [element('h2', '', title), element('p', 'facts', facts.filter(it => it).join(' · '))];
    for (const wait of waits) {
      const {event, until, end} = wait, [began, ended] = connection.spanOf(wait);
      const waited = end === null ? 'to the end' : `for ${spanText(connection, ended - began)}`;
      const insertion = connection.encoders[connection.direction(event)].events[until - 1];
      parts.push(element(
        'p', 'waited', `Blocked ${waited}, from `, this.link(event, `line ${connection.line(event)}`), ', until ',
        insertion === undefined ? `insertion ${until}, which never came` : this.link(insertion, `insertion ${until}`), '.'));
    }
    for (const {event, from, place} of sections) parts.push(this.before(event, from, place), this.event(event));
    for (const {event, end} of waits)
      if (end === null) parts.push(this.event(event));
    if (!sections.length && !waits.length) parts.push(this.event(request.event));
    return parts;
  }

  // The instructions that came before a section, closed.
  before(event, from, place) {
    const {connection} = this, own = [];
    for (let i = from; i < event; i++)
      if (OF_ENCODER.includes(connection.events[i][0]) && connection.direction(i) === place) own.push(i);
    if (!own.length) return '';
    const bytes = own.reduce((sum, i) => sum + connection.sizes[i], 0);
    const made = element(
      'details', 'before',
      element('summary', '', `${counted(own.length, 'instruction')} before it, ${counted(bytes, 'byte')}`));
    made.addEventListener('toggle', () => {
      if (made.children.length === 1) made.append(...this.inParts(own, i => this.event(i)));
    });
    return made;
  }

  // An event with its bytes and its meaning.
  event(event) {
    const {connection} = this, [kind, hex] = connection.events[event], faults = connection.faultsOf.get(event) || [];
    const refused = connection.refused[event], isSection = kind === 's';
    const made = element('article', `event ${connection.stateOf(event)}`);
    made.dataset.event = event;
    const bytes = isSection ? groupsOf(hex)[0] : hex;
    made.append(element('h3', '', this.link(event, placeOf(connection, event))), this.row(bytes, this.title(event)));
    if (isSection) made.append(...this.inParts(connection.linesOf(event), line => this.line(line, event)));
    if (connection.rest[event]) made.append(this.row(connection.rest[event], ['not read']));
    made.append(...faults.map(fault => element('p', fault.perhaps ? 'perhaps' : 'wrong', textOfFault(fault))));
    if (refused && !faults.length) made.append(element('p', 'wrong', refused));
    return made;
  }

  row(hex, meaning) {
    return element('div', 'pair', element('div', 'bytes', spaced(hex)), element('div', 'meaning', ...meaning));
  }

  line({hex, how, form, field, entry}, event) {
    return this.row(
      hex, [element('span', 'field ' + how, field), ' ', element('span', 'form', ...this.linked(form, event, entry))]);
  }

  // Text in which |entry N| is a link to the insertion.
  linked(text, event, entry) {
    const found = `entry ${entry}`, at = entry ? text.indexOf(found) : -1;
    if (at < 0) return [text];
    const inserted = this.connection.encoders[this.connection.direction(event)].events[entry - 1];
    return [text.slice(0, at), this.link(inserted, found), text.slice(at + found.length)];
  }

  title(event) {
    const {connection} = this, row = connection.events[event];
    const parts = this.linked(titleOf(connection, event), event, 'id'.includes(row[0]) ? connection.referencedBy(event) : 0);
    if (row[0] === 's' && row[6] !== undefined) parts.push(' (it came in ', this.link(row[6], this.shortPlace(row[6])), ')');
    const field = fieldOf(connection, event);
    return field ? [...parts, ' ', element('span', 'field inserted', field), this.life(event)] : parts;
  }

  shortPlace(event) {
    const [kind, , stream] = this.connection.events[event];
    return kind === 's' || kind === 'b' ? `section ${stream}` : `line ${this.connection.line(event)}`;
  }

  // What referenced an entry, and when it was evicted.
  life(event) {
    const {connection} = this, place = connection.direction(event), entry = entryOf(connection, event);
    const links = connection.usesOf(place, entry, MOST_USES).map(it => this.link(it, this.shortPlace(it)));
    const parts = [links.length ? 'referenced by ' : 'never referenced', ...joined(links.slice(0, MOST_LINKS))];
    if (links.length > MOST_LINKS) {
      const more =
        links.length < MOST_USES ? `${links.length - MOST_LINKS} more` : `${MOST_USES - MOST_LINKS} more and later ones`;
      parts.push(' and ', element('details', '', element('summary', '', more), ...joined(links.slice(MOST_LINKS))));
    }
    const evicted = connection.encoders[place].evictedAt[entry - 1];
    if (evicted !== undefined) parts.push('; evicted in ', this.link(evicted, this.shortPlace(evicted)));
    return element('span', 'life', ...parts);
  }

  // The first of many elements, and a button that makes the next ones.
  inParts(items, make, from = 0) {
    const made = items.slice(from, from + MOST_LINES).map(make), rest = items.length - from - MOST_LINES;
    if (rest <= 0) return made;
    const button = makeButton(
      'more', [`Show ${Math.min(rest, MOST_LINES)} of ${rest.toLocaleString('en')} more`],
      () => button.replaceWith(...this.inParts(items, make, from + MOST_LINES)));
    return [...made, button];
  }

  // The table of an encoder after an event.
  table(encoder, moment) {
    const {capacity, size, inserted, evicted} = encoder.at(moment);
    const bar = element('div', 'bar', element('i')), table = element('table'), places = [];
    bar.firstChild.style.width = (capacity ? 100 * size / capacity : 0) + '%';
    table.dataset.end = encoder.end;
    table.append(
      element('thead', '', element('tr', '', ...['entry', 'size', 'field'].map((text, i) => headCell(text, i < 2)))));
    for (let i = inserted - 1; i >= Math.max(0, evicted - MOST_EVICTED); i--) places.push(i);
    const body = element('tbody', '', ...places.slice(0, MOST_LINES).map(i => this.entry(encoder, i, moment, evicted)));
    table.append(body);
    const numbers = `entries ${inserted - evicted}, ${size} of ${capacity} bytes, evicted ${evicted}`;
    const found =
      element('section', 'table', element('h3', '', `Table of ${encoder.name}`), element('p', 'facts', numbers), bar, table);
    if (places.length > MOST_LINES) found.append(this.restOf(body, places, encoder, moment, evicted));
    return found;
  }

  restOf(body, places, encoder, moment, evicted) {
    const button = makeButton('more', [`Show all ${places.length.toLocaleString('en')} entries`], () => {
      body.append(...places.slice(MOST_LINES).map(i => this.entry(encoder, i, moment, evicted)));
      button.remove();
    });
    return button;
  }

  entry(encoder, place, moment, evicted) {
    const event = encoder.events[place], field = this.connection.fields[encoder.fields[place]];
    const isDraining = encoder.evictedAt[place] !== undefined && encoder.last[place] <= moment;
    const state = place < evicted ? 'evicted' : event === moment ? 'inserted' : isDraining ? 'draining' : '';
    const row = element(
      'tr', state, element('td', 'number', this.link(event, String(place + 1))),
      element('td', 'number', String(encoder.sizes[place])), element('td', '', field));
    row.title = [field, {draining: 'draining: nothing references it again before it is evicted'}[state] || state]
                  .filter(text => text)
                  .join('\n');
    return row;
  }
}

function headCell(text, isNumber) {
  const made = element('th', isNumber ? 'number' : '', text);
  made.scope = 'col';
  return made;
}

function joined(parts) { return parts.flatMap((part, i) => i ? [', ', part] : [part]); }
