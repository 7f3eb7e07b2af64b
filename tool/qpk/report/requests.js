// The list of requests: its columns, what is filtered, and how it is sorted.

const FILTERS = {
  // of a word KEY:VALUE
  stream: ({stream}, value) => String(stream) === value,
  method: ({method}, value) => method.toLowerCase().startsWith(value),
  path: ({path}, value) => path.toLowerCase().includes(value),
  status: ({status}, value) => status.startsWith(value),
};

// Whether a request passes all words of a filter: KEY:VALUE, blocked, finding, NAME:VALUE of a field, or a text.
function passes(connection, text) {
  const tests = text.toLowerCase().split(/\s+/).filter(word => word && word !== '-').map(word => {
    const test = testOf(connection, word.replace(/^-/, ''));
    return word[0] === '-' ? request => !test(request) : test;
  });
  return request => tests.every(test => test(request));
}

function testOf(connection, word) {
  if (word === 'blocked') return ({waits}) => waits.length > 0;
  if (word === 'finding') return ({faults}) => faults.length > 0;
  const at = word.indexOf(':', 1), key = word.slice(0, at);
  if (at > 0 && Object.hasOwn(FILTERS, key)) return request => FILTERS[key](request, word.slice(at + 1));
  if (at > 0) return hasField(connection, key, word.slice(at + 1));
  return ({method, path, status, stream}) =>
           path.toLowerCase().includes(word) || status === word || method.toLowerCase() === word || String(stream) === word;
}

// Whether a list of a request has a field of this name that has this text in its value.
function hasField(connection, name, value) {
  const isFound = Uint8Array.from(connection.fields, field => {
    const at = field.indexOf(': ', 1), own = field.slice(0, at).toLowerCase();
    return own === name && field.slice(at + 2).toLowerCase().includes(value);
  });
  const {shapes} = connection;
  return ({sections}) => sections.some(({event, place}) => {
    const [, , , , base, codes] = connection.events[event], {fields} = connection.encoders[place];
    return codes.some(code => isFound[code & 1 ? shapes.fields[code >> 1] : fields[base - code / 2 - 1]]);
  });
}

const FINDINGS = {
  '': '',
  doubtful: 'perhaps',
  faulty: 'wrong'
}; // the words for what faults together are
const has = name => ({requests}) => requests.some(request => request[name]);
const COLUMNS = [
  {
    key: 'packet',
    text: 'Packet',
    className: 'number wide',
    width: '6.2em',
    isWide: true,
    isThere: ({packets}) => packets,
    value: (request, connection) => connection.packet(request.event) ?? NONE
  },
  {
    key: 'begin',
    text: 'Time',
    className: 'number wide',
    width: '6.4em',
    isWide: true,
    isThere: ({hasTimes}) => hasTimes,
    value: ({begin}) => begin,
    textOf: ({event}, connection) => connection.time(event)
  },
  {key: 'stream', text: 'Stream', className: 'number', width: '5.2em', value: ({stream}) => stream},
  {
    key: 'method',
    text: 'Method',
    className: 'text',
    width: '5.4em',
    narrow: '5em',
    isThere: has('method'),
    value: ({method}) => method
  },
  {
    key: 'path',
    text: 'Path',
    className: 'text path',
    width: 'minmax(9em, 2fr)',
    narrow: '1fr',
    isThere: has('path'),
    value: ({path}) => path
  },
  {key: 'status', text: 'Status', className: 'status', width: '5em', isThere: has('status'), value: ({status}) => status},
  {
    key: 'bytes',
    text: 'Section',
    title: 'bytes of the sections',
    className: 'number wide',
    width: '5.4em',
    isWide: true,
    value: ({bytes}) => bytes
  },
  {
    key: 'instructions',
    text: 'Instr.',
    title: 'bytes of the instructions before them',
    className: 'number wide',
    width: '4.8em',
    isWide: true,
    value: ({instructions}) => instructions
  },
  {
    key: 'blocked',
    text: 'Blocked',
    title: 'how long a section waited for insertions',
    className: 'number blocked',
    width: '6em',
    isThere: ({requests}) => requests.some(({waits}) => waits.length),
    value: ({blocked}) => blocked,
    textOf: ({blocked, waits}, connection) => waits.length ? spanText(connection, blocked) : ''
  },
  {
    key: 'finding',
    text: 'Finding',
    className: 'finding',
    width: '5.6em',
    isThere: ({faults}) => faults.length,
    value: ({faults}) => faults.length,
    textOf: ({faults}) => FINDINGS[stateOfFaults(faults)]
  },
];
const WATERFALL = {
  text: '',
  title: 'when each began and ended; red: blocked',
  className: 'waterfall wide',
  width: 'minmax(9em, 1.3fr)',
  isWide: true
};

class RequestList {
  constructor(connection, {onChoose, onOpen}) {
    this.connection = connection;
    this.shown = connection.requests;
    this.columns = COLUMNS.filter(({isThere}) => !isThere || isThere(connection)).map(column => ({...column}));
    this.waterfall = new Waterfall(connection, place => this.shown[place]);
    this.list = new List({
      name: 'requests',
      columns: [...this.columns, {...WATERFALL}],
      cells: place => this.cells(this.shown[place]),
      classOf: place => stateOfFaults(this.shown[place].faults),
      onChoose: place => onChoose(this.shown[place]),
      onOpen,
      onSort: key => this.sort(key),
      onRender: (first, end) => this.waterfall.render(this.list, first, end),
    });
    this.filter = element('input');
    Object.assign(this.filter, {type: 'search', placeholder: 'Filter: status:404 path:/api blocked', spellcheck: false});
    this.filter.setAttribute('aria-label', 'Filter requests');
    this.filter.setAttribute('aria-keyshortcuts', '/');
    this.filter.oninput = () => this.update();
    this.count = element('span', 'count');
    this.count.setAttribute('role', 'status');
    this.key = this.columns[0].key;
    this.isDown = false;
  }

  cells(request) {
    const texts = this.columns.map(
      ({value, textOf}) => textOf ? textOf(request, this.connection) : String(value(request, this.connection)));
    return [...texts.map((text, i) => this.columns[i].key === 'status' ? statusOf(text) : text), this.waterfall.cell(request)];
  }

  sort(key) {
    this.isDown = this.key === key && !this.isDown;
    this.key = key;
    this.update();
  }

  // Filters and sorts, and keeps the chosen request if it is still there.
  update() {
    const {connection} = this, {value} = this.columns.find(({key}) => key === this.key), sign = this.isDown ? -1 : 1;
    const chosen = this.shown[this.list.chosen];
    const keyed = connection.requests.filter(passes(connection, this.filter.value)).map(it => [value(it, connection), it]);
    const order = ([a, one], [b, other]) => a < b ? -sign : a > b ? sign : one.number - other.number;
    if (keyed.some((it, i) => i && order(keyed[i - 1], it) > 0)) keyed.sort(order);
    this.shown = keyed.map(([, request]) => request);
    const all = connection.requests.length;
    this.count.textContent = this.shown.length === all ?
      counted(all, 'request') :
      `${this.shown.length.toLocaleString('en')} of ${counted(all, 'request')}`;
    this.list.sorted(this.key, this.isDown);
    this.list.show(this.shown.length);
    if (chosen) this.mark(chosen);
  }

  // Marks a request as chosen, if it is shown.
  mark(request) { this.list.choose(request ? this.shown.indexOf(request) : NONE, true); }
}

function statusOf(text) {
  return element('span', /^[45]/.test(text) ? 'code bad' : /^3/.test(text) ? 'code moved' : 'code', text);
}
