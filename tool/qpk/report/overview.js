// The slider over all events, with the bytes that they took, and what stats counts.

const BINS = 240;
const HEIGHT = 100;

// The bytes of sections and of instructions, in parts of the events.
function bytesInBins({events, sizes}) {
  const width = Math.min(BINS, events.length), bins = Array.from({length: width}, () => [0, 0]);
  events.forEach(([kind], event) => {
    const bin = bins[Math.floor(event * width / events.length)];
    if (kind === 's') bin[0] += sizes[event];
    else if (OF_ENCODER.includes(kind)) bin[1] += sizes[event];
  });
  return bins;
}

function chart(connection) {
  const bins = bytesInBins(connection), most = Math.max(1, ...bins.map(([sections, instructions]) => sections + instructions));
  const made = drawn('svg', {viewBox: `0 0 ${Math.max(1, bins.length)} ${HEIGHT}`, preserveAspectRatio: 'none', role: 'img'});
  const paths = {section: '', instructions: ''};
  bins.forEach(([sections, instructions], i) => {
    const section = HEIGHT * sections / most, other = HEIGHT * instructions / most;
    paths.section += `M${i + 0.1} ${HEIGHT}v-${section}h.8v${section}z`;
    paths.instructions += `M${i + 0.1} ${HEIGHT - section}v-${other}h.8v${other}z`;
  });
  for (const [name, d] of Object.entries(paths)) made.append(drawn('path', {class: name, d}));
  for (const {event} of connection.faults.filter(it => it.event !== null)) {
    const x = (event + 0.5) * bins.length / connection.events.length;
    made.append(drawn('path', {class: 'fault', d: `M${x} 0v${HEIGHT}`, 'vector-effect': 'non-scaling-stroke'}));
  }
  made.setAttribute('aria-label', 'bytes of sections and of instructions, in the order of the events');
  return made;
}

class Overview {
  constructor(connection, onMove) {
    this.connection = connection;
    this.slider = element('input');
    Object.assign(this.slider, {type: 'range', id: 'moment', min: NONE, max: connection.events.length - 1});
    this.slider.setAttribute('aria-label', 'Moment');
    this.slider.oninput = () => onMove(Number(this.slider.value));
    this.label = element('output', 'moment');
    this.label.htmlFor = 'moment';
    const legend = element(
      'span', 'bytes-legend', element('i', 'section'), 'bytes of sections ', element('i', 'instructions'), 'of instructions');
    this.element = element('div', 'overview', chart(connection), this.slider, element('div', 'captions', this.label, legend));
  }

  show(moment) {
    const {connection} = this;
    const text = moment < 0 ? 'before the first line' : `after ${placeOf(connection, moment)}: ${titleOf(connection, moment)}`;
    this.slider.value = moment;
    this.slider.setAttribute('aria-valuetext', text);
    this.label.textContent = text;
  }
}

// What stats counts, of each encoder, closed.
function statistics({directions}) {
  const parts = directions.map(({end, settings, rows}) => {
    const list = rows.flatMap(([name, text]) => [element('dt', '', name), element('dd', '', text)]);
    return element(
      'section', '', element('h3', '', end ? `The ${end}'s encoder` : 'The encoder'), settings, element('dl', '', ...list));
  });
  return element('details', 'statistics', element('summary', '', 'Figures'), element('div', 'columns', ...parts));
}
