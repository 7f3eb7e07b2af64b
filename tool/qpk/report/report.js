// The page of qpk report. Its data are compressed in the element |data|. All text goes through textContent.

const page = document.getElementById('page');
const TABS = {
  requests: 'Requests',
  timeline: 'Timeline'
};

// Returns the bytes that a text of base64 has, compressed.
async function inflated(text) {
  if (typeof DecompressionStream === 'undefined') throw Error('This page needs a browser of 2023 or later.');
  const signs = atob(text), packed = new Uint8Array(signs.length);
  for (let i = 0; i < signs.length; i++) packed[i] = signs.charCodeAt(i);
  return new Response(new Blob([packed]).stream().pipeThrough(new DecompressionStream('deflate'))).arrayBuffer();
}

async function readData() {
  const data = JSON.parse(new TextDecoder().decode(await inflated(document.getElementById('data').textContent)));
  return {...data, kinds: kindsOfFields(data.fields)};
}

// A connection on the page.
class Report {
  constructor(connection, number) {
    Object.assign(this, {connection, number, moment: NONE});
    this.details = new Details(connection, number);
    this.overview = new Overview(connection, moment => this.showEvent(moment));
    const onOpen = () => this.open();
    this.requests = new RequestList(connection, {onChoose: request => this.showRequest(request), onOpen});
    this.timeline = makeTimeline(connection, {onChoose: event => this.showEvent(event), onOpen});
    this.chosen = element('div', 'shown');
    this.tables = element('div', 'columns');
    this.aside = this.makeAside();
    this.element = this.makeElement();
    this.requests.update();
    this.timeline.show(connection.events.length);
    this.choose(connection.requests.length ? 'requests' : 'timeline');
  }

  makeAside() {
    const copy = makeButton('', ['Copy link'], async () => {
      copy.textContent = await copied(location.href) ? 'Copied' : 'Copy the address above';
    });
    copy.onblur = () => {
      copy.textContent = 'Copy link';
    };
    const states = ['inserted', 'draining', 'evicted'].map(state => element('span', state, state));
    this.part = scrollable('chosen-part', 'What is chosen', element('div', 'tools', copy), this.chosen);
    const tables = scrollable(
      'tables', 'The tables at this moment', element('h2', '', 'The tables at this moment'), element('p', 'states', ...states),
      this.tables);
    const made = element('aside', '', this.part, tables);
    made.setAttribute('aria-label', 'Details');
    made.addEventListener('keydown', ({key}) => {
      if (key === 'Escape') this.list.element.focus();
    });
    return made;
  }

  makeElement() {
    this.tabs = Object.entries(TABS).map(([name, text]) => {
      const button = makeButton('tab', [text], () => this.choose(name));
      button.dataset.name = name;
      return button;
    });
    const group = element('div', 'tabs', ...this.tabs);
    group.setAttribute('role', 'group');
    group.setAttribute('aria-label', 'View');
    const hint = element('kbd', '', '/');
    hint.title = 'press / to filter';
    this.bar =
      element('div', 'toolbar', group, element('span', 'filter', this.requests.filter, hint), this.requests.count, legend());
    this.views = {requests: this.requests.list.element, timeline: this.timeline.element};
    const lists = element('section', 'lists', this.views.requests, this.views.timeline);
    return element(
      'div', 'report', findings(this), statistics(this.connection), this.overview.element, this.bar,
      element('main', '', lists, this.aside));
  }

  // Shows the list of requests, or of all events.
  choose(view) {
    this.view = view;
    for (const tab of this.tabs) tab.setAttribute('aria-pressed', tab.dataset.name === view);
    for (const [name, list] of Object.entries(this.views)) list.hidden = name !== view;
    this.bar.classList.toggle('of-timeline', view !== 'requests');
    if (view === 'timeline' && this.moment >= 0) this.timeline.choose(this.moment, true);
    if (view === 'requests' && this.request) this.requests.mark(this.request);
    this.list.render();
  }

  get list() { return this.view === 'requests' ? this.requests.list : this.timeline; }

  open() {
    this.part.focus();
    this.part.scrollIntoView({block: 'nearest'});
  }

  showRequest(request) {
    const last = request.sections.at(-1)?.event ?? request.waits.at(-1)?.event ?? request.event;
    this.request = request;
    this.showMoment(last);
    this.timeline.choose(last, true);
    this.chosen.replaceChildren(...this.details.request(request));
    this.part.scrollTop = 0;
    setFragment(`#${this.number}/stream/${request.stream}`);
  }

  // Shows an event, and chooses the request to which it belongs.
  showEvent(event) {
    const {connection} = this;
    this.showMoment(event);
    this.request = connection.requests[connection.owner[event]];
    this.timeline.choose(event, true);
    this.requests.mark(this.request);
    this.chosen.replaceChildren(...(event < 0 ? [] : [this.details.event(event)]));
    this.part.scrollTop = 0;
    setFragment(`#${this.number}/event/${event}`);
  }

  // Shows both tables after an event.
  showMoment(moment) {
    this.moment = moment;
    this.overview.show(moment);
    this.tables.replaceChildren(...this.connection.encoders.map(encoder => this.details.table(encoder, moment)));
  }
}

function makeButton(className, parts, onclick) {
  return Object.assign(element('button', className, ...parts), {type: 'button', onclick});
}

// A part of the page that is scrolled by itself, also by the keyboard.
function scrollable(className, name, ...parts) {
  const made = element('section', className, ...parts);
  made.tabIndex = 0;
  made.setAttribute('aria-label', name);
  return made;
}

function legend() {
  const signs = Object.entries(data.legend).map(([how, text]) => element('span', 'field ' + how, text));
  return element('details', 'legend', element('summary', '', 'Colours'), element('p', '', ...signs));
}

async function copied(text) {
  try {
    await navigator.clipboard.writeText(text);
    return true;
  } catch {
    return false;
  }
}

// Writes where the page is into its address, which makes no step in the history.
function setFragment(fragment) {
  isOwn = fragment;
  history.replaceState(null, '', fragment);
}

function show(number) {
  report = new Report(new Connection(data.connections[number], data), number);
  for (const button of page.querySelectorAll('.connection'))
    button.setAttribute('aria-pressed', Number(button.dataset.number) === number);
  content.replaceChildren(report.element);
  report.list.render();
  return report;
}

// Opens the place that the address names: a stream or an event of a connection.
function follow() {
  const found = location.hash.match(/^#(\d+)(?:\/(stream|event)\/(-?\d+))?$/);
  if (!found || !data.connections[found[1]]) return false;
  const [number, place] = [Number(found[1]), Number(found[3])];
  if (report?.number !== number) show(number);
  const request = found[2] === 'stream' && report.connection.byStream.get(place);
  if (request) {
    report.requests.mark(request);
    report.showRequest(request);
  } else if (found[2] === 'event' && place < report.connection.events.length) report.showEvent(place);
  return true;
}

// Shows data in the place of what the page has.
function fill(found) {
  data = found;
  report = undefined;
  page.replaceChildren();
  const ranked = worstFirst(data.connections);
  if (!ranked.length) {
    page.append(element('p', 'summary', 'There is no connection.'));
    return;
  }
  const title = ranked.length === 1 ? ranked[0].connection.name : counted(ranked.length, 'connection');
  page.append(element('header', '', element('h1', '', `QPACK of ${title}`), summary(ranked)));
  if (ranked.length > 1)
    page.append(connectionList(ranked, number => {
      show(number);
      setFragment(`#${number}`);
    }));
  page.append(content);
  if (!follow()) {
    show(ranked[0].number);
    const [first] = report.connection.faults.filter(it => it.event !== null);
    if (first) report.showEvent(first.event);
    else if (report.connection.requests.length)
      report.showRequest(report.connection.requests[0]), report.requests.mark(report.request);
    else report.showEvent(report.connection.events.length - 1);
    history.replaceState(null, '', location.pathname + location.search);
  }
  document.body.dataset.ready = 'yes';
}

let data, report, isOwn = '';
const content = element('div', 'content');

addEventListener('hashchange', () => {
  if (report && location.hash !== isOwn) follow();
});
addEventListener('keydown', event => {
  if (!report || event.key !== '/' || /^(INPUT|SELECT|TEXTAREA)$/.test(event.target.tagName) && event.target.type !== 'range')
    return;
  event.preventDefault();
  report.choose('requests');
  report.requests.filter.focus();
});
