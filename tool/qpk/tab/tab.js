// The page in a tab: reads files that are dropped on it or chosen, in a worker, and fills the page of qpk report with what they have.
// Nothing leaves the browser: the policy of the page lets nothing be sent.

const MOST_SAID = 8; // lines on a file
// The smallest module with a memory of 64 bits.
const WITH_MEMORY64 = Uint8Array.of(0, 0x61, 0x73, 0x6d, 1, 0, 0, 0, 5, 3, 1, 4, 1);
const BY_PROGRAM = 'The program qpk reads them, compiled to WebAssembly from the module that is proved.';
const BY_JAVASCRIPT = 'JavaScript reads them, which nothing proves, and finds less than qpk check: ';

class Tab {
  constructor() {
    Object.assign(this, {files: [], drops: 0, worker: null, module: null});
    this.status = element('output', 'status');
    this.status.setAttribute('aria-live', 'polite');
    this.by = element('p', 'by');
    this.chooser = Object.assign(element('input'), {type: 'file', multiple: true, id: 'files'});
    this.chooser.onchange = () => this.take(this.chooser.files);
    this.stop = makeButton('stop', ['Stop'], () => this.end('Stopped. Choose a smaller file, or read it by qpk report.'));
    this.stop.hidden = true;
    const label = element('label', '', 'Choose a capture, a net log, a trace or a recording, and its key log ');
    label.htmlFor = 'files';
    this.heading = element('h1', '', 'What QPACK did: drop a file here');
    this.about = element(
      'p', '',
      'A file stays in this browser: the page can send nothing. It reads pcap, pcapng, Chrome’s net log, ' +
        'qlog with bytes, and the recordings of qpk. A key log is what SSLKEYLOGFILE names.');
    const row = element('p', '', label, this.chooser, this.stop), typing = new Typing(this).element;
    this.element = element('section', 'drop', this.heading, this.about, row, this.by, this.status, typing);
    this.element.setAttribute('aria-label', 'Files');
  }

  // Readies the program, if the page has it and the browser can run it.
  async begin() {
    const packed = document.getElementById('program')?.textContent;
    const hasMemory = typeof WebAssembly === 'object' && WebAssembly.validate(WITH_MEMORY64);
    if (packed && hasMemory) this.module = await inflated(packed);
    const why = packed ? 'this browser has no 64-bit WebAssembly.' : 'this page was made without the program.';
    this.by.textContent = this.module ? BY_PROGRAM : BY_JAVASCRIPT + why;
    this.by.classList.toggle('lacks', !this.module);
  }

  // Takes files beside those that are there: the worker takes the newest file that is no key log, and all key logs.
  take(files) {
    const added = Array.from(files);
    if (!added.length) return;
    this.drops++;
    const kept = this.files.filter(({file}) => !added.some(({name}) => name === file.name));
    this.files = [...kept, ...added.map(file => ({file, drop: this.drops}))];
    this.chooser.value = '';
    this.read();
  }

  read() {
    this.worker?.terminate();
    this.worker = this.makeWorker();
    this.worker.onmessage = ({data: found}) => this.finish(found);
    this.worker.onerror = ({message}) => this.finish({fault: `the browser ended it (${message}): choose a smaller file`});
    this.say(`Reading ${this.files.map(({file}) => file.name).join(', ')} ..`);
    this.stop.hidden = false;
    this.worker.postMessage({files: this.files, module: this.module});
  }

  makeWorker() {
    const url = URL.createObjectURL(new Blob([document.getElementById('reader').textContent], {type: 'text/javascript'}));
    const worker = new Worker(url);
    URL.revokeObjectURL(url);
    return worker;
  }

  // Shows what was read, with the first things that are said of it, or why nothing was. The files stay, so that a key log can be added.
  finish({data: found, said = [], fault}) {
    const more = said.length - MOST_SAID;
    this.end(fault ?? [...said.slice(0, MOST_SAID), ...(more > 0 ? [`and ${more} more: qpk check says all`] : [])].join('. '));
    this.status.classList.toggle('wrong', Boolean(fault));
    if (found) {
      this.shrink();
      fill({...found, kinds: kindsOfFields(found.fields)});
      document.title = document.querySelector('h1').textContent;
    }
    document.body.dataset.read = fault ? 'fault' : 'yes';
  }

  // Leaves the page to what it shows, which has a heading of its own.
  shrink() {
    this.element.classList.add('done');
    this.heading.remove(); // the page has one of its own
    this.about.hidden = true;
  }

  end(text) {
    this.worker?.terminate();
    this.worker = null;
    this.stop.hidden = true;
    this.say(text);
  }

  say(text) {
    delete document.body.dataset.read;
    this.status.classList.remove('wrong');
    this.status.textContent = text;
  }
}

const tab = new Tab();
page.before(tab.element);
if (document.getElementById('data').textContent) tab.shrink();
tab.begin().then(() => {
  document.body.dataset.tab = 'yes';
});
addEventListener('dragover', event => {
  event.preventDefault();
  tab.element.classList.add('over');
});
addEventListener('dragleave', () => tab.element.classList.remove('over'));
addEventListener('drop', event => {
  event.preventDefault();
  tab.element.classList.remove('over');
  tab.take(event.dataTransfer.files);
});
