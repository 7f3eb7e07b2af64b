// The place to type: fields become bytes, and bytes fields, while one types. A worker answers.

const EXAMPLE = ':method: GET\n:scheme: https\n:authority: example.com\n:path: /\naccept: */*\nx-mine: hello\n';

class Typing {
  constructor(tab) {
    Object.assign(this, {tab, worker: null, asked: 0});
    this.fields = this.area('fields', 'Fields, a line each');
    this.bytes = this.area('bytes', 'Bytes of a section, in hexadecimal');
    this.bits = element('pre', 'bits');
    this.bits.tabIndex = 0;
    this.bits.setAttribute('aria-label', 'The bytes with their bits');
    this.fault = element('p', 'status');
    this.fault.setAttribute('aria-live', 'polite');
    this.fields.oninput = () => this.ask({fields: this.fields.value});
    this.bytes.oninput = () => this.ask({hex: this.bytes.value});
    const areas = [this.fields, this.bytes].map(it => {
      const label = Object.assign(element('label', '', it.title), {htmlFor: it.id});
      return element('div', '', label, it);
    });
    this.element = element(
      'details', 'typing', element('summary', '', 'Type fields or bytes'),
      element(
        'p', '',
        'QPACK writes a field as an index of a table, or as a text. Type fields to see their bytes, or bytes to see ' +
          'their fields.'),
      element('div', 'columns', ...areas), this.fault, this.bits);
    this.element.addEventListener('toggle', () => {
      if (this.element.open && !this.fields.value && !this.bytes.value) this.begin();
    });
  }

  area(id, title) {
    const made = Object.assign(element('textarea'), {id, title, rows: 7, spellcheck: false});
    made.setAttribute('autocapitalize', 'off');
    return made;
  }

  begin() {
    this.fields.value = EXAMPLE;
    this.ask({fields: EXAMPLE});
  }

  // Has the worker read what was typed. Only the newest answer is shown.
  ask(typed) {
    if (!this.worker) {
      this.worker = this.tab.makeWorker();
      this.worker.onmessage = ({data: found}) => this.show(found);
    }
    this.asked++;
    this.worker.postMessage({typed: {...typed, module: this.tab.module, number: this.asked}});
  }

  show({number, hex, fields, bits = '', fault = ''}) {
    if (number !== this.asked) return;
    if (hex !== undefined && document.activeElement !== this.bytes) this.bytes.value = hex;
    if (fields !== undefined && document.activeElement !== this.fields) this.fields.value = fields;
    this.bits.textContent = bits;
    this.fault.textContent = fault;
    this.element.dataset.shown = number;
  }
}
