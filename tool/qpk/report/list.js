// A list of any number of rows, of which those in view are made. Arrows, Page Up, Page Down, Home and End choose a row.

const ROW = 26; // pixels
const MOST_HEIGHT = 8e6; // pixels, of which every browser has as many; a longer list is scrolled faster
const AROUND = 8; // rows that are made beyond those in view

class List {
  // |columns| have a name, a class, a width, and whether they sort; |cells| returns the parts of each cell of a row.
  constructor({name, columns, cells, classOf = () => '', onChoose, onOpen, onSort, onRender = () => {}}) {
    Object.assign(this, {name, columns, cells, classOf, onChoose, onOpen, onRender, count: 0, chosen: NONE});
    this.rows = new Map();
    this.head = element('div', 'row head');
    this.head.setAttribute('role', 'row');
    this.head.append(...columns.map(column => this.headOf(column, onSort)));
    this.body = element('div', 'rows');
    this.body.setAttribute('role', 'rowgroup');
    this.element = element('div', 'list ' + name, this.head, this.body);
    this.element.tabIndex = 0;
    this.element.setAttribute('role', 'grid');
    this.element.setAttribute('aria-label', name);
    this.element.style.setProperty('--columns', columns.map(it => it.width).join(' '));
    this.element.style.setProperty('--narrow', columns.filter(it => !it.isWide).map(it => it.narrow || it.width).join(' '));
    this.element.addEventListener('scroll', () => this.renderSoon(), {passive: true});
    this.element.addEventListener('keydown', event => this.press(event));
    this.body.addEventListener('click', ({target}) => {
      const row = target.closest('.row');
      if (row && !target.closest('a')) this.choose(Number(row.dataset.place));
    });
    new ResizeObserver(() => this.renderSoon()).observe(this.element);
  }

  headOf(column, onSort) {
    const made = element('div', column.className), {key, text, title} = column;
    made.setAttribute('role', 'columnheader');
    if (key) {
      made.append(makeButton('', [text], () => onSort(key)));
    } else made.append(text);
    if (title) made.title = title;
    column.head = made;
    return made;
  }

  sorted(key, isDown) {
    for (const column of this.columns)
      column.head.setAttribute('aria-sort', column.key !== key ? 'none' : isDown ? 'descending' : 'ascending');
  }

  // Shows other rows, from the top.
  show(count) {
    this.count = count;
    this.chosen = NONE;
    this.element.setAttribute('aria-rowcount', count + 1);
    this.element.removeAttribute('aria-activedescendant');
    this.body.style.height = Math.min(count * ROW, MOST_HEIGHT) + 'px';
    this.element.scrollTop = 0;
    this.redraw();
  }

  redraw() {
    this.rows.forEach(row => row.remove());
    this.rows.clear();
    this.render();
  }

  get inView() { return Math.max(1, Math.floor((this.element.clientHeight - ROW) / ROW)); }

  // The row at the top, with its fraction: of a list that is longer than MOST_HEIGHT by the share that is scrolled.
  get top() {
    const long = this.count * ROW - MOST_HEIGHT, {scrollTop, clientHeight} = this.element;
    if (long <= 0) return scrollTop / ROW;
    return (this.count - this.inView) * scrollTop / Math.max(1, MOST_HEIGHT + ROW - clientHeight);
  }

  renderSoon() {
    if (this.isWaiting) return;
    this.isWaiting = true;
    requestAnimationFrame(() => {
      this.isWaiting = false;
      this.render();
    });
  }

  render() {
    const {top} = this, {scrollTop} = this.element;
    const first = Math.max(0, Math.floor(top) - AROUND);
    const end = Math.min(this.count, Math.ceil(top) + this.inView + AROUND);
    for (const [place, row] of this.rows)
      if (place < first || place >= end) row.remove(), this.rows.delete(place);
    for (let place = first; place < end; place++) {
      let row = this.rows.get(place);
      if (!row) this.rows.set(place, row = this.make(place)), this.body.append(row);
      row.style.transform = `translateY(${scrollTop + (place - top) * ROW}px)`;
    }
    this.onRender(Math.floor(top), Math.min(this.count, Math.ceil(top) + this.inView));
  }

  make(place) {
    const row = element('div', `row ${this.classOf(place)}${place === this.chosen ? ' chosen' : ''}`);
    row.id = `${this.name}-${place}`;
    row.dataset.place = place;
    row.setAttribute('role', 'row');
    row.setAttribute('aria-rowindex', place + 2);
    row.setAttribute('aria-selected', place === this.chosen);
    row.append(...this.cells(place).map((part, i) => {
      const cell = element('div', this.columns[i].className, part);
      cell.setAttribute('role', 'gridcell');
      return cell;
    }));
    return row;
  }

  mark(place, isChosen) {
    const row = this.rows.get(place);
    row?.classList.toggle('chosen', isChosen);
    row?.setAttribute('aria-selected', isChosen);
  }

  // Chooses a row, and shows it. |isSilent| where the page does so itself.
  choose(place, isSilent = false) {
    this.mark(this.chosen, false);
    this.chosen = place;
    if (place === NONE) return;
    this.reveal(place);
    this.mark(place, true);
    this.element.setAttribute('aria-activedescendant', `${this.name}-${place}`);
    if (!isSilent) this.onChoose(place);
  }

  reveal(place) {
    const {top, inView} = this, long = this.count * ROW - MOST_HEIGHT;
    const wanted = place < top ? place : place + 1 > top + inView ? place + 1 - inView : top;
    if (wanted !== top) {
      const height = Math.max(1, MOST_HEIGHT + ROW - this.element.clientHeight);
      this.element.scrollTop = long <= 0 ? wanted * ROW : wanted * height / (this.count - inView);
    }
    this.render();
  }

  press(event) {
    const steps = {ArrowDown: 1, ArrowUp: -1, PageDown: this.inView, PageUp: -this.inView, Home: -Infinity, End: Infinity};
    if (event.target !== this.element || event.ctrlKey || event.altKey || event.metaKey || !this.count) return;
    if (event.key === 'Enter' && this.chosen !== NONE) this.onOpen(this.chosen);
    else if (event.key in steps) {
      const begin = this.chosen === NONE && steps[event.key] > 0 ? -1 : this.chosen;
      this.choose(Math.min(this.count - 1, Math.max(0, begin + steps[event.key])));
    } else return;
    event.preventDefault();
  }
}
