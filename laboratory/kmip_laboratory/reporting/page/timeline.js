'use strict';
/* A timeline of the calls of one recording. Bars are drawn for what is in view alone; where there are too many, they
   are drawn together, each kind by its share. Texts of messages only ever become text nodes. */

const SVG = 'http://www.w3.org/2000/svg';
const KINDS = ['success', 'failed', 'refused', 'undone', 'open', 'fault', 'aside'];
const WORDS = ['success', 'failed', 'message refused', 'undone', 'no answer', 'named by the verdict', 'set aside'];
const ROW = 26, BAR = 18, LABEL = 150, AXIS = 24, MOST_BARS = 1200, CLOSEST = 8;
// Where bars are drawn together, each kind has its share of a column, the worst at the foot.
const FROM_THE_FOOT = [4, 2, 1, 3, 0, 6];
// Stripes in the bars of a kind, so that no colour alone tells it: how far below a bar's top.
const STRIPES = { failed: [15.5], refused: [2.5, 15.5], undone: [2.5] };
// What is in view when the page opens: so many marks at least, and at most.
const LEAST_AT_FIRST = 80, MOST_AT_FIRST = 240;
// By object there are at most so many rows: those of the objects of the calls in view.
const MOST_ROWS = 200;

function drawn(name, attributes, text) {
  const made = document.createElementNS(SVG, name);
  for (const key in attributes) made.setAttribute(key, attributes[key]);
  if (text !== undefined) made.textContent = text;
  return made;
}

function clock(seconds) {
  const date = new Date(seconds * 1000);
  return isNaN(date) ? String(seconds) : date.toISOString().slice(11, 19);
}

class Timeline {
  constructor(root, data, choose) {
    this.data = data;
    this.choose = choose;
    this.chosen = -1;
    this.ordered = false;
    this.byObject = false;
    this.last = Math.max(1, data.marks);
    this.overview = root.querySelector('.overview');
    this.rows = root.querySelector('.lanes svg');
    this.box = root.querySelector('.lanes');
    this.place = new Map(data.number.map((number, index) => [number, index]));
    this.fault = this.place.has(data.fault) ? this.place.get(data.fault) : -1;
    this.faults = data.faults.filter(number => this.place.has(number)).map(number => this.place.get(number));
    this.isFault = new Set(this.faults);
    this.story = new Set(data.story.map(number => this.place.get(number)));
    this.laid = this.rowsOf([]);
    for (const svg of [this.overview, this.rows]) svg.setAttribute('preserveAspectRatio', 'none');
    this.listen(root);
    this.start();
    new ResizeObserver(() => this.draw()).observe(this.box);
  }

  end(index) { const end = this.data.end[index]; return end < 0 ? this.last + 1 : end; }
  kind(index) { return this.isFault.has(index) ? 5 : this.data.aside[index] >= 0 ? 6 : this.data.kind[index]; }
  width() { return Math.max(320, this.box.clientWidth || 900); }
  x(mark) { return LABEL + (mark - this.from) / (this.to - this.from) * (this.width() - LABEL - 12); }

  start() {
    if (this.fault < 0 || this.last <= MOST_AT_FIRST) this.view(0, MOST_AT_FIRST);
    else {
      const at = this.data.begin[this.fault], half = LEAST_AT_FIRST / 2, first = at - MOST_AT_FIRST + LEAST_AT_FIRST;
      const named = [...this.story].map(index => this.data.begin[index]).filter(mark => mark >= first && mark <= at);
      this.view(Math.min(at, ...named) - half, at + half);
    }
    if (this.fault >= 0) this.reveal(this.fault);
  }

  view(from, to) {
    const span = Math.min(Math.max(to - from, CLOSEST), this.last + 1);
    this.from = Math.min(Math.max(0, from), this.last + 1 - span);
    this.to = this.from + span;
    if (!this.waiting) {
      this.waiting = true;
      requestAnimationFrame(() => { this.waiting = false; this.draw(); });
    }
  }

  zoom(times, middle) {
    const at = middle === undefined ? (this.from + this.to) / 2 : middle;
    this.view(at - (at - this.from) * times, at + (this.to - at) * times);
  }

  pan(part) { const by = (this.to - this.from) * part; this.view(this.from + by, this.to + by); }

  show(index) {
    if (index < 0 || index >= this.data.number.length) return;
    const begin = this.data.begin[index], end = Math.min(this.end(index), begin + 40), span = this.to - this.from;
    if (begin < this.from || end > this.to) this.view((begin + end - span) / 2, (begin + end + span) / 2);
    this.chosen = index;
    this.reveal(index);
    this.view(this.from, this.to);
    this.choose(index);
  }

  // The verdict's call; where several are named the next of them behind the one that is chosen.
  toFault() {
    const next = this.faults.indexOf(this.chosen) + 1;
    if (this.faults.length) this.show(this.faults[next % this.faults.length]); else this.start();
  }

  // The rows: what each is of, and in which each call of these stands. A client has its own; an object has as many as
  // there are calls at once that name it, that of the verdict's call the first.
  rowsOf(found) {
    if (!this.byObject) {
      const clients = this.data.lanes.map(client => this.data.clients[client]);
      return { names: clients, gone: [], of: index => [this.data.lane[index]], left: 0 };
    }
    const calls = new Map(this.fault < 0 ? [] : this.data.named[this.fault].map(object => [object, []]));
    for (const index of found) {
      for (const object of this.data.named[index]) {
        if (!calls.has(object)) calls.set(object, []);
        calls.get(object).push(index);
      }
    }
    const names = [], gone = [], rows = new Map();
    let left = 0;
    for (const [object, named] of calls) {
      if (names.length >= MOST_ROWS) { left++; continue; }
      this.rowsOfObject(object, named, names, rows);
      while (gone.length < names.length) gone.push(this.data.gone[object]);
    }
    return { names, gone, of: index => rows.get(index) || [], left };
  }

  rowsOfObject(object, named, names, rows) {
    const first = names.length, free = [];
    for (const index of named) {
      let row = free.findIndex(until => until < this.data.begin[index]);
      if (row < 0) { row = free.length; names.push(this.data.objects[object]); }
      free[row] = this.end(index);
      if (!rows.has(index)) rows.set(index, []);
      rows.get(index).push(first + row);
    }
    if (!named.length) names.push(this.data.objects[object]);
  }

  reveal(index) {
    const top = (this.rowsOf(this.inView()).of(index)[0] || 0) * ROW, box = this.box;
    if (top < box.scrollTop) box.scrollTop = top;
    if (top + ROW * 2 > box.scrollTop + box.clientHeight) box.scrollTop = top + ROW * 2 - box.clientHeight;
  }

  inView() {
    const found = [], begin = this.data.begin;
    let low = 0, high = begin.length;
    while (low < high) {
      const middle = (low + high) >> 1;
      if (begin[middle] <= this.to) low = middle + 1; else high = middle;
    }
    for (let index = 0; index < low; index++) if (this.end(index) >= this.from) found.push(index);
    return found;
  }

  draw() {
    const found = this.inView(), width = this.width();
    this.laid = this.rowsOf(found);
    const names = this.laid.names, height = names.length * ROW + AXIS;
    this.rows.setAttribute('height', height);
    this.rows.setAttribute('viewBox', `0 0 ${width} ${height}`);
    this.rows.replaceChildren();
    this.axis(names.length * ROW);
    names.forEach((name, lane) => this.row(name, lane, width));
    if (found.length <= MOST_BARS) {
      found.forEach(index => this.laid.of(index).forEach((lane, nth) => this.bar(index, lane, nth)));
    }
    else this.together(found);
    if (this.ordered && found.length <= MOST_BARS) this.order(found);
    this.map(width);
    this.tell(found.length);
  }

  row(name, lane, width) {
    const y = lane * ROW;
    this.rows.append(drawn('line', { class: 'row', x1: 0, x2: width, y1: y + ROW, y2: y + ROW }));
    if (lane && this.laid.names[lane - 1] === name) return;
    const since = this.laid.gone[lane];
    const text = drawn('text', { class: since ? 'soft' : '', x: 8, y: y + 17 },
      name.length > 20 ? name.slice(0, 19) + '…' : name || '(no name)');
    text.append(drawn('title', {}, since ? `${name}, set aside since ${since}` : name));
    this.rows.append(text);
  }

  axis(top) {
    let before = null, right = -100;
    for (const index of this.inView()) {
      const stamp = this.data.stamp[index];
      if (stamp === null || stamp === before) continue;
      const x = Math.max(LABEL, this.x(this.data.begin[index]));
      if (x - right > 70 && x < this.width() - 60) {
        this.rows.append(drawn('line', { class: 'tick', x1: x, x2: x, y1: 0, y2: top + 6 }));
        this.rows.append(drawn('text', { class: 'soft', x: x + 3, y: top + 17 }, clock(stamp)));
        right = x;
      }
      before = stamp;
    }
    this.rows.append(drawn('text', { class: 'soft', x: 8, y: top + 17 }, 'Time Stamp, UTC'));
  }

  bar(index, lane, nth) {
    const data = this.data, kind = KINDS[this.kind(index)], y = lane * ROW + 4;
    const left = Math.max(LABEL - 4, this.x(data.begin[index]));
    const right = Math.min(this.width(), this.x(this.end(index)));
    const width = Math.max(4, right - left);
    if (right < LABEL) return;
    const names = ['bar', kind];
    if (this.story.has(index) && !this.isFault.has(index)) names.push('story');
    const rect = drawn('rect', { class: names.join(' '), x: left, y, width, height: BAR, rx: 2, 'data-call': index,
      role: 'option', id: this.name(index) + (nth ? `-${nth}` : ''), 'aria-label': this.label(index),
      'aria-selected': index === this.chosen ? 'true' : 'false' });
    rect.append(drawn('title', {}, this.label(index)));
    this.rows.append(rect);
    for (const below of STRIPES[kind] || []) {
      this.rows.append(drawn('path', { class: 'stripe', d: `M${left} ${y + below}h${width}` }));
    }
    if (index === this.chosen) {
      this.rows.append(drawn('rect', {
        class: 'chosen', x: left - 3, y: y - 3, width: width + 6, height: BAR + 6, rx: 3 }));
    }
    if (kind === 'open') {
      this.rows.append(drawn('path', { class: 'break', d: `M${left + width - 9} ${y + 3}l6 6l-6 6z` }));
    }
    if (kind === 'fault') this.rows.append(drawn('path', { class: 'flag', d: `M${left - 1} ${y - 4}h10l-5 6z` }));
    const turn = data.turn[index];
    if (turn && width > 8 + 7 * String(turn).length) {
      const words = kind === 'aside' ? 'in grey' : 'in';
      this.rows.append(drawn('text', { class: words, x: left + 4, y: y + 13 }, String(turn)));
    }
  }

  label(index) {
    const data = this.data, turn = data.turn[index];
    const client = data.clients[data.lanes[data.lane[index]]];
    return `call ${data.number[index]}, ${client}, ${data.what[data.does[index]]}, ${WORDS[data.kind[index]]}` +
      (turn ? `, turn ${turn}` : '') + (this.isFault.has(index) ? ', named by the verdict' : '') +
      (data.aside[index] >= 0 ? `, set aside: ${data.why[data.aside[index]]}` : '');
  }

  name(index) { return `call-${this.data.recording}-${this.data.number[index]}`; }

  together(found) {
    const columns = Math.ceil(this.width() / 3), shares = new Map();
    for (const index of found) {
      const kind = this.kind(index);
      const first = Math.max(0, Math.floor(this.x(this.data.begin[index]) / 3));
      const last = Math.min(columns, Math.floor(this.x(this.end(index)) / 3));
      for (const lane of this.laid.of(index)) {
        for (let column = first; column <= last; column++) {
          const at = lane * 10000 + column;
          if (!shares.has(at)) shares.set(at, [0, 0, 0, 0, 0, 0, 0]);
          shares.get(at)[kind]++;
        }
      }
    }
    for (const [at, counts] of shares) {
      const x = (at % 10000) * 3, top = Math.floor(at / 10000) * ROW + 4;
      if (x >= LABEL - 4) this.column(x, top, counts);
    }
  }

  column(x, top, counts) {
    const all = counts.reduce((sum, count) => sum + count, 0);
    let foot = top + BAR;
    for (const kind of counts[5] ? [5] : FROM_THE_FOOT) {
      if (!counts[kind]) continue;
      const rest = foot - top, share = Math.max(3, BAR * counts[kind] / all);
      const height = kind === 5 || !FROM_THE_FOOT.slice(FROM_THE_FOOT.indexOf(kind) + 1).some(above => counts[above]) ?
        rest : Math.min(rest, share);
      this.rows.append(drawn('rect', { class: KINDS[kind], x, width: 3, y: foot - height, height }));
      foot -= height;
    }
  }

  order(found) {
    const isDrawn = index => this.data.turn[index] && this.laid.of(index).length;
    const path = found.filter(isDrawn).sort((a, b) => this.data.turn[a] - this.data.turn[b]);
    let moment = 0;
    const points = path.map(index => {
      moment = Math.max(moment, this.data.begin[index]);
      const x = Math.max(LABEL, this.x(Math.min(moment + 0.5, this.end(index))));
      return `${x.toFixed(1)},${this.laid.of(index)[0] * ROW + 4 + BAR / 2}`;
    });
    this.rows.append(drawn('polyline', { class: 'order', points: points.join(' ') }));
  }

  map(width) {
    const height = 30, at = mark => LABEL + mark / (this.last + 1) * (width - LABEL - 12);
    this.overview.setAttribute('viewBox', `0 0 ${width} ${height}`);
    this.overview.setAttribute('height', height);
    if (this.mapped !== width) {
      this.mapped = width;
      this.drawing = drawn('g', {});
      const busy = new Map();
      for (let index = 0; index < this.data.begin.length; index++) {
        const x = Math.floor(at(this.data.begin[index]) / 2) * 2, kind = this.kind(index);
        const column = busy.get(x) || [0, 0];
        column[0]++;
        if (kind === 1 || kind === 4) column[1]++;
        busy.set(x, column);
      }
      let most = 1;
      for (const column of busy.values()) most = Math.max(most, column[0]);
      for (const [x, column] of busy) {
        const tall = Math.max(2, 22 * column[0] / most), low = 22 * column[1] / most;
        this.drawing.append(drawn('rect', { class: 'success', x, width: 2, y: 26 - tall, height: tall }));
        if (low) this.drawing.append(drawn('rect', { class: 'failed', x, width: 2, y: 26 - low, height: low }));
      }
      for (const index of this.story) {
        const x = at(this.data.begin[index]) - 1;
        this.drawing.append(drawn('rect', { class: 'fault', x, width: 2, y: 0, height: 5 }));
      }
      for (const index of this.faults) {
        const x = at(this.data.begin[index]);
        this.drawing.append(drawn('path', { class: 'flag', d: `M${x - 5} 0h10l-5 8z` }));
        this.drawing.append(drawn('rect', { class: 'fault', x: x - 1, width: 2, y: 4, height: 24 }));
      }
      this.drawing.append(drawn('text', { class: 'soft', x: 8, y: 19 }, 'whole recording'));
    }
    const left = at(this.from);
    this.overview.replaceChildren(this.drawing,
      drawn('rect', { class: 'window', x: left, width: Math.max(3, at(this.to) - left), y: 1, height: height - 2 }));
  }

  tell(count) {
    this.box.setAttribute('aria-activedescendant', this.chosen < 0 ? '' : this.name(this.chosen));
    this.said.textContent = `${count} of ${this.data.number.length} calls in view` +
      (count > MOST_BARS ? ': drawn together; zoom in to see each' : '') +
      (this.laid.left ? `; ${this.laid.left} more objects than there are rows for` : '');
  }

  mark(event, svg) {
    const box = svg.getBoundingClientRect(), x = (event.clientX - box.left) * this.width() / box.width;
    return (x - LABEL) / (this.width() - LABEL - 12);
  }

  listen(root) {
    this.said = root.querySelector('.said');
    const does = {
      in: () => this.zoom(0.5), out: () => this.zoom(2), left: () => this.pan(-0.5), right: () => this.pan(0.5),
      all: () => this.view(0, this.last + 1), fault: () => this.toFault(),
      order: button => {
        this.ordered = !this.ordered;
        button.setAttribute('aria-pressed', this.ordered);
        this.draw();
      },
      objects: button => {
        this.byObject = !this.byObject;
        button.setAttribute('aria-pressed', this.byObject);
        this.box.scrollTop = 0;
        this.draw();
      },
    };
    for (const button of root.querySelectorAll('.tools button')) {
      button.addEventListener('click', () => does[button.dataset.does](button));
    }
    this.rows.addEventListener('click', event => {
      const call = event.target.getAttribute('data-call');
      if (call !== null && !this.dragged) this.show(Number(call));
    });
    this.box.addEventListener('keydown', event => this.key(event));
    this.rows.addEventListener('wheel', event => {
      if (!event.ctrlKey && !event.shiftKey) return;
      event.preventDefault();
      const middle = this.from + this.mark(event, this.rows) * (this.to - this.from);
      this.zoom(event.deltaY > 0 ? 1.25 : 0.8, middle);
    }, { passive: false });
    this.drag();
    this.overview.addEventListener('click', event => {
      const at = this.mark(event, this.overview) * (this.last + 1), half = (this.to - this.from) / 2;
      this.view(at - half, at + half);
    });
  }

  drag() {
    let down = null;
    this.rows.addEventListener('pointerdown', event => {
      down = [event.clientX, this.from, this.to];
      this.dragged = false;
    });
    window.addEventListener('pointermove', event => {
      if (down === null || Math.abs(event.clientX - down[0]) < 4) return;
      this.dragged = true;
      const by = (down[0] - event.clientX) / (this.width() - LABEL) * (down[2] - down[1]);
      this.view(down[1] + by, down[2] + by);
    });
    window.addEventListener('pointerup', () => { down = null; });
  }

  key(event) {
    const many = this.data.number.length, now = this.chosen < 0 ? this.middle() : this.chosen;
    const does = {
      ArrowRight: () => this.show(this.chosen < 0 ? now : Math.min(many - 1, now + 1)),
      ArrowLeft: () => this.show(this.chosen < 0 ? now : Math.max(0, now - 1)),
      ArrowDown: () => this.show(this.beside(now, 1)), ArrowUp: () => this.show(this.beside(now, -1)),
      Home: () => this.show(0), End: () => this.show(many - 1), Enter: () => this.show(now), ' ': () => this.show(now),
      PageDown: () => this.pan(0.5), PageUp: () => this.pan(-0.5), '+': () => this.zoom(0.5), '-': () => this.zoom(2),
      '0': () => this.view(0, this.last + 1), f: () => this.toFault(),
    }[event.key];
    if (!does || event.ctrlKey || event.altKey || event.metaKey || !many) return;
    event.preventDefault();
    does();
  }

  middle() { const found = this.inView(); return this.fault >= 0 ? this.fault : found[found.length >> 1] || 0; }

  beside(index, step) {
    const data = this.data, all = this.byObject ? this.inView() : data.number.keys();
    const laid = this.laid, lane = (laid.of(index)[0] || 0) + step;
    let best = index, near = Infinity;
    for (const other of all) {
      const far = Math.abs(data.begin[other] - data.begin[index]);
      if (far < near && laid.of(other).includes(lane)) { best = other; near = far; }
    }
    return best;
  }
}
