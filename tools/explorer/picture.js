// A plan as a picture: each line of the program a box, packs as bands of lanes, what goes in above. It is as wide as it may be, and as high
// as it has to be; drawing takes time in proportion to boxes and lines.

const SVG = 'http://www.w3.org/2000/svg';
const LETTER = 7.25;
const TITLE = 18;
const CELL = 20;
const TICKS = 7;
const PAD = 6;
const GAP = 10;
const ROW_GAP = 34;
const MOST_CELLS = 4096;
const COLOURS = 6;

function element(name, attributes, ...children) {
  const made = document.createElementNS(SVG, name);
  for (const [key, value] of Object.entries(attributes)) made.setAttribute(key, value);
  made.append(...children);
  return made;
}

function short(text, most) {
  return text.length <= most ? text : text.slice(0, Math.max(1, most - 2)) + '..';
}

// What stands in the box of a lane, and its class.
function labelled(lane, units) {
  if (lane.unit !== null && lane.unit !== undefined) return [units[lane.unit].label, ''];
  if (lane.inserted !== undefined) return [typeof lane.inserted === 'number' ? units[lane.inserted].label : lane.inserted, 'moved'];
  if (lane.moved !== undefined && lane.moved !== null) return [units[lane.moved].label, ''];
  if (lane.number !== undefined) return [String(lane.number), 'number'];
  return ['', 'empty'];
}

// A constant in a few words: its lanes, or the one number of all.
function constant(lanes) {
  const numbers = lanes.map((lane) => lane.number);
  return numbers.every((one) => one === numbers[0]) ? `const ${numbers[0]} ×${numbers.length}` : `const ${numbers.join(' ')}`;
}

// The size of a box, and where its lanes stand in it.
class Box {
  constructor(node, units, width) {
    this.node = node;
    this.labels = node.kind === 'const' ? [] : node.lanes.map((lane) => labelled(lane, units));
    this.isSmall = node.kind === 'scalar' || node.kind === 'const' || node.kind === 'extract';
    this.title = this.titleOf(units);
    this.ticks = node.lanes.some((lane) => lane.inside && lane.inside.length) ? TICKS : 0;
    const most = width - 2 * GAP;
    if (this.isSmall) {
      this.title = short(this.title, Math.floor((most - 2 * PAD) / LETTER));
      this.width = Math.max(34, this.title.length * LETTER + 2 * PAD);
      this.height = CELL + 2 + this.ticks;
      return;
    }
    const cell = Math.max(30, ...this.labels.map(([label]) => Math.min(label.length, 14) * LETTER + 8));
    const room = Math.max(1, Math.floor((most - 2 * PAD + 3) / (cell + 3)));
    this.columns = Math.min(node.lanes.length, room < 2 ? 1 : 2 ** Math.floor(Math.log2(room)));
    this.cell = Math.min(cell, most - 2 * PAD);
    const lines = Math.ceil(node.lanes.length / this.columns);
    const cost = ` · cost ${node.cost}`;
    this.title = short(this.title, Math.floor((most - 2 * PAD) / LETTER) - cost.length) + cost;
    this.width = Math.max(this.columns * (this.cell + 3) - 3, this.title.length * LETTER) + 2 * PAD;
    this.height = TITLE + lines * (CELL + this.ticks + 3) + PAD;
  }

  titleOf(units) {
    const node = this.node;
    if (node.kind === 'const') return constant(node.lanes);
    if (node.kind === 'scalar') return this.labels[0][0] || node.title;
    if (node.kind === 'extract') return `▾ ${this.labels[0][0] || node.title}`;
    if (node.kind === 'insert') return '▴ inserts';
    return node.title;
  }
}

// Boxes by level, those of a level in the order of what they hang on, each level broken into lines that are not too wide.
function placed(graph, width) {
  const boxes = graph.nodes.map((node) => new Box(node, graph.units, width));
  const levels = [];
  for (const box of boxes) (levels[box.node.level] ||= []).push(box);
  let y = GAP;
  for (const level of levels) {
    if (!level) continue;
    for (const box of level) {
      const above = box.node.inputs.map((one) => boxes[one].middle ?? width / 2);
      box.wish = above.length ? above.reduce((sum, one) => sum + one, 0) / above.length : box.node.id;
    }
    const isFirst = level.every((box) => !box.node.inputs.length);
    level.sort((one, two) => isFirst ? one.node.id - two.node.id : one.wish - two.wish || one.node.id - two.node.id);
    for (const line of broken(level, width)) y = lineAt(line, y, width) + GAP;
    y += ROW_GAP - GAP;
  }
  return { boxes, height: Math.max(y - ROW_GAP + GAP, 40) };
}

function broken(level, width) {
  const lines = [];
  let room = 0;
  for (const box of level) {
    if (room < box.width + GAP) {
      lines.push([]);
      room = width - GAP;
    }
    lines[lines.length - 1].push(box);
    room -= box.width + GAP;
  }
  return lines;
}

// Puts a line of boxes into the middle; gives the place below it.
function lineAt(line, y, width) {
  let x = (width - line.reduce((sum, box) => sum + box.width + GAP, -GAP)) / 2;
  for (const box of line) {
    Object.assign(box, { x, y, middle: x + box.width / 2 });
    x += box.width + GAP;
  }
  return y + Math.max(...line.map((box) => box.height));
}

function hash(text) {
  let number = 7;
  for (const letter of text) number = (number * 31 + letter.charCodeAt(0)) >>> 0;
  return number;
}

export class Picture {
  // `tell` is called with what is looked at, `choose` with a line of the kernel.
  constructor(host, tell, choose) {
    Object.assign(this, { host, tell, choose, graph: null, at: null, width: 0 });
    host.tabIndex = 0;
    host.setAttribute('role', 'application');
    host.setAttribute('aria-roledescription', 'plan');
    host.setAttribute('aria-label', 'Plan. Arrow keys move among boxes, Enter marks the line of the kernel.');
    host.setAttribute('aria-describedby', 'told');
    host.addEventListener('pointerover', (event) => this.look(this.spot(event.target)));
    host.addEventListener('click', (event) => this.take(this.spot(event.target)));
    host.addEventListener('keydown', (event) => this.key(event));
    host.addEventListener('focus', () => this.at || this.look(this.first()));
    new ResizeObserver(() => this.fit()).observe(host);
  }

  show(graph) {
    this.graph = graph;
    this.at = null;
    this.width = 0;
    this.fit();
  }

  // Draws anew where the width has changed.
  fit() {
    const width = Math.floor(this.host.clientWidth);
    if (!this.graph || width < 100 || width === this.width) return;
    this.width = width;
    this.draw();
  }

  draw() {
    const cells = this.graph.nodes.reduce((sum, node) => sum + node.lanes.length, 0);
    if (cells > MOST_CELLS) {
      this.host.textContent = `The plan has ${cells} boxes, more than the ${MOST_CELLS} that are drawn; the program has its lines.`;
      this.boxes = [];
      return;
    }
    const { boxes, height } = placed(this.graph, this.width);
    this.boxes = boxes;
    this.svg = element('svg', { xmlns: SVG, class: 'plan', width: this.width, height, viewBox: `0 0 ${this.width} ${height}`, role: 'img',
      'aria-label': `${this.graph.packs} packs` });
    this.edges = boxes.map(() => []);
    const edges = element('g', {});
    for (const box of boxes) box.node.inputs.forEach((one, at) => edges.append(this.edge(boxes[one], box, at)));
    this.svg.append(edges, ...boxes.map((box) => this.box(box)));
    this.host.replaceChildren(this.svg);
    if (this.at) this.look(this.at);
  }

  edge(from, to, at) {
    const x = to.x + to.width * (at + 1) / (to.node.inputs.length + 1);
    const y = from.y + from.height;
    const start = Math.min(Math.max(x, from.x + 8), from.x + from.width - 8);
    const bend = Math.max(12, Math.min(60, (to.y - y) / 2));
    const made = element('path', { class: 'edge', d: `M${start} ${y}C${start} ${y + bend} ${x} ${to.y - bend} ${x} ${to.y}` });
    this.edges[from.node.id].push(made);
    this.edges[to.node.id].push(made);
    return made;
  }

  box(box) {
    const { node, x, y } = box;
    const kind = node.kind === 'call' ? `call call-${hash(node.title) % COLOURS}` : node.kind;
    const isPack = ['load', 'store', 'call'].includes(node.kind);
    const made = element('g', { class: `node ${kind}${isPack ? ' pack' : ''}`, transform: `translate(${x} ${y})`, 'data-node': node.id });
    made.append(element('rect', { class: 'body', width: box.width, height: box.height }));
    box.element = made;
    box.cells = [];
    if (box.isSmall) {
      const cell = element('g', { class: 'cell', 'data-lane': 0 });
      cell.append(element('rect', { x: 2, y: 2, width: box.width - 4, height: box.height - 4 }),
        element('text', { x: box.width / 2, y: 15 }, box.title));
      this.tick(cell, node.lanes[0] || {}, 4, CELL - 1, box.width - 8);
      made.append(cell);
      box.cells.push(cell);
      return made;
    }
    made.append(element('text', { class: 'title', x: PAD, y: 13.5 }, box.title));
    node.lanes.forEach((lane, at) => made.append(this.cell(box, lane, at)));
    return made;
  }

  cell(box, lane, at) {
    const x = PAD + (at % box.columns) * (box.cell + 3);
    const y = TITLE + Math.floor(at / box.columns) * (CELL + box.ticks + 3);
    const [label, kind] = box.labels[at];
    const made = element('g', { class: 'cell', 'data-lane': at });
    made.append(element('rect', { x, y, width: box.cell, height: CELL + box.ticks, ...(kind === 'empty' ? { class: 'empty' } : {}) }));
    const text = short(label, Math.max(3, Math.floor((box.cell - 4) / LETTER)));
    made.append(element('text', { x: x + box.cell / 2, y: y + 14.5, class: kind }, text));
    this.tick(made, lane, x + 2, y + CELL - 1, box.cell - 4);
    box.cells.push(made);
    return made;
  }

  // A small square for each operation that a lane does inside.
  tick(cell, lane, x, y, width) {
    const count = lane.inside ? lane.inside.length : 0;
    const most = Math.min(count, Math.floor(width / 5));
    for (let at = 0; at < most; at++) cell.append(element('rect', { class: 'tick', x: x + 5 * at, y, width: 3.5, height: 3.5 }));
  }

  // The node and the lane of something that is drawn.
  spot(target) {
    const node = target.closest && target.closest('[data-node]');
    if (!node) return null;
    const cell = target.closest('[data-lane]');
    return { node: Number(node.dataset.node), lane: cell ? Number(cell.dataset.lane) : null };
  }

  first() {
    return this.boxes && this.boxes.length ? { node: 0, lane: 0 } : null;
  }

  look(at) {
    if (!at || !this.boxes || !this.boxes[at.node]) return;
    for (const one of this.host.querySelectorAll('.chosen, .lit')) one.classList.remove('chosen', 'lit');
    this.at = at;
    const box = this.boxes[at.node];
    const cell = at.lane === null ? null : box.cells[at.lane];
    (cell || box.element).classList.add('chosen');
    box.element.classList.add('lit');
    for (const edge of this.edges[at.node]) edge.classList.add('lit');
    this.tell(box.node, at.lane);
  }

  take(at) {
    if (!at) return;
    this.look(at);
    const unit = this.unitOf(at);
    if (unit) this.choose(unit.line);
  }

  unitOf({ node, lane }) {
    const lanes = this.graph.nodes[node].lanes;
    const some = lane === null ? lanes : [lanes[lane]];
    const found = some.map((one) => one && (one.unit ?? one.moved ?? one.inserted)).find((one) => typeof one === 'number');
    return found === undefined ? null : this.graph.units[found];
  }

  key(event) {
    const at = this.at || this.first();
    const moves = { ArrowRight: () => this.beside(at, 1), ArrowLeft: () => this.beside(at, -1), ArrowDown: () => this.across(at, 1),
      ArrowUp: () => this.across(at, -1), Home: () => this.first(), End: () => ({ node: this.boxes.length - 1, lane: 0 }) };
    if (!at || event.ctrlKey || event.altKey || event.metaKey) return;
    if (moves[event.key]) {
      this.look(moves[event.key]());
      this.reveal();
    } else if (event.key === 'Enter' || event.key === ' ') {
      this.take(at);
    } else {
      return;
    }
    event.preventDefault();
  }

  // The next lane, or the next box of the line.
  beside(at, step) {
    const box = this.boxes[at.node];
    const lane = (at.lane ?? 0) + step;
    if (lane >= 0 && lane < box.cells.length) return { node: at.node, lane };
    const line = this.boxes.filter((one) => one.y === box.y).sort((one, two) => one.x - two.x);
    const next = line[line.indexOf(box) + step];
    return next ? { node: next.node.id, lane: step > 0 ? 0 : next.cells.length - 1 } : at;
  }

  // The nearest box of the line above or below.
  across(at, step) {
    const box = this.boxes[at.node];
    const others = this.boxes.filter((one) => (one.y - box.y) * step > 0);
    if (!others.length) return at;
    const y = others.reduce((best, one) => (Math.abs(one.y - box.y) < Math.abs(best - box.y) ? one.y : best), others[0].y);
    const near = others.filter((one) => one.y === y).reduce((best, one) => (
      Math.abs(one.middle - box.middle) < Math.abs(best.middle - box.middle) ? one : best));
    return { node: near.node.id, lane: Math.min(at.lane ?? 0, near.cells.length - 1) };
  }

  // Brings the box that is looked at into sight.
  reveal() {
    const box = this.boxes[this.at.node];
    if (box.y < this.host.scrollTop) this.host.scrollTop = box.y - GAP;
    const below = box.y + box.height + GAP - this.host.clientHeight;
    if (below > this.host.scrollTop) this.host.scrollTop = below;
  }

  // Marks the lanes that come of some lines of the kernel.
  markLines(numbers) {
    if (!this.boxes) return;
    const wanted = new Set(numbers);
    for (const box of this.boxes) {
      box.node.lanes.forEach((lane, at) => {
        if (!box.cells[at]) return;
        box.cells[at].classList.toggle('of-line', typeof lane.unit === 'number' && wanted.has(this.graph.units[lane.unit].line));
      });
    }
  }

  // The picture as a file, with its colours.
  async file() {
    const copy = this.svg.cloneNode(true);
    for (const one of copy.querySelectorAll('.chosen, .lit, .of-line')) one.classList.remove('chosen', 'lit', 'of-line');
    copy.prepend(element('style', {}, await (await fetch('/picture.css')).text()));
    return new XMLSerializer().serializeToString(copy);
  }
}
