// What stands beside and below the text: costs, tabs, the parts of a run, and the rows of stores.

import { listing, mark } from '/editor.js';
import { Picture } from '/picture.js';

export const TABS = [['plan', 'Plan'], ['kernel', 'Kernel'], ['program', 'Program'], ['c', 'C'], ['assembly', 'Assembly']];
const KEYS = [['key-load', 'loads'], ['key-store', 'stores'], ['key-call', 'an instruction, a colour each'],
  ['key-glue', 'inserts (▴), extracts (▾), shuffles, constants'], ['key-scalar', 'stays scalar']];

export function made(name, attributes = {}, ...children) {
  const element = document.createElement(name);
  for (const [key, value] of Object.entries(attributes)) {
    if (key === 'on') for (const [event, act] of Object.entries(value)) element.addEventListener(event, act);
    else if (typeof value === 'boolean') element.toggleAttribute(key, value);
    else element.setAttribute(key, value);
  }
  element.append(...children);
  return element;
}

// The first of a list, and what stands for the others.
function some(list, most, others) {
  return list.slice(0, most).join(', ') + (list.length > most ? others : '');
}

function saver(title, name, kind, text) {
  return made('button', { type: 'button', on: { click: async () => save(name, await text(), kind) } }, title);
}

function save(name, text, kind) {
  const url = URL.createObjectURL(new Blob([text], { type: kind }));
  made('a', { href: url, download: name }).click();
  setTimeout(() => URL.revokeObjectURL(url), 10000);
}

// The tabs, by the pattern of arrow keys, and a panel for each.
export class Tabs {
  constructor(bar, panels, chosen) {
    this.buttons = new Map();
    this.panels = new Map();
    for (const [name, title] of TABS) {
      const button = made('button', { type: 'button', role: 'tab', id: `tab-${name}`, 'aria-controls': `panel-${name}`, on: {
        click: () => { this.choose(name); chosen(name); }, keydown: (event) => this.key(event, name, chosen) } }, title);
      const panel = made('div', { class: 'panel', role: 'tabpanel', id: `panel-${name}`, 'aria-labelledby': `tab-${name}` });
      this.buttons.set(name, button);
      this.panels.set(name, panel);
      bar.append(button);
      panels.append(panel);
    }
  }

  choose(name) {
    this.chosen = this.buttons.has(name) ? name : 'plan';
    for (const [one, button] of this.buttons) {
      const is = one === this.chosen;
      button.setAttribute('aria-selected', is);
      button.tabIndex = is ? 0 : -1;
      this.panels.get(one).hidden = !is;
    }
  }

  key(event, name, chosen) {
    const names = [...this.buttons.keys()];
    const at = names.indexOf(name);
    const to = { ArrowRight: at + 1, ArrowLeft: at - 1, Home: 0, End: names.length - 1 }[event.key];
    if (to === undefined) return;
    const next = names[(to + names.length) % names.length];
    this.choose(next);
    this.buttons.get(next).focus();
    chosen(next);
    event.preventDefault();
  }
}

// The parts of a run in their panels. `choose` is called with lines of the kernel.
export class Panes {
  constructor(panels, costs, stories, told, choose) {
    Object.assign(this, { panels, costs, stories, told, choose, compiler: null });
    this.clear('Nothing has run yet.');
  }

  // Empties all panels; `why` stands where a part is not there.
  clear(why) {
    this.parts = { assembly: {}, source: {} };
    this.texts = {};
    this.why = why;
    this.costs.replaceChildren();
    this.stories.replaceChildren();
    this.told.textContent = 'What stops each row from being packed, and what helps.';
    for (const [name] of TABS) this.missing(name);
    this.picture = null;
  }

  missing(name) {
    this.panels.get(name).replaceChildren(made('p', { class: 'missing' }, this.why));
  }

  // What is told in panels that have nothing.
  wait(why) {
    this.why = why;
    for (const one of document.querySelectorAll('.panel > .missing')) if (one.textContent !== why) one.textContent = why;
  }

  take(part) {
    if (part.part !== 'assembly' && part.part !== 'source') this.parts[part.part] = part;
    const act = { kernel: () => this.text('kernel', 'Kernel', part.text, 'kernel', 'kernel'),
      program: () => { this.text('program', 'Program', part.text, 'program', 'program'); this.showCosts(); },
      plan: () => this.showCosts(), picture: () => this.showPicture(part),
      c: () => this.text('c', 'C with intrinsics', part.text, 'c', 'c'), source: () => this.takeSource(part),
      assembly: () => this.takeAssembly(part), rows: () => this.takeRows(part) }[part.part];
    if (act) act();
  }

  text(name, title, text, language, ending) {
    this.texts[name] = text;
    this.panels.get(name).replaceChildren(
      made('div', { class: 'bar' }, made('span', { class: 'quiet' }, `${text.trimEnd().split('\n').length} lines`),
        saver('Save text', `vegen.${ending}`, 'text/plain', () => text)),
      listing(text, language, title));
  }

  showCosts() {
    const { plan, program } = this.parts;
    const costs = plan || (program && { cost: program.costs[0][0], scalar: program.costs[0][1] });
    if (!costs) return;
    const most = Math.max(1, costs.scalar, costs.plain || 0, costs.cost);
    const rows = [['Plan', costs.cost, ' ours'], ['Plain plan', costs.plain, ''], ['Scalar', costs.scalar, '']];
    this.costs.replaceChildren();
    for (const [name, number, kind] of rows) {
      if (number === undefined) continue;
      this.costs.append(made('span', {}, name), this.track(number / most, kind), made('span', { class: 'number' }, String(number)));
    }
    this.costs.append(made('span', { class: 'note' }, this.note(costs, program)));
  }

  track(part, kind) {
    const svg = document.createElementNS('http://www.w3.org/2000/svg', 'svg');
    const bar = document.createElementNS('http://www.w3.org/2000/svg', 'rect');
    for (const [key, value] of [['class', `track${kind}`], ['width', '100%'], ['aria-hidden', 'true']]) svg.setAttribute(key, value);
    const width = `${Math.max(0.5, 100 * part).toFixed(2)}%`;
    for (const [key, value] of [['width', width], ['height', '100%'], ['rx', 2]]) bar.setAttribute(key, value);
    svg.append(bar);
    return svg;
  }

  note(costs, program) {
    const words = [];
    if (costs.packs) words.push(`${costs.packs.length} packs`);
    if (costs.rewritten) words.push(`units ${costs.rewritten}`);
    if (costs.cost) words.push(`${(costs.scalar / costs.cost).toFixed(1)} times less than scalar`);
    if (program) words.push(`search ${program.seconds.toFixed(2)} s`);
    if (program && program.costs.length > 1) words.push(`programs of the text: ${program.costs.map(([cost]) => cost).join(', ')}`);
    return words.join(' · ');
  }

  // The picture

  showPicture(part) {
    const graph = JSON.parse(part.graph);
    const host = made('div', { id: 'picture' });
    const told = made('div', { id: 'told', 'aria-live': 'polite' }, 'Point at a box, or move among them by the arrow keys.');
    this.picture = new Picture(host, (node, lane) => told.replaceChildren(...this.tell(graph, node, lane)), (line) => this.choose([line]));
    const bar = made('div', { class: 'bar' }, made('span', { class: 'quiet' }, this.counts(graph)), made('span', { class: 'buttons' },
      saver('Save SVG', 'plan.svg', 'image/svg+xml', () => this.picture.file()),
      saver('Save text', 'plan.txt', 'text/plain', () => this.planText())));
    this.panels.get('plan').replaceChildren(bar, host, told, this.legend());
    this.picture.show(graph);
  }

  counts(graph) {
    const scalar = graph.nodes.filter((node) => node.kind === 'scalar').length;
    const moved = graph.nodes.filter((node) => ['insert', 'extract', 'shuffle'].includes(node.kind)).length;
    return `${graph.packs} packs, ${scalar} scalar, ${moved} that move lanes`;
  }

  planText() {
    const { plan } = this.parts;
    const first = plan && plan.rewritten ? [plan.rewritten] : [];
    return plan ? [...first, ...plan.packs, `plan cost ${plan.cost} plain ${plan.plain} scalar ${plan.scalar}`, ''].join('\n') : '';
  }

  legend() {
    const items = KEYS.map(([kind, text]) => {
      const item = made('li');
      item.innerHTML = `<svg viewBox="0 0 26 18" aria-hidden="true"><rect class="${kind}" x="1" y="1" width="24" height="16" rx="4"/></svg> `;
      item.append(text);
      return item;
    });
    return made('ul', { class: 'legend' }, ...items, made('li', {}, 'small squares: what an instruction does inside a lane'));
  }

  // What is told of a box or of one of its lanes: place, term and cost.
  tell(graph, node, at) {
    const lane = node.lanes[at ?? 0] || {};
    const number = [lane.unit, lane.moved, lane.inserted].find((one) => typeof one === 'number');
    const unit = number === undefined ? null : graph.units[number];
    const which = at !== null && node.lanes.length > 1 ? `, lane ${at} of ${node.lanes.length}` : '';
    const cost = node.kind === 'scalar' ? `stays scalar, cost ${node.cost}` : `cost ${node.cost}`;
    const of = `line ${some(node.lines, 3, ' ..')} of the program`;
    const lines = [`${node.title}${which}: ${cost}; ${of}`];
    if (unit) lines.push(this.unitText(graph, unit, lane));
    else if (lane.number !== undefined) lines.push(`the number ${lane.number}`);
    else if (node.kind === 'call') lines.push('nothing wants this lane');
    const told = lines.map((one) => made('div', {}, one));
    if (unit && unit.term) told.push(made('span', { class: 'term' }, unit.term));
    return told;
  }

  unitText(graph, unit, lane) {
    const inside = (lane.inside || []).map((one) => `${graph.units[one].label} (${one})`);
    const place = unit.place ? ` at ${unit.place}` : '';
    const line = unit.line ? `, line ${unit.line} of the kernel` : '';
    const more = inside.length ? `; inside it ${some(inside, 12, ` and ${inside.length - 12} more`)}` : '';
    return `value ${unit.n}: ${unit.kind === 'operation' ? unit.label : unit.op}${place}${line}${more}`;
  }

  // Assembly

  takeSource(part) {
    this.parts.source[part.of] = part;
    this.showAssembly();
  }

  takeAssembly(part) {
    this.parts.assembly[`${part.compiler} ${part.of}`] = part;
    this.showAssembly();
  }

  showAssembly() {
    const all = this.parts.assembly;
    const compilers = ['gcc', 'clang'].filter((one) => Object.values(all).some((part) => part.compiler === one));
    if (!compilers.length) return;
    if (!compilers.includes(this.compiler)) [this.compiler] = compilers;
    const names = { vegen: 'C of the program', own: 'C of the kernel itself' };
    const head = made('tr', {}, made('th', { scope: 'col' }, 'instructions'), ...compilers.map((one) => made('th', { scope: 'col' }, one)));
    const body = Object.entries(names).map(([of, name]) => made('tr', {}, made('th', { scope: 'row' }, name),
      ...compilers.map((one) => made('td', { class: 'number' }, all[`${one} ${of}`] ? this.count(all[`${one} ${of}`]) : '–'))));
    const choice = made('fieldset', { class: 'choice' }, made('legend', { class: 'hidden' }, 'Compiler'),
      ...compilers.map((one) => this.compilerChoice(one)));
    const flags = Object.values(this.parts.source)[0];
    const focus = document.activeElement && document.activeElement.name === 'compiler';
    this.panels.get('assembly').replaceChildren(
      made('table', { id: 'counts' }, made('thead', {}, head), made('tbody', {}, ...body)),
      made('div', { class: 'bar' }, choice, saver('Save text', 'vegen.s', 'text/plain', () => this.assemblyText())),
      made('p', { class: 'quiet' }, `${flags ? flags.flags + '. ' : ''}Each instruction of the function is counted once, in a loop too.`),
      made('div', { class: 'beside' }, ...Object.entries(names).map(([of, name]) => this.assemblyOf(of, name))));
    if (focus) this.panels.get('assembly').querySelector('input[name=compiler]:checked').focus();
  }

  compilerChoice(name) {
    const change = () => {
      this.compiler = name;
      this.showAssembly();
    };
    const checked = name === this.compiler;
    return made('label', {}, made('input', { type: 'radio', name: 'compiler', value: name, checked, on: { change } }), name);
  }

  count(part) {
    return part.message ? 'refused' : String(part.count);
  }

  assemblyOf(of, name) {
    const part = this.parts.assembly[`${this.compiler} ${of}`];
    const source = this.parts.source[of];
    const section = made('section', {}, made('h3', {}, name));
    if (!part) section.append(made('p', { class: 'missing' }, this.why));
    else if (part.message) section.append(made('p', { class: 'missing' }, part.message));
    else section.append(listing(part.text, 'assembly', `${name} by ${this.compiler}`));
    if (source && of === 'own') section.append(made('details', {}, made('summary', {}, 'its C'), listing(source.text, 'c', name)));
    return section;
  }

  assemblyText() {
    const names = { vegen: 'C of the program', own: 'C of the kernel itself' };
    return Object.values(this.parts.assembly).map((part) => (
      `# ${part.compiler}, ${names[part.of]}: ${part.count} instructions\n${part.text}`)).join('\n');
  }

  // Rows

  takeRows(part) {
    const told = JSON.parse(part.told);
    this.rows = told.rows;
    const way = told.ways.length ? ` The cheapest way that was tried costs ${told.cheapest}: ${told.ways.join(', ')}.` : '';
    const costs = `the plan costs ${told.cost}, the scalar program ${told.scalar}`;
    this.told.textContent = `${told.units} loads, operations and stores; ${costs}.${way}`;
    this.stories.replaceChildren(...told.rows.map((row) => this.story(row)));
  }

  story(row) {
    const lines = row.lines.length > 1 ? `lines ${row.lines[0]}–${row.lines[row.lines.length - 1]}` : `line ${row.lines[0]}`;
    const item = made('li', { class: row.packed ? 'packed' : '' });
    const click = () => {
      for (const one of this.stories.children) one.classList.toggle('marked', one === item);
      this.choose(row.lines);
    };
    item.append(made('button', { type: 'button', on: { click } }, made('span', { class: 'place' }, row.place),
      made('span', { class: 'quiet' }, `${lines} of the kernel: ${row.packed ? row.sentences[0] : 'stays scalar'}`)));
    if (!row.packed) item.append(made('ul', {}, ...row.sentences.map((one) => made('li', {}, one.replaceAll('`', '')))));
    return item;
  }

  // Marks lines of the kernel in its panel and in the picture.
  mark(lines) {
    const code = this.panels.get('kernel').querySelector('.code');
    if (code) mark(code, lines, true);
    if (this.picture) this.picture.markLines(lines);
  }
}
