// A field for a text with numbers of lines, marks of lines and of faults. Below the field, whose letters are not seen, stand the same lines
// with colours; both break lines alike.

const any = (...parts) => new RegExp(parts.map((part) => part.source).join('|'), 'g');
const KERNEL = any(/\/\/.*/, /\b(?:kernel|loop|ptr|noalias|times|step|i8|i16|i32|i64)\b/, /\b(?:load|store|sext|zext|trunc)(?:8|16|32|64)\b/,
  /\b(?:shl|lshr|ashr|eq|slt|ult|select|smin|smax|umin|umax)\b/, /\b\d+(?:i\d+)?\b/);
const C = any(/\/\/.*/, /\/\*.*?(?:\*\/|$)/, /^\s*#.*/, /\b(?:void|int|char|short|long|unsigned|signed|const|restrict|static|inline)\b/,
  /\b(?:for|if|else|while|return|struct|typedef|sizeof|do|switch|case|break|size_t|u?int\d+_t|__m\d+i)\b/, /\b(?:0x[0-9a-fA-F]+|\d+)\w*\b/,
  /"(?:\\.|[^"\\])*"/);
const PROGRAM = any(/\b(?:program|guarded|looped|guardedloop|call|load|store|vload|vstore|const|insert|extract|imm|check|disjoint)\b/,
  /\b(?:then|else|rest|end|cost|scalar|checks)\b/, /_mm\w+/, /%[vs]\d+/, /\b\d+(?:i\d+)?\b/);
const ASSEMBLY = any(/^\s+[a-z]\w*/, /\b(?:[xyz]mm\d+|[re]?[abcd]x|[re]?[sd]i|[re]?[sb]p|r\d+[dwb]?)\b/, /\b\d+\b/, /^\.\w+:/);
const WORDS = { kernel: KERNEL, c: C, program: PROGRAM, assembly: ASSEMBLY };

function kind(word, language) {
  if (/^\s*(?:\/\/|\/\*|#)/.test(word)) return 'c';
  if (/^\d/.test(word)) return 'n';
  if (language === 'kernel') return /^(?:kernel|loop|ptr|noalias|times|step|i\d+)$/.test(word) ? 'k' : 'w';
  if (language === 'program') return /^[%_]/.test(word) ? 'w' : 'k';
  if (language === 'assembly') return /^\s/.test(word) ? 'k' : 'w';
  return 'k';
}

// Puts the words of a line into an element, with colours.
export function colour(element, text, language) {
  let end = 0;
  for (const found of text.matchAll(WORDS[language])) {
    element.append(text.slice(end, found.index));
    const span = document.createElement('span');
    span.className = 't-' + kind(found[0], language);
    span.textContent = found[0];
    element.append(span);
    end = found.index + found[0].length;
  }
  element.append(text.slice(end));
}

function line(text, number, language, fault) {
  const made = document.createElement('span');
  made.className = 'line';
  made.dataset.n = number;
  if (!fault) {
    colour(made, text, language);
    return made;
  }
  const at = Math.min(fault.column - 1, text.length);
  const word = /^(?:\w+|[^\w\s])/.exec(text.slice(at));
  const span = document.createElement('span');
  span.className = word ? 'fault' : 'fault-end';
  span.textContent = word ? word[0] : '';
  made.classList.add('at-fault');
  colour(made, text.slice(0, at), language);
  made.append(span);
  colour(made, text.slice(at + span.textContent.length), language);
  return made;
}

const MOST_LINES = 5000;

// A text to look at, with numbers of lines.
export function listing(text, language, label) {
  const made = document.createElement('pre');
  made.className = 'code';
  made.tabIndex = 0;
  made.setAttribute('role', 'region');
  made.setAttribute('aria-label', label);
  const lines = text.replace(/\n$/, '').split('\n');
  lines.slice(0, MOST_LINES).forEach((one, at) => made.append(line(one, at + 1, language, null)));
  const more = lines.length - MOST_LINES;
  if (more > 0) made.append(line(`.. ${more} lines more; saved, the text is whole`, '', language, null));
  return made;
}

// Marks lines of a listing or of the editor, and brings the first into sight.
export function mark(holder, numbers, scroll) {
  for (const one of holder.querySelectorAll('.line.marked')) one.classList.remove('marked');
  const lines = [...holder.querySelectorAll('.line')];
  const some = numbers.map((number) => lines[number - 1]).filter(Boolean);
  for (const one of some) one.classList.add('marked');
  if (some.length && scroll) {
    const box = holder.closest('.code, #editor') || holder;
    const top = some[0].offsetTop;
    if (top < box.scrollTop || top + some[0].offsetHeight > box.scrollTop + box.clientHeight) box.scrollTop = Math.max(0, top - 40);
  }
}

export class Editor {
  constructor(host, changed) {
    this.host = host;
    this.language = 'kernel';
    this.lines = [];
    this.faults = new Map();
    const inner = document.createElement('div');
    inner.className = 'inner';
    this.under = document.createElement('div');
    this.under.className = 'under';
    this.under.setAttribute('aria-hidden', 'true');
    this.area = document.createElement('textarea');
    this.area.setAttribute('aria-labelledby', 'left-title');
    this.area.setAttribute('aria-describedby', 'faults');
    for (const [name, value] of [['spellcheck', 'false'], ['autocapitalize', 'off'], ['autocomplete', 'off'], ['wrap', 'soft']]) {
      this.area.setAttribute(name, value);
    }
    inner.append(this.under, this.area);
    host.append(inner);
    this.area.addEventListener('input', () => {
      this.render();
      changed();
    });
  }

  get text() {
    return this.area.value;
  }

  show(text, language) {
    this.area.value = text;
    if (language !== this.language) this.lines = [];
    this.language = language;
    this.render();
  }

  // Draws the lines that have changed anew.
  render() {
    const before = this.lines;
    const now = this.area.value.split('\n');
    let front = 0;
    let back = 0;
    if (!before.length) this.under.replaceChildren();
    while (front < before.length && front < now.length && before[front] === now[front]) front++;
    const most = Math.min(before.length, now.length) - front;
    while (back < most && before[before.length - 1 - back] === now[now.length - 1 - back]) back++;
    const old = [...this.under.children].slice(front, before.length - back);
    const next = this.under.children[before.length - back] || null;
    for (const one of old) one.remove();
    const some = document.createDocumentFragment();
    for (let at = front; at < now.length - back; at++) some.append(line(now[at], at + 1, this.language, null));
    this.under.insertBefore(some, next);
    if (now.length !== before.length) [...this.under.children].forEach((one, at) => { one.dataset.n = at + 1; });
    this.lines = now;
  }

  redraw(number, fault) {
    const at = this.under.children[number - 1];
    if (at) at.replaceWith(line(this.lines[number - 1], number, this.language, fault));
  }

  // Marks places of faults: line and column from 1.
  fault(places) {
    for (const number of this.faults.keys()) this.redraw(number, null);
    this.faults = new Map(places.map((place) => [place.line, place]));
    for (const [number, place] of this.faults) this.redraw(number, place);
  }

  // Puts the cursor at a place.
  go(place) {
    const before = this.lines.slice(0, place.line - 1).reduce((sum, one) => sum + one.length + 1, 0);
    this.area.focus({ preventScroll: true });
    this.area.setSelectionRange(before + place.column - 1, before + place.column - 1);
    const at = this.under.children[place.line - 1];
    if (at) this.host.scrollTop = Math.max(0, at.offsetTop - 60);
  }

  // The line of the cursor.
  line() {
    return this.area.value.slice(0, this.area.selectionStart).split('\n').length;
  }

  mark(numbers, scroll) {
    mark(this.host, numbers, scroll);
  }
}
