// What `tools/try-explorer` runs in the page: whether all that is seen fits, is aligned, and has contrast.

// What is drawn past the page, or is scrolled sidewise.
function overflow() {
  const wide = [];
  const told = (one) => `${one.tagName}.${one.className}#${one.id}`;
  if (document.documentElement.scrollWidth > innerWidth) wide.push(`the page has ${document.documentElement.scrollWidth}`);
  for (const one of document.querySelectorAll('body *')) {
    if (one.closest('svg, .hidden, select, textarea, datalist') || one.tagName === 'INPUT' || !one.checkVisibility()) continue;
    const isInline = getComputedStyle(one).display === 'inline';
    const isWide = !isInline && one.clientWidth && one.scrollWidth > one.clientWidth + 1;
    if (isWide) wide.push(`${told(one)} ${one.scrollWidth} in ${one.clientWidth}`);
    if (one.getBoundingClientRect().right > innerWidth + 1) wide.push(`${told(one)} ends at ${one.getBoundingClientRect().right}`);
  }
  return wide.slice(0, 5);
}

// How high the lines are that are typed, and the coloured ones below them: the same where both break alike.
function heights() {
  const area = document.querySelector('#editor textarea');
  const lines = document.querySelectorAll('#editor .line');
  area.style.height = '0';
  const typed = area.scrollHeight;
  area.style.height = '';
  const last = lines[lines.length - 1];
  return [typed, last.offsetTop + last.offsetHeight];
}

const canvas = new OffscreenCanvas(1, 1).getContext('2d', { willReadFrequently: true });

function rgb(colour) {
  canvas.clearRect(0, 0, 1, 1);
  canvas.fillStyle = colour;
  canvas.fillRect(0, 0, 1, 1);
  return [...canvas.getImageData(0, 0, 1, 1).data];
}

function light(colour) {
  const [x, y, z] = colour.slice(0, 3).map((one) => one / 255).map((one) => (one <= 0.04045 ? one / 12.92 : ((one + 0.055) / 1.055) ** 2.4));
  return 0.2126 * x + 0.7152 * y + 0.0722 * z;
}

function contrast(one, two) {
  const [low, high] = [light(one), light(two)].sort((x, y) => x - y);
  return (high + 0.05) / (low + 0.05);
}

// The colour under an element: in the picture that of its box, else that of the nearest that has one.
function ground(element) {
  if (element.closest('svg')) {
    const boxes = [element.closest('.cell')?.querySelector('rect'), element.closest('.node')?.querySelector('.body')];
    const filled = boxes.filter(Boolean).map((box) => getComputedStyle(box).fill).find((fill) => fill !== 'none');
    if (filled) return rgb(filled);
  }
  for (let one = element; one; one = one.parentElement) {
    const found = rgb(getComputedStyle(one).backgroundColor);
    if (found[3] === 255) return found;
  }
  return rgb('Canvas');
}

// How many texts are seen, and which have too little contrast (4.5) or letters below 12 pixels, and edges with less than 3.
function contrasts() {
  const bad = new Set();
  let seen = 0;
  const walk = document.createTreeWalker(document.body, NodeFilter.SHOW_TEXT);
  while (walk.nextNode()) {
    const element = walk.currentNode.parentElement;
    const text = walk.currentNode.textContent.trim();
    if (!text || !element.checkVisibility() || element.closest('.hidden, textarea, option, datalist, button:disabled')) continue;
    const style = getComputedStyle(element);
    const found = contrast(rgb(element.closest('svg') ? style.fill : style.color), ground(element));
    const told = `${element.tagName}.${element.getAttribute('class')}`;
    seen += 1;
    if (found < 4.5) bad.add(`${told} ${found.toFixed(2)}: ${text.slice(0, 20)}`);
    if (parseFloat(style.fontSize) < 12) bad.add(`${told} ${style.fontSize}`);
  }
  for (const one of document.querySelectorAll('.node .body, .edge, select, input:not([type]), .buttons button:not(:disabled)')) {
    if (!one.checkVisibility()) continue;
    const style = getComputedStyle(one);
    const inside = one.closest('svg');
    const found = contrast(rgb(inside ? style.stroke : style.borderTopColor), ground(inside ? inside.parentElement : one.parentElement));
    if (found < 3) bad.add(`the edge of ${one.tagName}.${one.getAttribute('class')} ${found.toFixed(2)}`);
  }
  return [seen, [...bad].slice(0, 8)];
}

// What has the focus, and whether that is seen.
function focus() {
  const one = document.activeElement;
  const style = getComputedStyle(one.closest('#editor') || one);
  return [one.id || one.name || one.tagName, parseFloat(style.outlineWidth) >= 2 && style.outlineStyle !== 'none'];
}

// The state of the page, to compare it with that of another.
function whole() {
  return [...document.querySelectorAll('select:not(#example), input, textarea')].map((one) => [one.id, one.value, one.checked]);
}

// The text of a panel, whether it is seen or not.
function panel(name) {
  return [...document.querySelectorAll(`#panel-${name} > .code .line`)].map((one) => one.textContent).join('\n') + '\n';
}

// Puts a text into the editor, as if it were pasted.
function paste(text) {
  const area = document.querySelector('#editor textarea');
  area.value = text;
  area.dispatchEvent(new Event('input', { bubbles: true }));
}

// Of each band of a call its title and how many of its lanes are wanted.
function calls() {
  return [...document.querySelectorAll('#picture .call')].map((one) => (
    [one.querySelector('.title').textContent, one.querySelectorAll('.cell text:not(.empty)').length]));
}

// The line, the word and the column of what is marked as a fault.
function faulty() {
  const one = document.querySelector('#editor .fault');
  const line = one.parentElement;
  const before = document.createRange();
  before.setStart(line, 0);
  before.setEndBefore(one);
  return [line.dataset.n, one.textContent, before.toString().length + 1];
}

// Calls `done` when nothing runs.
function finished(done) {
  const is = () => document.body.dataset.running === 'no' && /^(?:Done|Refused)/.test(document.getElementById('status').textContent);
  if (is()) return done(true);
  const observer = new MutationObserver(() => {
    if (!is()) return;
    observer.disconnect();
    done(true);
  });
  const what = { attributes: true, attributeFilter: ['data-running'], childList: true, characterData: true, subtree: true };
  return observer.observe(document.body, what);
}
