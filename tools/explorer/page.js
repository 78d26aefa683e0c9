// The page: what is asked, the run that answers, and the state in the address.

import { Editor } from '/editor.js';
import { Panes, Tabs, made } from '/panes.js';
import * as states from '/state.js';

const $ = (id) => document.getElementById(id);
const FLAGS = ['more', 'guard', 'rows', 'loop', 'noalias', 'both'];
const PAUSE = 600;
let facts = null;
let running = null;
let pause = 0;
let kernelText = '';
let storeLines = {};

const editor = new Editor($('editor'), () => changed(true));
const tabs = new Tabs(document.querySelector('[role=tablist]'), $('panels'), () => keep());
const panes = new Panes(tabs.panels, $('costs'), $('stories'), $('rows-told'), chooseLines);

function language() {
  return document.querySelector('input[name=language]:checked').value;
}

// What the page asks for, and keeps in its address.
function state() {
  const width = $('width').value.trim();
  return {
    language: language(), text: editor.text, function: $('function').value.trim(), library: $('library').value,
    width: width ? Number(width) : null, strides: $('strides').value.split(/\s+/).filter(Boolean), tab: tabs.chosen,
    extensions: [...document.querySelectorAll('#extensions input:checked')].map((one) => one.value),
    ...Object.fromEntries(FLAGS.map((name) => [name, $(name).checked])),
  };
}

function show(given) {
  document.querySelector(`input[name=language][value=${given.language}]`).checked = true;
  for (const name of FLAGS) $(name).checked = given[name];
  for (const one of document.querySelectorAll('#extensions input')) one.checked = given.extensions.includes(one.value);
  $('width').value = given.width || '';
  $('strides').value = given.strides.join(' ');
  $('function').value = given.function;
  if ([...$('library').options].some((one) => one.value === given.library)) $('library').value = given.library;
  tabs.choose(given.tab);
  editor.show(given.text, given.language);
  const example = facts.examples.findIndex((one) => one.text === given.text && one.language === given.language);
  $('example').value = example < 0 ? '' : String(example);
  options();
}

// What hangs on other options.
function options() {
  document.querySelector('.only-c').hidden = language() !== 'c';
  const chosen = [...document.querySelectorAll('#extensions input:checked')].map((one) => one.value);
  $('extensions-shown').textContent = chosen.length ? chosen.join(', ') : 'all';
  if (language() !== 'c') return;
  const names = [...editor.text.matchAll(/\b(\w+)\s*\([^(){};]*\)\s*\{/g)].map((found) => found[1])
    .filter((name) => !['if', 'for', 'while', 'switch', 'return', 'sizeof'].includes(name));
  $('functions').replaceChildren(...names.map((name) => made('option', { value: name })));
  if (names.length && !names.includes($('function').value)) $('function').value = names[0];
}

async function keep() {
  history.replaceState(null, '', await states.written(state()));
}

function changed(isTyped) {
  if (isTyped) $('example').value = '';
  options();
  editor.fault([]);
  $('faults').replaceChildren();
  clearTimeout(pause);
  pause = setTimeout(run, isTyped ? PAUSE : 0);
}

// The run

function status(text) {
  if ($('status').textContent !== text) $('status').textContent = text;
}

function token() {
  return localStorage.getItem('explore-token') || '';
}

function ask(path, body, signal) {
  return fetch(path, { method: 'POST', body: JSON.stringify(body), headers: { 'X-Explore-Token': token() }, signal });
}

function stop() {
  if (!running) return;
  running.abort.abort();
  finish(running, `Stopped after ${seconds(running)} s. What was there by then is shown.`, 'Stopped before this was there.');
}

function seconds(one) {
  return ((performance.now() - one.start) / 1000).toFixed(1);
}

function finish(one, told, missing) {
  if (one !== running) return;
  running = null;
  $('stop').disabled = true;
  document.body.dataset.running = 'no';
  panes.wait(missing);
  status(told);
}

async function run() {
  clearTimeout(pause);
  const given = state();
  keep();
  if (running) running.abort.abort();
  const mine = { abort: new AbortController(), start: performance.now(), faults: [], messages: [] };
  running = mine;
  if (given.width !== null && !(Number.isInteger(given.width) && given.width >= 1 && given.width <= 4096)) {
    fault(mine, { message: `width: ${$('width').value} is no number from 1 to 4096` });
    return finish(mine, 'Refused.', 'Refused.');
  }
  panes.clear('It goes on.');
  editor.fault([]);
  editor.mark([]);
  $('faults').replaceChildren();
  $('stop').disabled = false;
  document.body.dataset.running = 'yes';
  status('It goes on.');
  try {
    const response = await ask('/run', given, mine.abort.signal);
    if (!response.ok) {
      const told = await response.json().catch(() => ({ refused: `status ${response.status}` }));
      fault(mine, { message: told.refused });
      return finish(mine, 'Refused.', told.refused);
    }
    await parts(response.body, mine);
  } catch (error) {
    if (error.name === 'AbortError' || mine !== running) return;
    finish(mine, 'The server gives no answer: is tools/explore still there?', 'No answer.');
  }
}

// Reads the parts, a line each, as they come.
async function parts(body, mine) {
  const reader = body.pipeThrough(new TextDecoderStream()).getReader();
  let held = '';
  for (;;) {
    const { value, done } = await reader.read();
    if (mine !== running) return;
    if (done) break;
    held += value;
    const lines = held.split('\n');
    held = lines.pop();
    for (const line of lines) take(JSON.parse(line), mine);
  }
  finish(mine, 'The server ended the run.', 'The run was ended.');
}

function take(part, mine) {
  if (part.part === 'goes-on') {
    const names = Object.entries(part.of).map(([name, since]) => `${name} ${since.toFixed(0)} s`);
    status(`It goes on${names.length ? ': ' + names.join(', ') : ''} (a search at most ${facts.seconds} s).`);
  } else if (part.part === 'refused' || part.part === 'ended') {
    fault(mine, part);
  } else if (part.part === 'end') {
    const wrong = mine.messages.length;
    finish(mine, `${wrong ? 'Done, with faults' : 'Done'}, after ${part.seconds.toFixed(1)} s.`, wrong ? mine.messages[0] : 'There is none.');
  } else {
    if (part.part === 'kernel') {
      kernelText = part.text;
      storeLines = part.lines;
    }
    panes.take(part);
  }
}

// Tells what is refused, or was ended, and marks its place where it has one in the text of the left.
function fault(mine, part) {
  mine.messages.push(part.message);
  const isHere = part.line && (part.of === language() || part.of === 'kernel' && language() === 'kernel');
  if (isHere) {
    mine.faults.push(part);
    editor.fault(mine.faults);
  }
  const text = (isHere ? `${part.line}:${part.column}: ` : '') + part.message;
  $('faults').append(isHere ? made('button', { type: 'button', on: { click: () => editor.go(part) } }, text) : made('span', {}, text));
}

// Marks lines of the kernel, at the left where the kernel stands there, else the lines of C of their stores.
function chooseLines(lines) {
  panes.mark(lines);
  editor.mark(language() === 'kernel' ? lines : linesOfC(lines), true);
}

function linesOfC(lines) {
  const wanted = new Set(lines);
  const found = [];
  let store = 0;
  kernelText.split('\n').forEach((text, at) => {
    if (!/^\s*store\d+\(/.test(text)) return;
    if (wanted.has(at + 1) && storeLines[store]) found.push(storeLines[store]);
    store += 1;
  });
  return [...new Set(found)];
}

// The beginning

function fill() {
  const groups = new Map();
  $('example').append(made('option', { value: '' }, 'my own'));
  facts.examples.forEach((example, at) => {
    if (!groups.has(example.group)) groups.set(example.group, made('optgroup', { label: example.group }));
    groups.get(example.group).append(made('option', { value: String(at) }, example.name));
  });
  $('example').append(...groups.values());
  $('library').append(...facts.libraries.map((name) => made('option', { value: name }, name)));
  document.querySelector('#extensions fieldset').append(...facts.extensions.map((name) => made('label', {},
    made('input', { type: 'checkbox', value: name, on: { change: () => changed(false) } }), name)));
}

function listen() {
  $('example').addEventListener('change', () => {
    const example = facts.examples[Number($('example').value)];
    if ($('example').value === '' || !example) return;
    const functions = example.functions;
    show({ ...state(), text: example.text, language: example.language, function: functions[functions.length - 1] || '', strides: [] });
    changed(false);
  });
  for (const one of document.querySelectorAll('input[name=language]')) {
    one.addEventListener('change', () => {
      editor.show(editor.text, language());
      changed(false);
    });
  }
  for (const name of [...FLAGS, 'library']) $(name).addEventListener('change', () => changed(false));
  for (const name of ['width', 'function', 'strides']) $(name).addEventListener('change', () => changed(false));
  $('run').addEventListener('click', run);
  $('stop').addEventListener('click', stop);
  $('link').addEventListener('click', async () => {
    await keep();
    const copied = await navigator.clipboard.writeText(location.href).then(() => true, () => false);
    status(copied ? 'The link is copied.' : 'The link stands in the address bar.');
  });
  document.addEventListener('keydown', (event) => {
    if (event.key === 'Enter' && (event.ctrlKey || event.metaKey)) {
      event.preventDefault();
      run();
    } else if (event.key === 'Escape') {
      stop();
    }
  });
  editor.area.addEventListener('keyup', () => panes.picture && language() === 'kernel' && panes.picture.markLines([editor.line()]));
  window.addEventListener('hashchange', begin);
}

// Takes the token out of the address, where it stands there.
function takeToken() {
  const words = new URLSearchParams(location.hash.replace(/^#/, ''));
  if (!words.has('token')) return;
  localStorage.setItem('explore-token', words.get('token'));
  words.delete('token');
  history.replaceState(null, '', words.size ? '#' + words : location.pathname);
}

// Shows the state of the address, or an example.
async function begin() {
  takeToken();
  const given = await states.read(location.hash).catch(() => null);
  const example = facts.examples.find((one) => one.name === 'dot_i16.kernel') || facts.examples[0];
  show(given || { ...states.START, text: example.text, language: example.language });
  run();
}

async function start() {
  tabs.choose('plan');
  takeToken();
  const response = await ask('/facts', {}).catch(() => null);
  if (!response || !response.ok) {
    const told = response ? (await response.json()).refused : 'no answer';
    status(`Open the address that tools/explore printed: ${told}.`);
    return;
  }
  facts = await response.json();
  fill();
  listen();
  await begin();
}

start();
