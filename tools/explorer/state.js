// What the page holds, as the fragment of its address: options in plain words, and the text packed.

const FLAGS = ['more', 'guard', 'rows', 'loop', 'noalias', 'both'];

export const START = {
  language: 'kernel', text: '', function: '', library: 'avx2', width: null, extensions: [], strides: [], tab: 'plan',
  ...Object.fromEntries(FLAGS.map((name) => [name, false])),
};

async function through(stream, bytes) {
  const packed = new Blob([bytes]).stream().pipeThrough(stream);
  return new Uint8Array(await new Response(packed).arrayBuffer());
}

async function pack(text) {
  const bytes = await through(new CompressionStream('deflate-raw'), new TextEncoder().encode(text));
  let letters = '';
  for (const byte of bytes) letters += String.fromCharCode(byte);
  return btoa(letters).replaceAll('+', '-').replaceAll('/', '_').replaceAll('=', '');
}

async function unpack(word) {
  const letters = atob(word.replaceAll('-', '+').replaceAll('_', '/'));
  const bytes = Uint8Array.from(letters, (letter) => letter.charCodeAt(0));
  return new TextDecoder().decode(await through(new DecompressionStream('deflate-raw'), bytes));
}

// The fragment of a state.
export async function written(state) {
  const words = new URLSearchParams();
  words.set('language', state.language);
  words.set('library', state.library);
  if (state.language === 'c') {
    words.set('function', state.function);
    if (state.strides.length) words.set('strides', state.strides.join(' '));
  }
  for (const name of FLAGS) if (state[name]) words.set(name, '1');
  if (state.width) words.set('width', state.width);
  if (state.extensions.length) words.set('with', state.extensions.join(' '));
  words.set('tab', state.tab);
  words.set('text', await pack(state.text));
  return '#' + words;
}

// The state of a fragment; null where it holds none.
export async function read(fragment) {
  const words = new URLSearchParams(fragment.replace(/^#/, ''));
  if (!words.has('text')) return null;
  const list = (name) => (words.get(name) || '').split(' ').filter(Boolean);
  const width = Number(words.get('width'));
  return {
    ...START, language: words.get('language') === 'c' ? 'c' : 'kernel', library: words.get('library') || START.library,
    function: words.get('function') || '', width: width >= 1 && width <= 4096 ? width : null, extensions: list('with'),
    strides: list('strides'), tab: words.get('tab') || START.tab, text: await unpack(words.get('text')),
    ...Object.fromEntries(FLAGS.map((name) => [name, words.has(name)])),
  };
}
