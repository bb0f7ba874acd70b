// ---- Making the page's elements. A text becomes a text, and never markup.

const find = (id) => document.getElementById(id);
/** @type {(part: Element, css: string) => HTMLElement | null} */
const within = (part, css) => part.querySelector(css);

// The children, texts or elements, without null, undefined, false and empty texts.
const present = (children) => children.flat(Infinity).filter((child) => ![null, undefined, false, ''].includes(child));

function fill(element, attributes, children) {
  for (const [name, value] of Object.entries(attributes)) {
    if (name === 'onclick') element.addEventListener('click', value);
    else if ((value ?? false) !== false) element.setAttribute(name, value === true ? '' : `${value}`);
  }
  element.append(...present(children));
  return element;
}

// Puts these in the place of what is there.
const put = (id, ...children) => find(id).replaceChildren(...present(children));

const make = (tag, attributes = {}, ...children) => fill(document.createElement(tag), attributes, children);
const draw = (tag, attributes = {}, ...children) => (
  fill(document.createElementNS('http://www.w3.org/2000/svg', tag), attributes, children));

const button = (text, onclick, attributes = {}) => make('button', { type: 'button', ...attributes, onclick }, text);

// A table of these rows below its heads, and perhaps a last part.
const tableOf = (attributes, heads, rows, last = null) => make('table', attributes,
  make('thead', {}, make('tr', {}, heads.map((text) => make('th', { scope: 'col' }, text)))), make('tbody', {}, rows), last);

const SIGNS = { right: '✓', wrong: '✗', mismatch: '≠', damaged: '!', unsure: '!', answer: 'i' };
const signFor = (state) => make('span', { class: `mark ${state}`, 'aria-hidden': 'true' }, SIGNS[state]);
const mark = (holds) => signFor(holds ? 'right' : 'wrong');

// ---- Texts that others wrote: names, lines and files' names

// Characters that are not seen, or that turn a text round, are shown as signs; what is longer than this is cut.
const UNSEEN = /[\u0000-\u001f\u007f-\u009f\u00ad\u061c\u200b-\u200f\u2028-\u202e\u2060-\u206f\ufeff]/gu;

function shown(text, most = 120) {
  const sign = (character) => {
    const code = character.codePointAt(0);
    return code < 0x20 ? String.fromCharCode(0x2400 + code) : `<U+${code.toString(16).toUpperCase().padStart(4, '0')}>`;
  };
  return text.slice(0, most).replace(UNSEEN, sign) + (text.length > most ? '…' : '');
}

// Isolated from the text round it, whatever direction it has: as an element, and within an attribute.
const isolated = (text, most) => make('bdi', {}, shown(text, most));
const isolatedText = (text) => `\u2068${shown(text)}\u2069`;
const code = (text) => make('code', {}, isolated(text, 400));

// A long word can be parted by a hyphen after a vowel, before the last consonant that follows it, so that it does not break elsewhere.
const CONSONANT = '[bcdfghjklmnpqrstvwxzß]';
const VOWEL = '[aeiouyäöüéèà]';
const SYLLABLES = new RegExp(`(${VOWEL}${CONSONANT}{0,4}?)(?=(?:sch|ch|ck|ph|th|qu|${CONSONANT})${VOWEL})`, 'giu');
const parted = (text) => shown(text).replace(/\p{L}{13,}/gu, (word) => (
  word.slice(0, 2) + word.slice(2, -1).replace(SYLLABLES, '$1\u00ad') + word.slice(-1)));

// A name in a narrow place: its longest word says how small its letters are.
function narrowName(name) {
  const longest = Math.max(...shown(name).split(/[\s-]/u).map((word) => word.length));
  const size = longest > 16 ? ' longest' : longest > 10 ? ' long' : '';
  return make('span', { class: `name${size}` }, make('bdi', {}, parted(name)));
}

// Marks a value of a fault as a name.
const named = (name) => (name === undefined ? undefined : { name });

const namesShown = (names) => names.flatMap((it, i) => [i > 0 ? ', ' : '', isolated(it)]);

// At most this many seats that change, or returns that are missing, are named.
const MOST_CHANGES = 4;

// The lists of a municipality whose returns are missing.
function missingShown({ name, lists, isAll }) {
  const which = isAll ? say('allLists') : lists.length > MOST_CHANGES ? say('manyLists', { count: lists.length }) : namesShown(lists);
  return [isolated(name), ': ', which];
}

// Some of these, separated by semicolons, and how many more there are.
function someShown(all, one) {
  const few = all.length > MOST_CHANGES ? all.slice(0, MOST_CHANGES - 1) : all;
  const left = all.length - few.length;
  return [...few.map(one), ...(left > 0 ? [pieces('moreChanges', { count: left })] : [])].flatMap((it, i) => [i > 0 ? '; ' : '', it]);
}

// Seats that change, each by its names, with what follows and what the sheet says.
const changesShown = (changes) => someShown(changes, ({ names, is, should }) => (
  pieces(names.length > 1 ? 'oneChange' : 'oneTotal', { name: namesShown(names), is, should })));

// A reason in words. Its names are isolated, its numbers have their thousands set apart.
/** @param {{ reason?: any, key?: any, values?: any }} fault */
function reasonOf({ reason, key = reason, values = {} }) {
  const isShown = (value) => {
    if (value?.number !== undefined) return [value.number, ' (', isolated(value.name), ')'];
    if (value?.name !== undefined) return isolated(value.name);
    if (value?.word) return say(value.word);
    if (value?.strong) return make('strong', {}, say(value.strong));
    if (value?.changes) return changesShown(value.changes);
    if (value?.rows) return someShown(value.rows, missingShown);
    return typeof value === 'string' ? make('bdi', {}, grouped(shown(value, 200))) : value;
  };
  return pieces(key, Object.fromEntries(Object.entries(values).map(([name, value]) => [name, isShown(value)])));
}
