// ---- What the page says: the texts of words.txt, which page/seal puts here, each in English and in German

/** @type {Record<string, string[]>} */
const WORDS = JSON.parse(`@WORDS@`);
const LANGUAGES = ['en', 'de'];
const THOUSANDS = { en: ',', de: '’' };
let language = /^de/iu.test(navigator.language) ? 'de' : 'en';

// A number with its thousands set apart, before the point alone: 7,242.666666.
const grouped = (number) => `${number}`.replace(/(\.?)(\d+)/gu, (all, point, digits) => (
  point ? all : digits.replace(/\B(?=(?:\d{3})+$)/gu, THOUSANDS[language])));

const placed = (value) => (typeof value === 'bigint' || typeof value === 'number' ? grouped(value) : value ?? '-');

// `{count:line|lines}`: the first word where the value is 1.
const FORMS_OF_ONE = /\{([a-z]+):((?:[^{}|]|\{[a-z]+\})*)\|((?:[^{}|]|\{[a-z]+\})*)\}/giu;

// The text of this name in the page's language, in pieces: each value, a text or an element, in the place of its name.
function pieces(key, values = {}) {
  const isOne = (name) => `${values[name]}` === '1';
  const text = WORDS[key][LANGUAGES.indexOf(language)].replace(FORMS_OF_ONE, (_, name, one, more) => (isOne(name) ? one : more));
  return text.split(/\{([a-zA-Z]+)\}/u).map((piece, i) => (i % 2 === 0 ? piece : placed(values[piece])));
}

// The same as a text.
const say = (key, values) => pieces(key, values).join('');
