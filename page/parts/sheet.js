// ---- Reading a sheet (FORMATS, "The sheet")

// A line of a file that is wrong: its number from 1, its text, and the reason, a key of WORDS with its values.
class Fault extends Error {
  constructor(line, text, reason, values = {}) {
    super(reason);
    Object.assign(this, { line, text, reason, values });
  }
}

// The bytes as UTF-8, with a byte order mark if they begin with one; null if they are not UTF-8.
function textOf(bytes) {
  try {
    return new TextDecoder('utf-8', { fatal: true, ignoreBOM: true }).decode(bytes);
  } catch {
    return null;
  }
}

// The text of a file. The first line that is not UTF-8 is a fault.
function decoded(bytes) {
  const text = textOf(bytes);
  let number = 0;
  for (let start = 0, end = 0; text === null && end >= 0; start = end + 1) {
    number += 1;
    end = bytes.indexOf(10, start);
    const line = bytes.subarray(start, end < 0 ? bytes.length : end);
    if (textOf(line) === null) throw new Fault(number, new TextDecoder().decode(line), 'notText');
  }
  return text;
}

// How the words in braces are written, and how they are read; all others are numbers. A word with a stroke can be a stroke alone.
const NUMERAL = '0|[1-9][0-9]{0,19}';
const WRITTEN = { desk: '[1-8]', kind: 'provisional|final', takesPart: 'yes|no', divisor: '(?:0|[1-9][0-9]{0,19})\\.[0-9]{6}', name: '.+' };
const READ = {
  kind: String, name: String, number: Number, constituency: Number, group: Number, takesPart: (word) => word === 'yes',
  divisor: (word) => BigInt(word.replace('.', '')),
};
// The form of a line: how it is read, and how FORMATS shows it.
const formOf = (shown, text) => Object.assign(new RegExp(`^${text.replace(/\{(\w+)(-?)\}/gu, (_, name, dash) => (
  `(?<${name}>${dash && '-|'}${WRITTEN[name] ?? NUMERAL})`))}$`, 'su'), { shown });
const FORMS = {
  head: formOf('D sheet provisional K', '{desk} sheet {kind} {commands}'),
  house: formOf('house H', 'house {seats}'),
  seatsKey: formOf('seats key A/B', 'seats key {a}/{b}'),
  upperKey: formOf('upper key A/B', 'upper key {a}/{b}'),
  quorum: formOf('quorum canton q', 'quorum canton {perMille}'),
  constituency: formOf('constituency d persons P seats R votes T divisor X NAME',
    'constituency {number} persons {persons} seats {seats} votes {votes} divisor {divisor} {name}'),
  group: formOf('group g quorum Q voters V seats U divisor X NAME',
    'group {number} quorum {takesPart} voters {voters-} seats {seats} divisor {divisor-} {name}'),
  list: formOf('list d g votes V voters W seats S', 'list {constituency} {group} votes {votes} voters {voters-} seats {seats}'),
  end: formOf('end', 'end'),
};

// The office's answer in place of a sheet (FORMATS, "Replies"). More lines say why a search was exhausted, or what the lot decides. They
// are not a sheet.
const REFUSAL = new RegExp('^(?:(?:[1-8]|zhcount:) )?refused ([a-z]+(?:[ -][a-z]+)?)((?: [1-9][0-9]{0,9}){0,2})'
  + '(?:\\r?\\n(?!(?:[1-8] )?sheet ).{0,200})*$', 'u');
const LONGEST_REFUSAL = 20000;
// Refusals that name a constituency first, and then perhaps a group.
const NAMING = ['refused noseat', 'refused novotes', 'refused tied lower'];

// The refusal that a text is, if it is one about seats: a key of WORDS, and its numbers, with the names of the set-up.
function refusalIn(text, setup) {
  const match = text.length > LONGEST_REFUSAL ? null : REFUSAL.exec(text);
  const reason = match && `refused ${match[1]}`;
  if (!match || !Object.hasOwn(WORDS, reason)) return null;
  const [first, second] = match[2].trim().split(' ');
  const withName = (rows, number) => (rows?.[number - 1] ? { number, name: rows[number - 1].name } : number);
  const names = NAMING.includes(reason) ? setup : null;
  return { reason, values: { first: withName(names?.constituencies, first), second: withName(names?.groups, second) } };
}

// Goes through the lines of a sheet, one after the other.
class Lines {
  constructor(text) {
    this.lines = text.split('\n');
    this.rest = this.lines.pop();
    this.at = 0;
  }

  get number() { return this.at + 1; }

  get text() { return this.lines[this.at] ?? this.rest; }

  // Whether only empty lines are left.
  get isBlank() { return [...this.lines.slice(this.at), this.rest].every((text) => text.trim() === ''); }

  fault(reason, values) { return new Fault(this.number, this.text, reason, values); }

  has(form) { return this.at < this.lines.length && FORMS[form].test(this.text); }

  // The words of this line, which must have this form, by their names; null for a stroke.
  take(form) {
    // The form that a line is compared with is the one that it begins as.
    const wanted = { form: FORMS[['constituency', 'group', 'list'].find((word) => this.text.startsWith(`${word} `)) ?? form].shown };
    if (this.number === 1 && this.text.startsWith('\ufeff')) throw this.fault('mark');
    if (this.at >= this.lines.length) throw this.fault(this.rest === '' ? 'cut' : 'cutWithin', wanted);
    if (this.text.endsWith('\r')) throw this.fault('carriageReturn');
    const match = FORMS[form].exec(this.text);
    if (form === 'head' && FORMS.head.test(`1 ${this.text}`)) throw this.fault('noDesk', { line: named(`1 ${this.text}`) });
    if (!match) throw this.fault(this.text === 'end' ? 'early' : 'noForm', wanted);
    this.at += 1;
    const said = Object.entries(match.groups ?? {}).map(([name, word]) => (
      [name, word === '-' && name !== 'name' ? null : (READ[name] ?? BigInt)(word)]));
    return { ...Object.fromEntries(said), divisorText: match.groups?.divisor, line: this.at, text: match[0] };
  }
}

// Lines of one form that are numbered 1, 2, ..; from 1 to 32 of them.
function numbered(lines, form) {
  const found = [];
  do {
    const next = lines.take(form);
    if (next.number !== found.length + 1 || next.number > 32) {
      throw new Fault(next.line, next.text, 'number', { number: found.length + 1 });
    }
    if (next.seats > 400n) throw new Fault(next.line, next.text, 'manySeats');
    found.push(next);
  } while (lines.has(form));
  return found;
}

// The lists, by constituency and then group.
function listsIn(lines, constituencies, groups) {
  const found = [];
  let before = 0;
  while (lines.has('list')) {
    const next = lines.take('list');
    const place = next.constituency * 100 + next.group;
    if (next.constituency < 1 || next.constituency > constituencies.length) throw new Fault(next.line, next.text, 'noConstituency');
    if (next.group < 1 || next.group > groups.length) throw new Fault(next.line, next.text, 'noGroup');
    if (place <= before) throw new Fault(next.line, next.text, 'order');
    if (next.seats > 400n) throw new Fault(next.line, next.text, 'manySeats');
    before = place;
    found.push(next);
  }
  return found;
}

// The sheet that this text is. A line without the right form is thrown as a fault.
function readSheet(text) {
  const lines = new Lines(text);
  const head = lines.take('head');
  const house = lines.take('house');
  const seatsKey = lines.take('seatsKey');
  const upperKey = lines.take('upperKey');
  const quorum = lines.has('quorum') ? lines.take('quorum') : null;
  const constituencies = numbered(lines, 'constituency');
  const groups = numbered(lines, 'group');
  const lists = listsIn(lines, constituencies, groups);
  lines.take(lists.length === 0 ? 'list' : 'end');
  if (lines.at < lines.lines.length || lines.rest !== '') throw lines.fault(lines.isBlank ? 'blank' : 'after');
  const at = new Map(lists.map((list) => [`${list.constituency} ${list.group}`, list]));
  const { kind, commands } = head;
  return { kind, commands, head, house, quorum, seatsKey, upperKey, constituencies, groups, lists, lines: lines.lines, at };
}
