// ---- Reading a set-up (FORMATS, "Set-up text")

// This reads the part of TOML that FORMATS shows. Any other line is a fault.
const KEYS = {
  top: { version: 'number', house: 'number', canton_quorum: 'number' },
  constituency: { name: 'name', persons: 'number' },
  municipality: { name: 'name', constituency: 'number' },
  group: { name: 'name', stands: 'numbers' },
};
const MOST = { constituency: 32, municipality: 512, group: 32 };
// Only spaces and tabs are blanks: in what follows a space is any number of them.
const patternOf = (text) => new RegExp(text.replaceAll(' ', '[ \\t]*'), 'su');
const NUMBER = '(?:0|[1-9][0-9]{0,11})';
const NAME = '[^"\\\\\\u0000-\\u001f\\u007f]*(?:\\\\["\\\\][^"\\\\\\u0000-\\u001f\\u007f]*)*';
const VALUE = `(?:(?<digits>${NUMBER})|"(?<name>${NAME})"|\\[(?<list>[^\\]]*)\\])`;
// A line. However long it is, each part of it is gone through a few times at most.
const LINE = patternOf(`^ (?:(?:\\[\\[ (?<table>${Object.keys(MOST).join('|')}) \\]\\]|(?<key>[a-z_]+) = ${VALUE}) )?(?:#.*)?$`);
const ITEM = patternOf(`^ ${NUMBER} $`);
const LAST_COMMA = patternOf(', $');

// Reads a line: the head of a table, or a key with its value and the kind of that, or nothing.
function understood(number, line) {
  if (line === '') return {};
  if (line.includes('\r')) throw new Fault(number, line, 'loneReturn');
  const found = LINE.exec(line)?.groups;
  const items = found?.list?.replace(LAST_COMMA, '').split(',');
  if (!found || items?.some((item) => !ITEM.test(item))) throw new Fault(number, line, 'notUnderstood');
  if (/[\u0000-\u0008\u000b-\u001f\u007f]/u.test(line)) throw new Fault(number, line, 'inComment');
  const { table, key, digits, name } = found;
  if (table || !key) return { table };
  if (digits) return { key, kind: 'number', value: Number(digits) };
  return items ? { key, kind: 'numbers', value: items.map(Number) } : { key, kind: 'name', value: name.replace(/\\(.)/gu, '$1') };
}

// The lines of a text, without LF and CR LF.
const linesOf = (text) => text.replaceAll('\r\n', '\n').split('\n');

// The tables of the text: the top one, and those of each kind in order. Each has its line, and its values with theirs.
function tablesOf(text) {
  const top = { kind: 'top', line: 1, text: '', values: {} };
  const tables = { constituency: [], municipality: [], group: [] };
  let table = top;
  for (const [i, line] of linesOf(text).entries()) {
    const number = i + 1;
    const { table: kind, key, kind: is, value } = understood(number, line);
    if (kind) {
      table = { kind, line: number, text: line, values: {} };
      if (tables[kind].push(table) > MOST[kind]) throw new Fault(number, line, 'tables', { most: MOST[kind] });
    } else if (key) {
      if (!Object.hasOwn(KEYS[table.kind], key)) throw new Fault(number, line, 'unknownKey', { key });
      if (KEYS[table.kind][key] !== is) throw new Fault(number, line, 'otherKind', { key });
      if (table.values[key]) throw new Fault(number, line, 'keyTwice', { key });
      table.values[key] = { value, line: number, text: line };
    }
  }
  return { top, tables };
}

const isName = (name) => /^(?! )[^\u0000-\u001f\u007f]+(?<! )$/u.test(name) && new TextEncoder().encode(name).length <= 40;

function inRange({ value, line, text }, least, most) {
  if (value < least || value > most) throw new Fault(line, text, 'range', { least, most });
}

function needed(table, keys) {
  const key = keys.find((one) => !table.values[one]);
  if (key) throw new Fault(table.line, table.text, 'missing', { key });
}

// The names of tables of one kind differ.
function checkNames(names) {
  names.forEach(({ value, line, text }, i) => {
    if (!isName(value)) throw new Fault(line, text, 'name');
    if (names.findIndex((one) => one.value === value) < i) throw new Fault(line, text, 'nameTwice');
  });
}

function readSetup(text) {
  const { top, tables } = tablesOf(text);
  needed(top, ['version', 'house']);
  const { version, house, canton_quorum: quorum } = top.values;
  inRange(version, 1, 2);
  inRange(house, 1, 400);
  if (quorum && version.value !== 2) throw new Fault(quorum.line, quorum.text, 'unknownKey', { key: 'canton_quorum' });
  if (quorum) inRange(quorum, 1, 49);
  const [constituencies, municipalities, groups] = Object.entries(tables).map(([kind, found]) => {
    found.forEach((table) => needed(table, Object.keys(KEYS[kind])));
    if (found.length === 0) throw new Fault(1, '', 'missing', { key: kind });
    checkNames(found.map(({ values }) => values.name));
    return found.map(({ values }) => values);
  });
  constituencies.forEach(({ persons }) => inRange(persons, 1, 10000000));
  municipalities.forEach(({ constituency }) => inRange(constituency, 1, constituencies.length));
  for (const { stands } of groups) {
    stands.value.forEach((value) => inRange({ ...stands, value }, 1, constituencies.length));
    if (new Set(stands.value).size < stands.value.length) throw new Fault(stands.line, stands.text, 'standsTwice');
  }
  return {
    house: BigInt(house.value), quorum: quorum ? BigInt(quorum.value) : null,
    constituencies: constituencies.map(({ name, persons }) => ({ name: name.value, persons: BigInt(persons.value) })),
    municipalities: municipalities.map(({ name, constituency }) => ({ name: name.value, constituency: constituency.value })),
    groups: groups.map(({ name, stands }) => ({ name: name.value, stands: new Set(stands.value) })),
  };
}
