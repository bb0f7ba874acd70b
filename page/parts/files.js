// ---- The files that were opened

const files = { sheet: null, before: null, setup: null, held: null };

// The most bytes of each kind (FORMATS): all lines of an export may end in CR LF.
const LONGEST = { sheet: 280064, before: 280064, setup: 1048576, held: 467103 + 16385 };
const MOST_READ = LONGEST.setup + 1;

// The other files of a published folder: tables, which are made of those that are read here, and the page.
const OF_THE_FOLDER = /^\ufeff?(?:(?:constituency|group),[a-z0-9_,]+\r?\n|<!DOCTYPE html>)/u;

// The kind of a file, by its text and then its name.
function kindOf(name, text) {
  if (/^\ufeff?(?:(?:[0-9]+ )?sheet |(?:(?:[0-9]|zhcount:) )?refused )/u.test(text)) return 'sheet';
  if (/^\ufeff?municipality,list/u.test(text) || /\.csv$/iu.test(name)) return 'held';
  if (/^[\t ]*(?:\[\[|version[\t ]*=|house[\t ]*=)/mu.test(text) || /\.toml$/iu.test(name)) return 'setup';
  return 'sheet';
}

// A file that was opened: its bytes as far as they were read, and its text, or why it has none.
function opened(name, bytes) {
  const file = { name, bytes, text: '', lines: 0, hash: bytes.length < MOST_READ ? sha256(bytes) : null };
  const begin = new TextDecoder('utf-8', { ignoreBOM: true }).decode(bytes.subarray(0, MOST_READ));
  file.kind = kindOf(name, begin);
  file.isLeft = OF_THE_FOLDER.test(begin);
  if (bytes.length > LONGEST[file.kind]) return { ...file, fault: new Fault(0, '', 'tooLong', { most: LONGEST[file.kind] }) };
  bytes.forEach((byte) => { file.lines += Number(byte === 10); });
  try {
    return { ...file, text: decoded(bytes) };
  } catch (fault) {
    return { ...file, text: begin, fault };
  }
}

// A file of which the browser gives no bytes, for example a folder.
const notRead = (name) => ({ ...opened(name, new Uint8Array(0)), hash: null, fault: new Fault(0, '', 'unreadable') });

// A text that was pasted or dropped. Its last line is ended.
function pasted(text) {
  const cut = text.slice(0, MOST_READ);
  return opened(say('pasted'), new TextEncoder().encode(cut.endsWith('\n') ? cut : `${cut}\n`).subarray(0, MOST_READ));
}

// How often files were given. Reading them takes a while, and the file that was given last wins, not the one that was read last.
let times = 0;
const nextTime = () => (times += 1);
const isOlder = (time, file) => file !== null && time < file.time;

// Takes files. A sheet takes the place of the one before it, which is kept to be compared. Some files of a whole folder are left out.
function takeFiles(read, time = nextTime()) {
  const kept = read.filter(({ isLeft }) => !isLeft);
  const taken = (kept.length > 0 ? kept : read).map((file) => ({ ...file, time }));
  const commands = ({ text }) => BigInt(/^(?:[1-8] )?sheet [a-z]{1,20} ([0-9]{1,20})\n/u.exec(text)?.[1] ?? 0);
  taken.sort((a, b) => Number(commands(a) - commands(b)));
  for (const file of taken) {
    const isLate = isOlder(time, files[file.kind]);
    if (file.kind === 'sheet') files.before = isLate ? file : files.sheet ?? files.before;
    if (!isLate) files[file.kind] = file;
  }
  show();
}

async function readFiles(list) {
  const time = nextTime();
  const read = (file) => file.slice(0, MOST_READ).arrayBuffer().then(
    (bytes) => opened(file.name, new Uint8Array(bytes)), () => notRead(file.name));
  takeFiles(await Promise.all([...list].map(read)), time);
}

// What a file says, or its fault; null where there is no file.
/** @type {(file: any, read: (text: string) => any) => any} */
function readFile(file, read) {
  if (!file) return null;
  if (file.fault) return { fault: file.fault };
  try {
    return { found: read(file.text) };
  } catch (fault) {
    if (fault instanceof Fault) return { fault };
    throw fault;
  }
}

// ---- How they are shown

const hashOf = ({ hash }) => (hash ? make('code', { class: 'hash' }, hash) : say('notHashed'));

function remove(kind) {
  files[kind] = null;
  if (kind === 'sheet') [files.sheet, files.before] = [files.before, null];
  show();
  find('pick').focus();
}

const fileLine = ([kind, file]) => make('li', { class: kind },
  make('span', { class: 'what' }, say(kind)), ' ', make('span', { class: 'file' }, isolated(file.name)), ' ',
  make('span', { class: 'hint' }, say('lines', { count: file.lines })), ' ',
  button(say('remove'), () => remove(kind), { 'aria-label': say('removeWhat', { what: say(kind) }) }),
  make('span', { class: 'hint sum' }, 'SHA-256 ', hashOf(file)));

function showFiles() {
  const picked = make('input', { type: 'file', id: 'pick', multiple: true, 'aria-describedby': 'choose' });
  picked.addEventListener('change', () => readFiles(picked.files));
  const area = make('textarea', { id: 'text', rows: 6, spellcheck: 'false', 'aria-label': say('paste'), 'aria-describedby': 'paste-hint' });
  const takeText = () => { if (area.value !== '') takeFiles([pasted(area.value)]); };
  const published = [['sheet', 'sheetSays'], ['setupFile', 'setupFileSays'], ['heldFile', 'heldFileSays']];
  const exchange = () => { [files.sheet, files.before] = [files.before, files.sheet]; show(); };
  const swap = files.sheet && files.before && make('p', {}, button(say('swap'), exchange));
  put('files', make('h2', {}, say('files')),
    make('div', { class: 'drop' }, make('p', {}, say('threeFiles')),
      make('dl', {}, published.map(([file, has]) => [make('dt', {}, say(file)), make('dd', {}, say(has))])),
      make('p', { id: 'choose' }, say('drop')), picked,
      make('label', { for: 'pick' }, say('choose')),
      make('p', { class: 'hint' }, ['chooseCount', 'chooseMore', 'chooseOlder'].map((key) => say(key)).join(' '))),
    make('details', {}, make('summary', {}, say('paste')), area,
      make('p', { class: 'hint', id: 'paste-hint' }, say('pasteHint')),
      button(say('take'), takeText, { id: 'take' })),
    make('ul', { class: 'had' }, Object.entries(files).filter(([, file]) => file).map(fileLine)), swap);
}

// On paper: which files these were.
function showPapers({ sheet }) {
  const had = Object.entries(files).filter(([kind, file]) => file && kind !== 'before');
  const rows = had.map(([kind, file]) => make('tr', {}, make('th', { scope: 'row' }, say(kind)), make('td', {}, isolated(file.name)),
    make('td', {}, hashOf(file))));
  put('papers', had.length > 0 && tableOf({}, [say(sheet ? 'filesChecked' : 'filesOpened'), say('fileName'), 'SHA-256'], rows));
}
