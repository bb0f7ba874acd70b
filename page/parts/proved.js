// ---- The proved check: that of the program, compiled for WebAssembly, beside the page's own

/** @type {string} */
const MODULE = '@MODULE@';
const VERSION = '@VERSION@';
// The check takes milliseconds. After this many of them the page gives it up.
const PATIENCE = 60000;
const GIVEN = ['setup', 'sheet', 'held'];

// Its state is one of none (no sheet), alone (no set-up), runs, right, wrong, refused (by the set-up or the rows) and failed, with a
// reason for the last two; `text` are the bytes that it wrote.
const proved = { state: 'none', why: '', text: null, given: [], run: 0, tell: () => {} };

function moduleBytes() {
  return Uint8Array.from(atob(MODULE), (c) => c.charCodeAt(0));
}

// Ends the worker that is at work, if there is one.
let endWorker = () => {};

// The answer of a worker, which ends with it, as does the one before. If the browser refuses the worker, the check runs in the page.
function asked(texts) {
  endWorker();
  return new Promise((answered, failed) => {
    const bytes = moduleBytes();
    const inPage = () => answered(WebAssembly.compile(bytes).then((module) => provedCheck(module, texts)));
    const address = URL.createObjectURL(new Blob([WORKER], { type: 'text/javascript' }));
    let worker;
    try {
      worker = new Worker(address);
    } catch {
      inPage();
      return;
    }
    const late = setTimeout(() => { endWorker(); failed(new Error('time')); }, PATIENCE);
    endWorker = () => {
      clearTimeout(late);
      worker.terminate();
      URL.revokeObjectURL(address);
    };
    worker.onmessage = ({ data }) => {
      endWorker();
      if (data.answer) answered(data.answer);
      else failed(new Error(data.fault));
    };
    worker.onerror = () => {
      endWorker();
      inPage();
    };
    worker.postMessage({ bytes, texts });
  });
}

// The state after an answer.
function provedBy({ status, text }) {
  if (status < 2) return { state: status === 0 ? 'right' : 'wrong', text };
  if (status < 4) return { state: 'refused', text, why: new TextDecoder().decode(text).trim().replace('\n', ', ') };
  return { state: 'failed', why: say('provedMemory') };
}

function whyFailed(fault) {
  if (fault.message === 'time') return say('provedTime', { seconds: PATIENCE / 1000 });
  return /memory/iu.test(fault.message) ? `${say('provedMemory')} (${fault.message})` : fault.message;
}

// The state that is known without asking; null if the check is to be asked.
/** @param {any[]} given */
function withoutAsking([setup, sheet, held]) {
  if (!sheet) return { state: 'none' };
  if (!setup) return { state: 'alone' };
  // The program does not read more of a sheet or a set-up either.
  if (held?.bytes.length >= MOST_READ) return { state: 'failed', why: say('provedCut') };
  if ([setup, sheet, held].some((file) => file?.fault?.reason === 'unreadable')) return { state: 'failed', why: say('provedUnreadable') };
  if (typeof WebAssembly === 'undefined') return { state: 'failed', why: say('provedNone') };
  if (MODULE === '') return { state: 'failed', why: say('provedModule') };
  return null;
}

// Asks the check about the files that are open, unless it was asked about them already; `tell` is called when it has answered.
function askProved(tell) {
  proved.tell = tell;
  const given = GIVEN.map((kind) => files[kind]);
  if (given.every((file, i) => file === proved.given[i])) return;
  const run = proved.run + 1;
  const become = (state) => {
    if (run !== proved.run) return;
    Object.assign(proved, { why: '', text: null }, state);
    document.body.dataset.proved = proved.state;
  };
  Object.assign(proved, { given, run });
  const known = withoutAsking(given);
  become(known ?? { state: 'runs' });
  if (known) return;
  const [setup, sheet, held] = given.map((file) => (file ? file.bytes : null));
  asked({ setup, sheet, held }).then(provedBy, (fault) => ({ state: 'failed', why: whyFailed(fault) })).then((state) => {
    become(state);
    if (run === proved.run) proved.tell();
  });
}

// Gives these bytes as a file.
function save(name, bytes) {
  const address = URL.createObjectURL(new Blob([bytes], { type: 'application/octet-stream' }));
  make('a', { href: address, download: name }).click();
  setTimeout(() => URL.revokeObjectURL(address), 1000);
}

// The page shows this many characters of a verdict.
const SHOWN = 20000;

// The verdict, word for word, with signs for characters that are not seen.
function provedText(text) {
  const whole = new TextDecoder().decode(text);
  return [make('pre', { tabindex: 0 }, make('bdi', {}, whole.slice(0, SHOWN).split('\n').map((line) => shown(line, SHOWN)).join('\n'))),
    whole.length > SHOWN ? make('p', { class: 'hint' }, say('provedLong')) : null,
    button(say('provedSave'), () => save('verdict', text), { id: 'save' })];
}

// Shows what there is of it, if there is a sheet.
function showProved({ own }) {
  const { state, why, text } = proved;
  const wrongs = { answer: 'provedAnswer', unread: 'provedUnread', mismatch: 'provedMismatch' };
  const wrong = own.verdict === 'refused' ? 'answer' : own.kind?.isUnread ? 'unread' : own.kind?.colour;
  const keys = { right: 'provedRight', wrong: 'provedWrong', refused: 'provedRefused', runs: 'provedRuns', alone: 'provedAlone' };
  const key = (state === 'wrong' && wrongs[wrong]) || keys[state];
  const said = pieces(key ?? 'provedNot', { why, command: code('zhcount check') });
  put('proved-place', state !== 'none' && make('section', { id: 'proved', class: 'screen' }, make('h2', {}, say('provedCheck')),
    make('p', {}, said), text && provedText(text)));
}

// How the sum of a file is computed.
const SUMS = { Linux: 'sha256sum index.html', macOS: 'shasum -a 256 index.html', Windows: 'certutil -hashfile index.html SHA256' };

// How a reader finds out whether this page was forged, which it can't say itself.
function showWhichPage() {
  put('which', make('p', {}, say('whichPage', { version: VERSION })),
    make('ul', {}, Object.entries(SUMS).map(([system, command]) => make('li', {}, `${system}: `, code(command)))));
}
