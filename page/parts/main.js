// ---- What is found in the files that were opened, and how it is shown

// The verdict of this page's own check on the sheet, and the seats that follow, which it looks for where the sheet is wrong.
function ownOf(sheet, parts, faults, [setup, held]) {
  const refusal = files.sheet && refusalIn(files.sheet.text, setup);
  if (refusal) return { verdict: 'refused', refusal };
  if (!sheet) return { verdict: 'none' };
  if (faults.length === 0) return { verdict: 'right' };
  const found = sheet.found ? followed(sheet.found, faults, setup, held) : null;
  const changes = found && otherSeats(sheet.found, found);
  const kind = kindOfWrong(sheet.found, parts, faults, { changes, isHeld: Boolean(held) });
  const votesDiffer = faults.some(({ reason }) => reason === 'votesHeld');
  const follow = found && { ...found, says: kind.follows, isOther: kind.colour === 'mismatch', differs: changes.length > 0 };
  return { verdict: 'wrong', fault: faults[0], count: faults.length, kind, follow, votesDiffer };
}

// The whole answer on the files: what was read, the parts of the check, and all faults.
/** @type {() => any} */
function judge() {
  const setup = readFile(files.setup, readSetup);
  const held = setup?.found ? readFile(files.held, (text) => readHeld(text, setup.found)) : null;
  const sheet = readFile(files.sheet, readSheet);
  const before = readFile(files.before, readSheet);
  const others = [['setup', setup], ['held', held]].filter(([, file]) => file?.fault).map(([name, { fault }]) => ({ name, fault }));
  const parts = sheet?.found ? checkSheet(sheet.found, setup?.found, held?.found) : [];
  const all = sheet?.fault ? [sheet.fault] : parts.flatMap(({ faults }) => faults);
  const own = ownOf(sheet, parts, all, [setup?.found, held?.found]);
  const faults = own.verdict === 'refused' ? [] : all;
  const isCounted = held?.found && (own.verdict === 'none' || own.verdict === 'refused');
  const rows = held ? { is: held.found ? 'compared' : 'unread', line: held.fault?.line } : { is: files.held ? 'given' : 'none' };
  return {
    own, setup: { is: setup?.found ? 'read' : setup ? 'unread' : 'none', line: setup?.fault?.line }, rows, returns: held?.found,
    count: isCounted ? countSoFar(setup.found, held.found) : null,
    sheet: sheet?.found, parts, faults, faultsAt: byLine(faults), others, before,
    beforeParts: before?.found ? checkSheet(before.found, setup?.found, null) : [],
  };
}

// ---- The parts of the page

// The kind that the sheet calls itself, which nothing checks.
function kindShown({ sheet, own }) {
  if (sheet) return say('calls', { kind: say(sheet.kind) });
  const key = { none: 'noSheet', refused: 'isRefused' }[own.verdict] ?? 'isUnreadable';
  return make('strong', { class: 'kind' }, say(key));
}

// The first line of a sheet, which no check looks at. Its digit is left out: in a published sheet it is not the number of a desk.
const neverChecked = ({ kind, commands }) => make('p', { class: 'hint' }, say('neverChecked', { kind: say(kind), commands }));

function showLanguages() {
  const choose = (one) => {
    language = one;
    show();
    within(find('languages'), '[aria-pressed=true]').focus();
  };
  find('languages').setAttribute('aria-label', say('language'));
  put('languages', LANGUAGES.map((one) => (
    button(one === 'de' ? 'Deutsch' : 'English', () => choose(one), { lang: one, 'aria-pressed': `${one === language}` }))));
}

// The bar, the sentences under it, the ticks, and lines to sign if the sheet is right.
function showBar(answer, proved) {
  const { colour, heading, caveat, sentence, ticks } = barOf({ ...answer, proved });
  const isEmpty = answer.own.verdict === 'none';
  const [other] = answer.others;
  const unread = isEmpty && other && words('otherFile', { file: say(other.name), line: other.fault.line });
  Object.assign(document.body.dataset, { state: unread ? 'unsure' : colour, own: answer.own.verdict });
  put('kind', kindShown(answer));
  const said = unread || heading;
  put('verdict', said && [signFor(unread ? 'unsure' : isEmpty ? 'answer' : colour), ' ', reasonOf(said)]);
  put('why', caveat && make('p', { class: 'caveat' }, reasonOf(caveat)),
    sentence.map((one) => make('p', {}, one.fault ? faultShown(answer.sheet, one.fault) : reasonOf(one))),
    answer.sheet && neverChecked(answer.sheet));
  find('parliament-title')?.replaceChildren(parliamentHeading(answer, colour));
  showElection(answer);
  find('ticks').setAttribute('aria-label', say('ticks'));
  put('ticks', ticks.map((tick) => make('li', { class: tick.state }, make('p', {}, signFor(tick.state), ' ', reasonOf(tick.heading)),
    tick.sentence.map((one) => make('p', { class: 'hint' }, reasonOf(one))))));
  const blank = (key) => make('p', {}, make('span', { class: 'rule' }), make('span', {}, say(key)));
  put('signatures', colour === 'right' && ['place', 'date', 'signature', 'signature'].map(blank));
}

// A fault with its place: the line, and whose it is.
function faultShown(sheet, fault) {
  const place = fault.line > 0 ? [say('lineIs', { line: fault.line }), ': '] : [];
  return [place, whose(sheet, fault.line), reasonOf(fault)];
}

// The election: that of the sheet, or of the set-up if there is only that, with the votes so far.
function showElection({ sheet, count }) {
  const found = sheet ? { ...sheet, seats: sheet.house.seats, votes: allVotes(sheet) } : count && { ...count, seats: count.house };
  const namesOfAll = (rows) => namesShown(rows.map(({ name }) => name));
  put('title', found ? say('election', { seats: found.seats, constituencies: found.constituencies.length }) : say('title'));
  put('election', found && pieces('electionNames', {
    constituencies: namesOfAll(found.constituencies), groups: namesOfAll(found.groups), votes: found.votes }));
  put('add', (files.sheet || count) && button(say('add'), () => find('pick').click()));
}

// How large the sheet is, so that it is printed on one page. Long names take several lines, in the legend first.
function paperSize({ groups, constituencies }) {
  const height = (rows, width) => rows.reduce((all, { name }) => all + Math.ceil(name.length / width), 0);
  const most = Math.max(height(groups, 15), height(constituencies, 20));
  if (most > 20) return 'largest';
  return most > 10 ? 'large' : 'small';
}

// If this script itself fails, no verdict stays, not even one on earlier files, and none comes later.
function unlessItFails(work) {
  try {
    work();
  } catch (fault) {
    proved.tell = () => {};
    Object.assign(document.body.dataset, { state: 'unsure', own: 'failed' });
    for (const name of ['kind', 'title', 'election', 'ticks', 'shown', 'signatures']) put(name);
    put('verdict', signFor('unsure'), ` ${say('barFailed')}`);
    put('why', make('p', {}, reasonOf(words('barFailedSays', { why: `${fault}` }))));
    document.body.dataset.shown = '0';
  }
}

// The elements that can have the focus. All of them are made anew, so one is found again by its part and its place in that.
/** @type {(part: Element) => any[]} */
const focusable = (part) => [part, ...part.querySelectorAll('a, button, input, textarea, summary, [tabindex]')];

function placeOfFocus() {
  const part = document.activeElement.closest('[id]');
  return part && { id: part.id, place: focusable(part).indexOf(document.activeElement) };
}

function focusAt({ id, place }) {
  const part = find(id);
  const found = part && focusable(part)[place];
  found?.focus();
  const closed = found?.closest('details');
  if (closed && found !== document.activeElement) within(closed, 'summary').focus();
}

// Shows everything anew. What has the focus keeps it.
function show() {
  const place = placeOfFocus();
  unlessItFails(showAll);
  if (place && document.activeElement === document.body) focusAt(place);
}

function showAll() {
  const begun = performance.now();
  document.documentElement.lang = language;
  const answer = judge();
  document.title = say('title');
  put('opinion', pieces('opinion', { command: code('zhcount check') }));
  find('detail').hidden = true;
  put('detail');
  askProved(() => unlessItFails(() => {
    showBar(answer, proved);
    showProved(answer);
  }));
  const { sheet, count } = answer;
  // First comes what was found, or if there is nothing yet, what this page is, and the choice of files.
  find('overview').after(...(files.sheet || count ? ['shown', 'files', 'opinion'] : ['opinion', 'files', 'shown']).map(find));
  showLanguages();
  showFiles();
  showPapers(answer);
  const found = sheet ?? count;
  put('shown', sheet && parliament(answer), soFar(answer), found && colourTable(found.groups), problems(answer),
    sheet && seatsTable(answer), summary(answer), make('div', { id: 'proved-place' }), changes(answer));
  showBar(answer, proved);
  showProved(answer);
  showWhichPage();
  showColours();
  hintAtScrolling();
  document.body.dataset.size = found ? paperSize(found) : 'small';
  document.body.dataset.shown = `${Math.ceil(performance.now() - begun)}`;
}

document.addEventListener('dragover', (event) => { event.preventDefault(); document.body.classList.add('over'); });
document.addEventListener('dragleave', (event) => { if (!event.relatedTarget) document.body.classList.remove('over'); });
document.addEventListener('drop', (event) => {
  event.preventDefault();
  document.body.classList.remove('over');
  const text = event.dataTransfer.getData('text/plain');
  if (event.dataTransfer.files.length > 0) readFiles(event.dataTransfer.files);
  else if (text !== '') takeFiles([pasted(text)]);
});
document.addEventListener('keydown', (event) => {
  if (event.key === 'Escape' && !find('detail').hidden) within(find('detail'), '.close').click();
});
window.addEventListener('resize', hintAtScrolling);
window.addEventListener('hashchange', () => { readColours(); showColours(); });
readColours();
show();
