// ---- What does not hold, and the parts of the check

// The faults line by line, each line with all that is wrong with it.
function byLine(faults) {
  const lines = new Map();
  for (const fault of faults) lines.set(fault.line, [...(lines.get(fault.line) ?? []), fault]);
  return lines;
}

// Whose line this is: a constituency's, a group's or both, and a colon; nothing for another line.
function whose(sheet, line) {
  const has = (rows) => rows.find((one) => one.line === line);
  const list = sheet && has(sheet.lists);
  const found = list ? [constituencyFor(sheet, list), groupFor(sheet, list)] : [sheet && (has(sheet.constituencies) ?? has(sheet.groups))];
  return found[0] ? [namesShown(found.map(({ name }) => name)), ': '] : [];
}

// A line that does not hold, with its text and the reasons. Line 0 is the whole file.
function faultBox(title, { line, text }, reasons) {
  return make('div', { class: 'fault' }, make('p', {}, line > 0 ? title : say('wholeFile')),
    line > 0 ? make('pre', {}, `${line}: `, isolated(text, 300)) : null,
    reasons.map((fault) => make('p', { class: 'reason' }, reasonOf(fault))));
}

// Everything that does not hold, or is not understood.
function problems({ sheet, own, faults, others }) {
  const boxes = [...byLine(faults)].map(([line, found]) => faultBox([whose(sheet, line), say('lineIs', { line })], found[0], found));
  const more = others.flatMap(({ name, fault }) => [
    faultBox(say('faultAt', { file: say(name), line: fault.line }), fault, [fault]), make('p', { class: 'hint' }, say('notAny'))]);
  if (files.held && !files.setup) more.push(make('p', { class: 'hint' }, say('heldNeeds')));
  if (boxes.length + more.length === 0) return null;
  const isAlone = own.follow && !own.follow.isOther && !own.follow.differs;
  const count = faults.length > 0 && !own.kind?.isUnread ? make('p', { id: 'count' },
    say('failing', { count: faults.length }), isAlone ? make('strong', {}, ` ${say('noChange')}`) : null) : null;
  return make('section', { id: 'problems' }, faults.length + others.length > 0 ? make('h2', {}, say('wrongHere')) : null, count,
    boxes.length > 0 ? make('div', { class: 'faults', role: 'region', 'aria-label': say('wrongHere'), tabindex: 0 }, boxes) : null, more);
}

function partRow(part, returns) {
  const bad = part.faults.length;
  const { count, faults } = part;
  const result = bad > 0 ? say('fails', { count: bad, all: count, line: faults[0].line }) : say('holds', { count });
  const rows = part.name === 'votes' && returns
    ? ` (${say(returns.rows < returns.possible ? 'compared' : 'comparedAll', returns)})` : '';
  return make('tr', { class: bad > 0 ? 'bad' : null },
    make('th', { scope: 'row' }, mark(bad === 0), ' ', say(part.name),
      make('span', { class: 'screen hint' }, ` ${say(`${part.name}Says`)}`)),
    make('td', {}, result + rows, part.left.map((key) => make('span', { class: 'left' }, ` ${say(key)}`))));
}

// All returns that are missing, where there are some.
const allMissing = (missing) => (missing.length === 0 ? null : make('details', { class: 'screen' },
  make('summary', {}, say('missingAll')), make('ul', {}, missing.map((one) => make('li', {}, missingShown(one))))));

// The parts of the check.
function summary({ sheet, parts, returns }) {
  return sheet && make('section', { id: 'checks' }, make('h2', { id: 'checks-title' }, say('checks')),
    tableOf({ id: 'parts', 'aria-labelledby': 'checks-title' }, [say('part'), say('result')], parts.map((part) => partRow(part, returns))),
    returns && allMissing(returns.missing));
}
