// ---- What changed from one sheet to the next

const byName = (rows) => new Map(rows.map((one) => [one.name, one]));

function changesOf(before, now) {
  const found = [];
  const note = (what, was, is) => {
    const difference = typeof was === 'bigint' && typeof is === 'bigint' ? is - was : null;
    if (was !== is) found.push({ what, was: was ?? '-', now: is ?? '-', difference });
  };
  const each = (rowsOf, tell) => {
    const [old, next] = [byName(rowsOf(before)), byName(rowsOf(now))];
    for (const name of new Set([...old.keys(), ...next.keys()])) tell(name, old.get(name), next.get(name));
  };
  const yes = (one) => (one ? say(one.takesPart ? 'yes' : 'no') : undefined);
  note(say('kindWord'), say(before.kind), say(now.kind));
  note(say('commandsWord'), before.commands, now.commands);
  note(say('houseWord'), before.house.seats, now.house.seats);
  note(say('quorumCanton'), before.quorum?.perMille, now.quorum?.perMille);
  note(say('allVotesWord'), allVotes(before), allVotes(now));
  each(({ groups }) => groups, (name, old, next) => {
    note(pieces('takesPartIn', { name: isolated(name) }), yes(old), yes(next));
    note(pieces('seatsIn', { name: isolated(name) }), old?.seats, next?.seats);
  });
  each(({ constituencies }) => constituencies, (name, old, next) => {
    note(pieces('seatsIn', { name: isolated(name) }), old?.seats, next?.seats);
    note(pieces('votesIn', { name: isolated(name) }), old?.votes, next?.votes);
  });
  const lists = (sheet) => sheet.lists.map((list) => (
    { ...list, name: `${constituencyFor(sheet, list).name}\n${groupFor(sheet, list).name}` }));
  for (const [key, what] of [['seatsIn', 'seats'], ['votesIn', 'votes']]) {
    each(lists, (name, old, next) => note(pieces(key, { name: namesShown(name.split('\n')) }), old?.[what], next?.[what]));
  }
  return found;
}

const signed = (number) => grouped(number > 0n ? `+${number}` : `${number}`.replace('-', '−'));
const cell = (value) => make('td', {}, typeof value === 'bigint' ? grouped(value) : value);

function changeTable(before, sheet) {
  const found = changesOf(before, sheet);
  const lines = sheet.lines.flatMap((text, i) => (text === before.lines[i] ? [] : [i + 1]));
  if (found.length === 0) return make('p', {}, lines.length > 0 ? say('onlyLines', { lines: lines.join(', ') }) : say('nothingChanged'));
  const names = (one) => [...one.constituencies, ...one.groups].map(({ name }) => name).join('\n');
  const rows = found.map((one) => make('tr', {}, make('th', { scope: 'row' }, one.what), cell(one.was), cell(one.now),
    make('td', {}, one.difference === null ? '' : signed(one.difference))));
  const heads = ['what', 'was', 'now', 'difference'].map((key) => say(key));
  return [names(before) === names(sheet) ? null : make('p', { class: 'hint' }, say('otherOrder')),
    make('div', { class: 'scroll' }, tableOf({ 'aria-labelledby': 'changes-title' }, heads, rows))];
}

function changes({ sheet, before, beforeParts }) {
  if (!sheet || !before) return null;
  const faults = before.fault ? [before.fault] : beforeParts.flatMap((part) => part.faults);
  const own = faults.find((fault) => !isOfOther(fault));
  const warning = own ? make('p', { class: 'said wrong' }, say('beforeWrong', { line: own.line }))
    : faults.length > 0 && make('p', { class: 'hint' }, say('beforeOther', { line: faults[0].line }));
  return make('section', { id: 'changes' }, make('h2', { id: 'changes-title' }, say('changes')), warning,
    before.found && changeTable(before.found, sheet));
}
