// ---- How a number is computed

const row = (name, ...what) => [make('dt', {}, name), make('dd', {}, what)];

// That twice the votes lie between the two ends of the interval, in whole numbers.
function wholeNumbers(twice, unit, seats, names, marked = true) {
  const holds = rounds(twice, unit, seats);
  const low = grouped(`${2n * seats - 1n} × ${names.unit} = ${names.show(lowEnd(unit, seats))}`);
  const high = grouped(`${2n * seats + 1n} × ${names.unit} = ${names.show(highEnd(unit, seats))}`);
  const key = seats > 0n ? (holds ? 'lies' : 'liesNot') : (holds ? 'liesBelow' : 'liesNotBelow');
  const said = say(key, { twice: grouped(`2 × ${names.amount} = ${names.show(twice)}`), low, high });
  return row(say('whole'), said, ' ', marked ? mark(holds) : null);
}

// The faults are those of the line, by which the table marks the cell: the panel's own mark, and what does not hold.
function detail(title, line, faults, rows, extra = null) {
  const holds = faults.length === 0;
  return [
    make('h2', {}, title, ' ', mark(holds),
      make('span', { class: holds ? 'said right' : 'said wrong' }, ` ${say(holds ? 'ok' : 'wrong')}`)),
    holds ? null : make('div', { class: 'fault' }, make('p', {}, `${say('wrongHere')}:`),
      faults.map((fault) => make('p', { class: 'reason' }, reasonOf(fault)))),
    make('dl', {}, rows), extra,
    make('p', { class: 'source' }, `${say('lineIs', { line: line.line })}: `, code(line.text)),
  ];
}

const seatsWord = (seats) => `${seats} ${say(seats === 1n ? 'seatOne' : 'seatsOf')}`;

// The seats that follow, which the page looks for if the sheet is wrong.
const followRow = (follow, kind, place) => (
  follow ? row(say(follow.isOther ? 'seatsFollowOther' : 'seatsFollow'),
    seatsWord((kind === 'lists' ? follow.lists.get(place) : follow[kind][place - 1]) ?? 0n)) : null);

function listDetail(sheet, [constituency, group, list], faults, follow) {
  const title = [isolated(constituency.name), ', ', isolated(group.name), `: ${seatsWord(list.seats)}`];
  const right = followRow(follow, 'lists', `${constituency.number} ${group.number}`);
  if (group.divisor === null) {
    return detail(title, list, faults, [row(say('votesWord'), grouped(list.votes)), right], make('p', {}, say('noSeats')));
  }
  const unit = unitOf(sheet, list);
  const twice = twiceVotes(list);
  const product = `${constituency.divisorText} × ${group.divisorText}`;
  const [low, high] = [lowEnd, highEnd].map((end) => grouped(exact(5n * end(unit, list.seats), 13)));
  return detail(title, list, faults, [
    row(say('votesWord'), grouped(list.votes)),
    row(say('quotientWord'), grouped(`${list.votes} / (${product}) = `), roundsTo(quotient(twice, 2n * unit))),
    row(say('withDivisors'), say(list.seats > 0n ? 'between' : 'below', { low, high, unit: say('unitVotes') })),
    wholeNumbers(twice, unit, list.seats, { unit: product, amount: list.votes, show: (number) => exact(number, 12) }),
    right,
  ]);
}

const roundsTo = (found) => say('roundsTo', { quotient: grouped(found.quotient), rounded: grouped(found.rounded) });

// Seats by one key: the weight over it, and its interval in whole numbers. If the key itself is wrong, this decides nothing.
function keyRows([word, unit], weight, key, seats, isKeyWrong) {
  const [low, high] = [lowEnd, highEnd].map((end) => grouped(cutOff(end(key.a, seats), 2n * key.b || 1n)));
  return [
    row(word, grouped(weight)),
    row(say('keyWord'), grouped(`${key.a}/${key.b}`),
      isKeyWrong ? make('span', { class: 'said wrong' }, ` ${say('keyWrong', { line: key.line })}`) : null),
    key.a > 0n && key.b > 0n ? [
      row(say('quotientWord'), grouped(`${weight} / (${key.a}/${key.b}) = `), roundsTo(quotient(weight * key.b, key.a))),
      row(say('withKey'), say(seats > 0n ? 'between' : 'below', { low, high, unit })),
      wholeNumbers(2n * weight * key.b, key.a, seats, { unit: key.a, amount: `${key.b} × ${weight}`, show: String }, !isKeyWrong),
    ] : null,
  ];
}

function addUp(name, lists, total) {
  const seats = sum(lists.map((list) => list.seats));
  return row(name, `${lists.map((list) => list.seats).join(' + ')} = ${seats} `, mark(seats === total));
}

function constituencyDetail(sheet, constituency, faults, { keys, follow }) {
  const { persons, seats } = constituency;
  const lists = listsWithin(sheet, constituency);
  const votes = sum(lists.map((list) => list.votes));
  return detail([isolated(constituency.name), `: ${seatsWord(seats)}`], constituency, faults, [
    keyRows([say('personsWord'), say('unitPersons')], persons, sheet.seatsKey, seats, keys.seats),
    addUp(say('sumRowC'), lists, seats),
    row(say('votesWord'), grouped(`${lists.map((list) => list.votes).join(' + ')} = ${votes} `), mark(votes === constituency.votes)),
    followRow(follow, 'constituencies', constituency.number),
  ]);
}

// How the group reaches a quorum.
function quorumRow(sheet, group, lists) {
  const reached = lists.filter((list) => reachesQuorum(list.votes, constituencyFor(sheet, list).votes));
  const should = takesPart(sheet, group);
  const names = namesShown(reached.map((list) => constituencyFor(sheet, list).name));
  const how = reached.length > 0 ? pieces('reached', { names }) : say(should ? 'reachedCanton' : 'notReached');
  return row(say('quorumWord'), how, ' ', mark(should === group.takesPart));
}

function groupDetail(sheet, group, faults, { keys, follow }) {
  const lists = listsOf(sheet, group);
  const added = sum(lists.map(({ voters }) => voters ?? 0n));
  return detail([isolated(group.name), `: ${seatsWord(group.seats)}`], group, faults, [
    quorumRow(sheet, group, lists),
    group.voters === null ? null : [
      keyRows([say('votersWord'), say('unitVoters')], group.voters, sheet.upperKey, group.seats, keys.upper),
      row(`${say('votersWord')} =`, say('votersSum', { should: added }), ' ', mark(added === group.voters)),
    ],
    addUp(say('sumRow'), lists, group.seats),
    followRow(follow, 'groups', group.number),
  ]);
}

function showDetail(children, opener) {
  const panel = find('detail');
  const close = () => { panel.hidden = true; panel.replaceChildren(); opener.focus(); };
  put('detail', button('×', close, { class: 'close', 'aria-label': say('close') }), children);
  panel.hidden = false;
}
