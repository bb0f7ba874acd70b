// ---- Checking a sheet, part by part

// One part of the check: how many checks it made, which of them fail, and what it could not check.
class Part {
  constructor(name) {
    this.name = name;
    this.count = 0;
    this.faults = [];
    this.left = [];
  }

  // A check of the thing on a line; where it fails the reason is given.
  expect(holds, { line, text }, reason, values = {}) {
    this.count += 1;
    if (!holds) this.faults.push({ line, text, reason, values });
  }

  // A check of a number on a line.
  expectRange(number, row, least, most) {
    this.expect(number >= least && number <= most, row, 'range', { least, most });
  }
}

const listsOf = (sheet, group) => sheet.lists.filter((list) => list.group === group.number);
const listsWithin = (sheet, constituency) => sheet.lists.filter((list) => list.constituency === constituency.number);
const constituencyFor = (sheet, list) => sheet.constituencies[list.constituency - 1];
const groupFor = (sheet, list) => sheet.groups[list.group - 1];
const allVotes = (sheet) => sum(sheet.constituencies.map(({ votes }) => votes));

// A group takes part by a list, or by the whole canton.
function takesPart(sheet, group) {
  const lists = listsOf(sheet, group);
  return lists.some((list) => reachesQuorum(list.votes, constituencyFor(sheet, list).votes))
    || (sheet.quorum !== null && reachesCanton(sum(lists.map(({ votes }) => votes)), allVotes(sheet), sheet.quorum.perMille));
}

const MILLION = 1000000n;
// The limits of divisors, in millionths.
const MOST_OF_CONSTITUENCY = 10n ** 18n;
const MOST_OF_GROUP = 10n ** 12n;
// The divisors of a list's quotient, multiplied, and its votes, in millionths of millionths.
/** @type {(sheet: any, list: any) => any} */
const unitOf = (sheet, list) => constituencyFor(sheet, list).divisor * groupFor(sheet, list).divisor;
/** @type {(list: any) => any} */
const twiceVotes = (list) => 2n * list.votes * MILLION * MILLION;

function formPart(part, sheet, setup) {
  part.expect(sheet.commands < 2n ** 64n, sheet.head, 'manyCommands');
  part.expectRange(sheet.house.seats, sheet.house, 1n, 400n);
  if (sheet.quorum) part.expectRange(sheet.quorum.perMille, sheet.quorum, 1n, 49n);
  for (const rows of [sheet.constituencies, sheet.groups]) {
    rows.forEach((row, i) => {
      part.expect(isName(row.name), row, 'name');
      part.expect(rows.findIndex(({ name }) => name === row.name) === i, row, 'nameTwice');
    });
  }
  for (const group of sheet.groups) part.expect(listsOf(sheet, group).length > 0, group, 'noLists');
  if (setup) sameSetup(part, sheet, setup);
  else part.left.push('leftForm');
}

// The sheet is one of this set-up: its house, quorum and names, and a line for each list of the set-up.
function sameSetup(part, sheet, setup) {
  part.expect(sheet.house.seats === setup.house, sheet.house, 'setupHouse', { should: setup.house, is: sheet.house.seats });
  const perMille = sheet.quorum?.perMille ?? null;
  const quorum = setup.quorum === null ? 'noQuorum' : perMille === null ? 'setupNoQuorum' : 'setupQuorum';
  part.expect(perMille === setup.quorum, sheet.quorum ?? sheet.constituencies[0], quorum, { should: setup.quorum, is: perMille });
  for (const kind of ['constituencies', 'groups']) {
    const rows = sheet[kind];
    rows.forEach((row, i) => {
      const should = setup[kind][i]?.name;
      const reason = should === undefined ? 'notInSetup' : 'setupSays';
      part.expect(row.name === should, row, reason, { should: named(should), is: named(row.name) });
    });
    const missing = setup[kind][rows.length];
    if (missing) part.expect(false, rows.at(-1), 'nextMissing', { name: named(missing.name) });
  }
  for (const list of sheet.lists) {
    const place = `${list.constituency} ${list.group}`;
    part.expect(setup.groups[list.group - 1]?.stands.has(list.constituency), list, 'standsNot', { place });
  }
  const last = { line: sheet.lines.length, text: sheet.lines.at(-1) };
  setup.constituencies.forEach((_, d) => setup.groups.forEach(({ stands }, g) => {
    const place = `${d + 1} ${g + 1}`;
    const next = sheet.lists.find(({ constituency, group }) => constituency > d + 1 || (constituency === d + 1 && group > g));
    if (stands.has(d + 1)) part.expect(sheet.at.has(place), next ?? last, 'listMissing', { place });
  }));
}

function votesPart(part, sheet, setup, held) {
  for (const constituency of sheet.constituencies) {
    const votes = sum(listsWithin(sheet, constituency).map((list) => list.votes));
    part.expect(votes === constituency.votes, constituency, 'votesSum', { should: votes, is: constituency.votes });
  }
  const most = 10n ** 14n;
  part.expect(allVotes(sheet) <= most, sheet.constituencies.at(-1), 'allVotes', { most, is: allVotes(sheet) });
  if (!held) part.left.push(setup ? 'leftVotes' : 'leftVotesSetup');
  for (const list of held ? sheet.lists : []) {
    const votes = held.votes.get(`${list.constituency} ${list.group}`) ?? 0n;
    part.expect(list.votes === votes, list, 'votesHeld', { should: votes, votes: list.votes });
  }
}

// Seats of weights by one key: those of the house in all. Each weight is that of a row, which has its seats.
function singlePart(part, house, key, rows, weights) {
  const seats = rows.map((row) => row.seats);
  const rule = keyOf(weights, seats);
  const holds = (one, i) => one.a > 0n && one.b > 0n && rounds(2n * weights[i] * one.b, one.a, seats[i]);
  const fits = (one) => one !== null && rows.every((_, i) => holds(one, i));
  const [should, is] = [rule, key].map((one) => (one ? `${one.a}/${one.b}` : '-'));
  const isRule = should === is;
  // Where the seats are right, it is the key that is wrong.
  if (!fits(key) && fits(rule) && sum(seats) === house.seats) part.expect(false, key, 'keyIs', { should, is });
  else {
    rows.forEach((row, i) => {
      const found = quotient(weights[i] * key.b, key.a);
      const values = { weight: weights[i], key: is, seats: seats[i], ...found };
      part.expect(holds(key, i), row, found.half ? 'keyHalf' : 'keyRounds', values);
    });
  }
  part.expect(sum(seats) === house.seats, house, 'seatsSum', { sum: sum(seats), total: house.seats });
  if (part.faults.length === 0) part.expect(isRule, key, 'keyIs', { should, is });
}

function seatsPart(part, sheet, setup) {
  sheet.constituencies.forEach((row, i) => {
    part.expectRange(row.persons, row, 1n, 10000000n);
    const should = setup?.constituencies[i]?.persons;
    if (should !== undefined) part.expect(row.persons === should, row, 'setupPersons', { should, is: row.persons });
    part.expect(row.seats >= 1n, row, 'noSeat');
  });
  singlePart(part, sheet.house, sheet.seatsKey, sheet.constituencies, sheet.constituencies.map(({ persons }) => persons));
  if (!setup) part.left.push('leftSeats');
}

function participationPart(part, sheet) {
  for (const group of sheet.groups) {
    const should = takesPart(sheet, group);
    part.expect(group.takesPart === should, group, should ? 'takesPart' : 'takesNoPart');
  }
  part.expect(sheet.groups.some((group) => group.takesPart), sheet.groups[0], 'nobody');
}

function votersPart(part, sheet) {
  const expect = (group, row, should, reason, values = {}) => (group.takesPart
    ? part.expect(row.voters === should, row, reason, { ...values, should, is: row.voters })
    : part.expect(row.voters === null, row, 'votersDash', { is: row.voters }));
  for (const list of sheet.lists) {
    const [{ votes }, { seats }, group] = [list, constituencyFor(sheet, list), groupFor(sheet, list)];
    if (seats > 0n || !group.takesPart) expect(group, list, seats > 0n && voterNumber(votes, seats), 'votersRound', { votes, seats });
  }
  for (const group of sheet.groups) expect(group, group, sum(listsOf(sheet, group).map(({ voters }) => voters ?? 0n)), 'votersOther');
}

function groupsPart(part, sheet) {
  for (const group of sheet.groups) {
    if (!group.takesPart) part.expect(group.seats === 0n, group, 'noPartNoSeats', { is: group.seats });
    const needsDivisor = group.seats > 0n;
    part.expect((group.divisor !== null) === needsDivisor, group, needsDivisor ? 'divisorMissing' : 'divisorDash');
  }
  const rows = sheet.groups.filter((group) => group.takesPart);
  singlePart(part, sheet.house, sheet.upperKey, rows, rows.map(({ voters }) => voters ?? 0n));
}

function listsPart(part, sheet) {
  for (const [rows, most] of [[sheet.constituencies, MOST_OF_CONSTITUENCY], [sheet.groups, MOST_OF_GROUP]]) {
    for (const row of rows.filter(({ divisor }) => divisor !== null)) {
      part.expect(row.divisor > 0n, row, 'divisorZero');
      part.expect(row.divisor <= most, row, 'divisorMost', { most: most / MILLION, is: row.divisorText });
    }
  }
  for (const list of sheet.lists) checkList(part, sheet, list);
  const total = (row, lists) => {
    const seats = sum(lists.map((list) => list.seats));
    part.expect(seats === row.seats, row, 'listSeatsSum', { sum: seats, total: row.seats });
  };
  sheet.constituencies.forEach((row) => total(row, listsWithin(sheet, row)));
  sheet.groups.forEach((row) => total(row, listsOf(sheet, row)));
}

function checkList(part, sheet, list) {
  const group = groupFor(sheet, list);
  if (group.divisor === null) part.expect(list.seats === 0n, list, 'groupWithout', { is: list.seats });
  else {
    const unit = unitOf(sheet, list);
    const found = quotient(list.votes * MILLION * MILLION, unit);
    part.expect(unit > 0n && rounds(twiceVotes(list), unit, list.seats), list, found.half ? 'listHalf' : 'listRounds', {
      seats: list.seats, votes: list.votes, first: constituencyFor(sheet, list).divisorText, second: group.divisorText, ...found,
    });
  }
}

// All parts, by the names of `zhcount check`.
const PARTS = {
  form: formPart, votes: votesPart, seats: seatsPart, participation: participationPart, voters: votersPart, groups: groupsPart,
  lists: listsPart,
};

function checkSheet(sheet, setup, held) {
  return Object.entries(PARTS).map(([name, check]) => {
    const part = new Part(name);
    check(part, sheet, setup, held);
    return part;
  });
}
