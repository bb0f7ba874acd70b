// ---- What kind of wrong a sheet is, and whether seats change

// How a sheet was changed on its way so that it can't be read, by the fault in it.
const ON_ITS_WAY = {
  cut: 'isCut', cutWithin: 'isCut', early: 'isCut', mark: 'isAltered', carriageReturn: 'isAltered', blank: 'isAltered', noDesk: 'isCopied',
  unreadable: 'isNotRead',
};
const OF_SETUP = ['setupHouse', 'setupSays', 'setupPersons', 'setupQuorum', 'setupNoQuorum', 'noQuorum', 'notInSetup', 'nextMissing',
  'standsNot', 'listMissing'];
// Where the seats are right: what is wrong, by the part of the check that fails first.
const WHAT = { form: 'whatForm', votes: 'whatSum', participation: 'whatQuorum', voters: 'whatVoters', lists: 'whatDivisor' };
const WITH_DIVISORS = ['listRounds', 'listHalf', 'divisorZero', 'divisorMost'];

// The divisor of a constituency or group, if it alone is wrong: only quotients of its own lists fail, and in some interval it would be
// right. Else null.
function wrongDivisor(sheet, faults) {
  const failing = sheet.lists.filter(({ line }) => faults.some((fault) => fault.line === line && WITH_DIVISORS.includes(fault.reason)));
  const alone = (row, its, other) => {
    if (row.divisor === null || failing.length === 0 || !failing.every((list) => its.includes(list))) return null;
    const ends = its.map((list) => ({ twice: twiceVotes(list), by: other(list).divisor, seats: list.seats })).filter(({ by }) => by > 0n);
    const lows = ends.map(({ twice, by, seats }) => ({ n: twice, d: by * (2n * seats + 1n) }));
    const highs = ends.filter(({ seats }) => seats > 0n).map(({ twice, by, seats }) => ({ n: twice, d: by * (2n * seats - 1n) }));
    if (highs.length === 0) return null;
    const low = lows.reduce((found, one) => (one.n * found.d > found.n * one.d ? one : found));
    const high = highs.reduce((found, one) => (one.n * found.d < found.n * one.d ? one : found));
    if (low.n * high.d >= high.n * low.d) return null;
    const shownEnd = ({ n, d }) => cutOff(n, d * MILLION);
    return words('divisorNeeds', { name: named(row.name), is: row.divisorText, low: shownEnd(low), high: shownEnd(high) });
  };
  const found = [
    ...sheet.constituencies.map((row) => alone(row, listsWithin(sheet, row), (list) => groupFor(sheet, list))),
    ...sheet.groups.map((row) => alone(row, listsOf(sheet, row), (list) => constituencyFor(sheet, list))),
  ].filter(Boolean);
  return found.length === 1 ? found[0] : null;
}

// Whether the seats change, in words.
function seatsSay(changes, isHeld) {
  if (changes === null) return words('seatsUnknown');
  const key = changes.length > 0 ? 'seatsOther' : 'seatsSame';
  const strong = { strong: changes.length > 0 ? 'change' : 'noChange' };
  return words(isHeld ? `${key}Held` : key, { changes: { changes }, strong });
}

// Whether the seats would change if the other file is the true one.
function seatsIf(changes, same, other) {
  if (changes === null) return words('seatsUnknown');
  if (changes.length === 0) return words('ifSame', { strong: { strong: same } });
  return words('ifOther', { changes: { changes }, strong: { strong: other } });
}

// The returns have other votes: a possible reason.
function otherRows(differ) {
  const more = differ.map(({ values: { should, votes } }) => should > votes);
  return words(new Set(more).size > 1 ? 'rowsMixed' : more[0] ? 'rowsMore' : 'rowsFewer');
}

const isOfSetup = ({ reason }) => OF_SETUP.includes(reason);
// A fault that comes from another file: a sheet that has it can be right by its own numbers.
const isOfOther = (fault) => isOfSetup(fault) || fault.reason === 'votesHeld';

// The seats that follow: where a sheet is wrong by its own numbers and does not match the other files either, by its own votes alone.
function followed(sheet, faults, setup, held) {
  const count = faults.filter(isOfOther).length;
  if (count === 0 || count === faults.length) return seatsThatFollow(sheet, setup, held);
  return faults.some(({ reason }) => reason === 'listMissing') ? null : seatsThatFollow(sheet, null, null);
}

// How many seats of lists are in the wrong place.
function seatsMoved(changes) {
  const lists = changes.filter(({ names }) => names.length > 1);
  const over = (one, other) => sum(lists.map((list) => (list[one] > list[other] ? list[one] - list[other] : 0n)));
  const [more, fewer] = [over('is', 'should'), over('should', 'is')];
  return more > fewer ? more : fewer;
}

// Where one seat of a constituency alone is another group's: in which, and whose.
function oneMoved(changes) {
  const lists = changes.filter(({ names }) => names.length > 1);
  const [from, to] = [1n, -1n].map((step) => lists.find(({ is, should }) => is === should + step)?.names);
  const isOne = lists.length === 2 && from && to && from[0] === to[0];
  return isOne ? [words('oneMoved', { place: named(from[0]), from: named(from[1]), to: named(to[1]) })] : [];
}

// A file that can't be read as a sheet. Where it became so on its way, this says nothing against the sheet.
function kindUnread(fault) {
  const heading = ON_ITS_WAY[fault.reason];
  const kind = { heading: words(heading ?? 'isNoSheet'), isUnread: true };
  return heading ? { ...kind, colour: 'damaged', caveat: words('isDamagedSays'), sentence: [{ fault }] }
    : { ...kind, colour: 'wrong', sentence: [{ fault }, words('seatsUnread')] };
}

// A sheet that is right by its own numbers, and does not match another file. The page can't know which of the two is the true one.
function kindOfOther(faults, changes) {
  const differ = faults.filter((fault) => !isOfSetup(fault));
  const kind = { colour: 'mismatch' };
  const said = (same, other) => [...faults.slice(0, 2).map((fault) => ({ fault })), seatsIf(changes, same, other)];
  if (differ.length === faults.length) {
    const heading = words(changes === null ? 'isOtherVotes' : changes.length > 0 ? 'isOtherVotesSeats' : 'isOtherVotesSame');
    return { ...kind, heading, caveat: otherRows(differ), follows: words('followsRows'), sentence: said('sameByRows', 'otherByRows') };
  }
  const ofSetup = { ...kind, isSetup: true, heading: words('isOtherSetup'), caveat: words('setupOther') };
  if (differ.length > 0) return { ...ofSetup, follows: words('followsFiles'), sentence: said('sameByFiles', 'otherByFiles') };
  const house = faults.find(({ reason }) => reason === 'setupHouse')?.values.should;
  const follows = house ? words('followsHouse', { house }) : words('followsSetup');
  return { ...ofSetup, follows, sentence: said('sameBySetup', 'otherBySetup') };
}

// A sheet that is wrong by its own numbers.
function kindOfOwn(sheet, parts, faults, { changes, isHeld }) {
  const [fault] = faults;
  const kind = { colour: 'wrong', follows: words('follows') };
  const seats = seatsSay(changes, isHeld);
  if (changes?.length > 0) {
    const count = seatsMoved(changes);
    const heading = count > 0n ? words('isSeats', { count }) : words('isTotals');
    return { ...kind, heading, what: { word: 'whatSeats' }, sentence: [...oneMoved(changes), seats, { fault }] };
  }
  const failing = parts.find((part) => part.faults.includes(fault)).name;
  const [, key] = /^(key|divisor)/u.exec(fault.reason) ?? [];
  const what = { word: { key: 'whatKey', divisor: 'whatDivisor' }[key] ?? WHAT[failing] ?? 'whatForm' };
  const divisor = changes && what.word === 'whatDivisor' ? wrongDivisor(sheet, faults) : null;
  const sentence = [seats, divisor ?? { fault }];
  return { ...kind, heading: words(changes ? 'isWhatAlone' : 'isWhat', { what }), what, isAlone: changes !== null, sentence };
}

// The kind of a sheet that this page's own check calls wrong: its colour, a heading, perhaps a caveat that takes the heading back, and
// sentences, one of which can be a fault. `changes` are the seats that differ from those that follow; null if the latter are not known.
/** @type {(sheet: any, parts: any, faults: any, others: any) => any} */
function kindOfWrong(sheet, parts, faults, { changes, isHeld }) {
  if (!sheet) return kindUnread(faults[0]);
  const own = faults.filter((fault) => !isOfOther(fault));
  if (own.length === 0) return kindOfOther(faults, changes);
  const other = faults.find(isOfOther);
  const kind = kindOfOwn(sheet, parts, own, { changes, isHeld: isHeld && !other });
  return other ? { ...kind, sentence: [...kind.sentence, words('alsoOther'), { fault: other }] } : kind;
}
