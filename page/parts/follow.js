// ---- The seats that follow from votes, by the rules alone: neither the keys nor the divisors of a sheet are used

// The divisors of all rows and columns are looked for this many times: right sheets take about twenty. If none are found then, the page
// says that it does not know the seats.
const TURNS = 120;
const FINE = 2 ** 40;

// Seats of weights by one divisor: each seat to the weight whose next is worth most. Null at a tie, and without weights.
function apportioned(weights, total) {
  const seats = weights.map(() => 0n);
  for (let left = total; left > 0n && weights.length > 0; left -= 1n) {
    let best = 0;
    weights.forEach((weight, i) => {
      if (weight * (2n * seats[best] + 1n) > weights[best] * (2n * seats[i] + 1n)) best = i;
    });
    seats[best] += 1n;
  }
  const key = keyOf(weights, seats);
  return key && key.a > 0n && weights.every((weight, i) => rounds(2n * weight * key.b, key.a, seats[i])) ? seats : null;
}

// A divisor by which these amounts round to seats of this total, midway between the ends where other seats would follow; null if there is
// none. It is looked for from a number near it.
function fitting(amounts, total, near) {
  const seats = amounts.map((amount) => Math.round(amount / near));
  const nextWorth = (i) => amounts[i] / (seats[i] + 0.5);
  const lastWorth = (i) => (seats[i] > 0 ? amounts[i] / (seats[i] - 0.5) : Infinity);
  const best = (worth, sign) => amounts.reduce((found, _, i) => (sign * worth(i) > sign * worth(found) ? i : found), 0);
  for (let left = total - seats.reduce((all, one) => all + one, 0); left !== 0; left -= Math.sign(left)) {
    const at = left > 0 ? best(nextWorth, 1) : best(lastWorth, -1);
    if (left > 0 && !(amounts[at] > 0)) return null;
    seats[at] += Math.sign(left);
  }
  const [low, high] = [nextWorth(best(nextWorth, 1)), lastWorth(best(lastWorth, -1))];
  return high === Infinity ? 2 * low || 1 : (low + high) / 2;
}

// The seats that these divisors give, exactly; null where a quotient lies on a half, or the seats do not have these totals.
function seatsBy(votes, [x, y], rows, columns) {
  const fine = (number) => BigInt(Math.round(number * FINE));
  const scale = BigInt(FINE) ** 2n;
  const seats = votes.map((row, d) => row.map((vote, g) => {
    const unit = fine(x[d]) * fine(y[g]);
    const found = unit > 0n ? (2n * vote * scale + unit) / (2n * unit) : 0n;
    return unit > 0n && rounds(2n * vote * scale, unit, found) ? found : null;
  }));
  return seats.every((row, d) => !row.includes(null) && sum(row) === rows[d])
    && columns.every((total, g) => sum(seats.map((row) => row[g])) === total) ? seats : null;
}

// The seats of lists with these totals. Divisors of rows and of columns are fitted by turns. That those found are right is looked at
// exactly, and then no other seats are.
function apportionedTwice(votes, rows, columns) {
  const amounts = votes.map((row) => row.map(Number));
  const start = (totals, of) => totals.map((total, i) => of(i).reduce((all, one) => all + one, 0) / Math.max(1, Number(total)) || 1);
  const x = start(rows, (d) => amounts[d]);
  const y = columns.map(() => 1);
  for (let turn = 0; turn < TURNS; turn += 1) {
    rows.forEach((total, d) => { x[d] = x[d] && fitting(amounts[d].map((one, g) => one / y[g]), Number(total), x[d]); });
    if (x.includes(null)) return null;
    columns.forEach((total, g) => { y[g] = y[g] && fitting(amounts.map((row, d) => row[g] / x[d]), Number(total), y[g]); });
    if (y.includes(null)) return null;
    const seats = seatsBy(votes, [x, y], rows, columns);
    if (seats) return seats;
  }
  return null;
}

// The numbers that the seats follow from: those of the set-up and the rows held as far as they were read, or else those of the sheet. Null
// if the votes of a list are not known.
function basisOf(sheet, setup, held) {
  const from = setup ?? sheet;
  const standsIn = (d, g) => (setup ? setup.groups[g].stands.has(d + 1) : sheet.at.has(`${d + 1} ${g + 1}`));
  const votesOf = (place) => (held ? held.votes.get(place) ?? 0n : sheet.at.get(place)?.votes ?? null);
  const votes = from.constituencies.map((_, d) => from.groups.map((__, g) => (standsIn(d, g) ? votesOf(`${d + 1} ${g + 1}`) : 0n)));
  const house = setup ? setup.house : sheet.house.seats;
  const quorum = setup ? setup.quorum : sheet.quorum?.perMille ?? null;
  const isKnown = house <= 400n && !votes.flat().includes(null);
  return isKnown ? { house, quorum, persons: from.constituencies.map(({ persons }) => persons), votes } : null;
}

// For each group, whether it takes part: by its list in a constituency, or by the canton-wide quorum.
function takingPart({ votes, quorum }) {
  const totals = votes.map(sum);
  return votes[0].map((_, g) => {
    const own = votes.map((row) => row[g]);
    return own.some((vote, d) => reachesQuorum(vote, totals[d]))
      || (quorum !== null && reachesCanton(sum(own), sum(totals), quorum));
  });
}

// The seats that follow: of each constituency, of each group, and of each list (`d g`). Null if this finds none.
function seatsThatFollow(sheet, setup, held) {
  const basis = basisOf(sheet, setup, held);
  const rows = basis && apportioned(basis.persons, basis.house);
  if (!rows || rows.includes(0n)) return null;
  const { votes, house } = basis;
  const columnOf = (g) => votes.map((row) => row[g]);
  const voters = takingPart(basis).map((is, g) => (is ? sum(columnOf(g).map((vote, d) => voterNumber(vote, rows[d]))) : 0n));
  const columns = apportioned(voters, house);
  const seated = columns ? columns.flatMap((seats, g) => (seats > 0n ? [g] : [])) : [];
  const found = columns && apportionedTwice(votes.map((row) => seated.map((g) => row[g])), rows, seated.map((g) => columns[g]));
  if (!found) return null;
  const lists = new Map(votes.flatMap((row, d) => row.map((_, g) => [`${d + 1} ${g + 1}`, found[d][seated.indexOf(g)] ?? 0n])));
  return { constituencies: rows, groups: columns, lists };
}

// The seats of the sheet that differ from those: the names (of a constituency and a group, or of one of them for its total), the seats on
// the sheet and those that follow.
function otherSeats(sheet, follow) {
  const found = [];
  const compare = (names, is = 0n, should = 0n) => { if (is !== should) found.push({ names, is, should }); };
  const nameOf = (rows, i) => rows[i]?.name ?? `${i + 1}`;
  for (const rows of ['groups', 'constituencies']) {
    const most = Math.max(sheet[rows].length, follow[rows].length);
    for (let i = 0; i < most; i += 1) compare([nameOf(sheet[rows], i)], sheet[rows][i]?.seats, follow[rows][i]);
  }
  for (const place of new Set([...sheet.at.keys(), ...follow.lists.keys()])) {
    const [d, g] = place.split(' ').map(Number);
    compare([nameOf(sheet.constituencies, d - 1), nameOf(sheet.groups, g - 1)], sheet.at.get(place)?.seats, follow.lists.get(place));
  }
  return found;
}
