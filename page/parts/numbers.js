// ---- The arithmetic of the statute (STATUTE and CHECKING), in whole numbers of any size

// The ends of the interval that rounds to these seats, in halves of `unit`: see `rounds`.
/** @type {(unit: bigint, seats: bigint) => bigint} */
const lowEnd = (unit, seats) => (2n * seats - 1n) * unit;
/** @type {(unit: bigint, seats: bigint) => bigint} */
const highEnd = (unit, seats) => (2n * seats + 1n) * unit;

// Half of `twice` over `unit` rounds to these seats, and does not lie on a half.
function rounds(twice, unit, seats) {
  return lowEnd(unit, seats) < twice && twice < highEnd(unit, seats);
}

const sum = (numbers) => numbers.reduce((all, number) => all + number, 0n);

// The key that the office prints for these weights and seats: the first weight whose last seat is worth least, and the
// first whose next seat is worth most, over their seats. Null where no weight has a seat.
function keyOf(weights, seats) {
  let last = -1;
  let next = 0;
  weights.forEach((weight, i) => {
    const worthLess = (j) => weight * (2n * seats[j] - 1n) < weights[j] * (2n * seats[i] - 1n);
    if (seats[i] > 0n && (last < 0 || worthLess(last))) last = i;
    if (weight * (2n * seats[next] + 1n) > weights[next] * (2n * seats[i] + 1n)) next = i;
  });
  return last < 0 ? null : { a: weights[last] + weights[next], b: seats[last] + seats[next] };
}

// Votes over seats, rounded to the nearest, a half up.
const voterNumber = (votes, seats) => (2n * votes + seats) / (2n * seats);

// The votes of a list are at least 5 per cent of those of its constituency, and not 0.
const reachesQuorum = (votes, all) => votes > 0n && 100n * votes >= 5n * all;

// The votes of a group are at least this many per mille of those of the canton, and not 0.
const reachesCanton = (votes, all, perMille) => votes > 0n && 1000n * votes >= perMille * all;

// ---- Numbers as text

// A number of these parts, for example of millionths with six places, without zeros at the end.
function exact(number, places) {
  const digits = `${number}`.padStart(places + 1, '0');
  const fraction = digits.slice(-places).replace(/0+$/u, '');
  return digits.slice(0, -places) + (fraction && `.${fraction}`);
}

// A number over another, cut off after three digits; `..` says that it goes on.
/** @type {(number: bigint, over: bigint) => string} */
function cutOff(number, over) {
  const thousandths = (1000n * number) / over;
  if (thousandths * over === 1000n * number) return exact(thousandths, 3);
  return `${thousandths / 1000n}.${`${thousandths % 1000n}`.padStart(3, '0')}..`;
}

// A quotient as text, what it rounds to, and whether it lies on a half.
function quotient(number, over) {
  if (over === 0n) return { quotient: '-', rounded: '-', half: false };
  const half = (2n * number) % over === 0n && ((2n * number) / over) % 2n === 1n;
  return { quotient: cutOff(number, over), rounded: `${(2n * number + over) / (2n * over)}`, half };
}
