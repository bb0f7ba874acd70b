// ---- How far the count is, before there are seats: sums of this page's own

// The returns held and due of each constituency; the votes of each group, where its lists reach the quorum so far, and whether the group
// does, there or in the canton; and all votes.
function countSoFar(setup, held) {
  const basis = basisOf(null, setup, held);
  const takes = takingPart(basis);
  const totals = basis.votes.map(sum);
  const groups = setup.groups.map(({ name }, g) => {
    const votes = basis.votes.map((row) => row[g]);
    const reachedIn = setup.constituencies.filter((_, d) => reachesQuorum(votes[d], totals[d])).map((one) => one.name);
    return { number: g + 1, name, votes: sum(votes), reachedIn, reaches: takes[g] };
  });
  return {
    house: setup.house, constituencies: setup.constituencies.map(({ name }, d) => ({ name, ...held.within[d] })), groups,
    votes: sum(totals), held,
  };
}

// A share in per cent, rounded to two decimals; a stroke where there are no votes.
function shareOf(votes, all) {
  if (all === 0n) return '–';
  const hundredths = (20000n * votes + all) / (2n * all);
  return say('share', { share: `${hundredths / 100n}.${`${hundredths % 100n}`.padStart(2, '0')}` });
}

// A bar that is full where the part is the whole. The numbers next to it say the same.
const gauge = (part, whole, look) => draw('svg', {
  viewBox: '0 0 100 8', preserveAspectRatio: 'none', class: `gauge ${look}`, 'aria-hidden': 'true' },
  draw('rect', { class: 'part', width: whole > 0 ? (100 * part) / whole : 0, height: 8 }));

function quorumCell({ reachedIn, reaches }, all) {
  if (!reaches) return make('td', { class: 'hint' }, say('notReached'));
  const how = reachedIn.length > 3 ? say('reachedMany', { count: reachedIn.length, all })
    : reachedIn.length > 0 ? pieces('reached', { names: namesShown(reachedIn) }) : say('reachedCanton');
  return make('td', {}, mark(true), ' ', how);
}

// A table of these rows below these heads, and above the last row, of the sums.
function soFarTable(id, [caption, ...heads], rows, last) {
  const sums = make('tr', {}, make('th', { scope: 'row' }, say('total')), last.map((text) => make('td', {}, text)));
  const table = tableOf({ id }, heads.map((key) => say(key)), rows, make('tfoot', {}, sums));
  table.prepend(make('caption', {}, say(caption)));
  return table;
}

function soFar({ count }) {
  if (!count) return null;
  const { held: { rows, possible, missing }, votes, groups } = count;
  const most = Number(groups.reduce((found, one) => (one.votes > found ? one.votes : found), 0n));
  const heldOf = count.constituencies.map(({ name, held, due }) => make('tr', {},
    make('th', { scope: 'row' }, narrowName(name), gauge(held, due, 'whole')), make('td', {}, say('heldOfDue', { held, due }))));
  const votesOf = groups.map((group) => make('tr', {},
    make('th', { scope: 'row' }, make('span', {}, swatch(group.number), narrowName(group.name)),
      gauge(Number(group.votes), most, lookOf(group.number))),
    make('td', {}, grouped(group.votes)), make('td', {}, shareOf(group.votes, votes)), quorumCell(group, heldOf.length)));
  return make('section', { id: 'so-far' }, make('h2', {}, say('soFar')),
    make('p', {}, make('strong', {}, `${say('returnsIn', { rows, possible })}.`), ` ${say('soFarSays')}`,
      missing.length > 0 ? ` ${say('soFarOpen')}` : ''),
    make('div', { class: 'halves' },
      soFarTable('held-so-far', ['heldByConstituency', 'constituency', 'held'], heldOf, [say('heldOfDue', { held: rows, due: possible })]),
      soFarTable('votes-so-far', ['votesByGroup', 'group', 'votesWord', 'shareWord', 'quorumSoFar'], votesOf, [grouped(votes), '', ''])),
    allMissing(missing));
}
