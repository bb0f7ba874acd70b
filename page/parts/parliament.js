// ---- The parliament. Eight colours that the colour-blind can tell apart, in four shapes; each seat has its group's number.

const COLOURS = 8;

// A seat has a thin edge, so that light colours can be seen; every second shape is a ring, with an edge on either side.
function seatShape(number, x, y, radius) {
  const index = number - 1;
  const look = lookOf(number);
  const shape = (r, name) => {
    const all = { class: `${name} ${look}`, 'stroke-width': radius * 0.1 };
    const side = r * 1.84;
    return index >= 2 * COLOURS
      ? draw('rect', { x: x - side / 2, y: y - side / 2, width: side, height: side, rx: r * 0.2, ...all })
      : draw('circle', { cx: x, cy: y, r, ...all });
  };
  const isRing = Math.floor(index / COLOURS) % 2 === 1;
  const size = radius * (number > 9 ? 0.95 : 1.15);
  return [shape(radius * 0.95, 'seat'), isRing ? shape(radius * 0.68, 'hole') : null,
    draw('text', { x, y: y + size * 0.36, 'font-size': size, class: `number ${look}` }, `${number}`)];
}

// A seat that the group would not have: a cross over it where that is sure, else one stroke.
function disputed(x, y, r, isSure) {
  const stroke = `M${x - r} ${y + r} L${x + r} ${y - r}`;
  const other = isSure ? ` M${x - r} ${y - r} L${x + r} ${y + r}` : '';
  return draw('path', { d: stroke + other, class: 'disputed', 'stroke-width': r * 0.25 });
}

// The places of this many seats in a half circle of radius 1 about (0, 0), from left to right, and the radius of a seat.
function places(count) {
  let rows = 1;
  while (3.5 * rows * (rows - 1) < count && rows * 4 < count + 4) rows += 1;
  const inner = rows === 1 ? 1 : 0.4;
  const radii = Array.from({ length: rows }, (_, i) => (rows === 1 ? 1 : inner + ((1 - inner) * i) / (rows - 1)));
  const length = radii.reduce((all, radius) => all + radius, 0);
  const shares = radii.map((radius) => (count * radius) / length);
  const counts = shares.map(Math.floor);
  const order = shares.map((share, i) => [share - counts[i], i]).sort((a, b) => b[0] - a[0]);
  const left = count - counts.reduce((all, one) => all + one, 0);
  order.slice(0, left).forEach(([, i]) => { counts[i] += 1; });
  let seat = rows === 1 ? 0.25 : ((1 - inner) / (rows - 1)) * 0.46;
  const found = [];
  radii.forEach((radius, i) => {
    const n = counts[i];
    if (n > 1) seat = Math.min(seat, ((Math.PI * radius) / (n - 1)) * 0.46);
    for (let k = 0; k < n; k += 1) {
      const angle = n === 1 ? Math.PI / 2 : Math.PI * (1 - k / (n - 1));
      found.push({ angle, x: Math.cos(angle) * radius, y: -Math.sin(angle) * radius });
    }
  });
  found.sort((a, b) => b.angle - a.angle || b.y - a.y);
  return { found, seat };
}

// If a sheet is wrong, the seats that follow are named where they differ.
function parliament({ sheet, own }) {
  const follow = own.follow?.groups;
  const rightly = (group) => follow?.[group.number - 1] ?? (follow ? 0n : group.seats);
  const total = Number(sum(sheet.groups.map(({ seats }) => seats)));
  const { found, seat } = places(total);
  const scale = 100;
  const edge = seat * scale + 1;
  const blocks = sheet.groups.map((group) => draw('g', {}, draw('title', {}, `${group.number} ${isolatedText(group.name)}: ${group.seats}`),
    found.splice(0, Number(group.seats)).map(({ x, y }, i) => [
      seatShape(group.number, x * scale, y * scale, seat * scale),
      i >= rightly(group) && disputed(x * scale, y * scale, seat * scale, !own.follow.isOther)])));
  const arc = draw('svg', {
    viewBox: `${-scale - edge} ${-scale - edge} ${2 * (scale + edge)} ${scale + 2 * edge}`,
    role: 'img', 'aria-label': `${say('parliament')}: ${say('parliamentSays', { total })}`, class: 'arc',
  }, blocks, draw('text', { x: 0, y: -2, class: 'middle', 'font-size': 22 }, `${total}`));
  const rows = sheet.groups.map((group) => make('li', { class: group.seats === 0n ? 'none' : null },
    swatch(group.number), narrowName(group.name), make('span', { class: 'count' }, `${group.seats}`),
    rightly(group) !== group.seats ? make('span', { class: `said ${own.kind.colour}` },
      say(own.follow.says.key, { ...own.follow.says.values, should: rightly(group) })) : null));
  return make('section', { id: 'parliament' },
    make('h2', { id: 'parliament-title' }),
    make('div', { class: 'halves' }, arc, make('ol', { class: own.follow?.differs ? 'legend other' : 'legend' }, rows)));
}

// The heading of the picture: what the sheet calls itself, and what is against it.
function parliamentHeading({ sheet, own, rows, returns }, colour) {
  if (colour === 'right') return say('parliamentCalled', { kind: say(sheet.kind) });
  if (colour === 'mismatch') return say('asItSaysMismatch');
  if (own.follow?.differs) return say('asItSaysWrong');
  if (colour === 'wrong') return say('asItSays');
  return rows.is === 'compared' && returns.rows < returns.possible ? say('parliamentSoFar', returns) : say('asItSaysUnsure');
}

const swatch = (number) => draw('svg', { viewBox: '-11 -11 22 22', class: 'swatch', 'aria-hidden': 'true' },
  seatShape(number, 0, 0, 10));
