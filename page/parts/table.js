// ---- The table of constituencies and groups

// A cell's mark and its panel say the same: whether there are faults on its line.
function cellButton(content, faults, label, details) {
  const holds = faults.length === 0;
  return button([content, holds ? null : mark(false)], (event) => showDetail(details(faults), event.currentTarget), {
    tabindex: -1, class: holds ? 'cell' : 'cell bad', 'aria-label': `${label}, ${say(holds ? 'ok' : 'wrong')}` });
}

function seatsTable({ sheet, own: { follow }, faultsAt }) {
  const of = ({ line }) => faultsAt.get(line) ?? [];
  const crowded = sheet.groups.length > 12;
  const more = { keys: { seats: of(sheet.seatsKey).length > 0, upper: of(sheet.upperKey).length > 0 }, follow };
  const groupHead = (group) => cellButton([swatch(group.number), narrowName(group.name)],
    of(group), `${say('group')} ${isolatedText(group.name)}`, (faults) => groupDetail(sheet, group, faults, more));
  const head = make('tr', {}, make('th', { scope: 'col', class: 'corner' }, say('constituency')),
    sheet.groups.map((group) => make('th', { scope: 'col', class: crowded ? 'narrow' : null }, groupHead(group))),
    make('th', { scope: 'col', class: 'sum' }, say('total')));
  const body = sheet.constituencies.map((constituency) => make('tr', {},
    make('th', { scope: 'row' }, cellButton(narrowName(constituency.name), of(constituency),
      `${say('constituency')} ${isolatedText(constituency.name)}`, (faults) => constituencyDetail(sheet, constituency, faults, more))),
    sheet.groups.map((group) => listCell(sheet, [constituency, group], of, follow)),
    make('td', { class: 'sum' }, `${constituency.seats}`)));
  const foot = make('tr', {}, make('th', { scope: 'row', class: 'sum' }, say('total')),
    sheet.groups.map((group) => make('td', { class: 'sum' }, `${group.seats}`)),
    make('td', { class: of(sheet.house).length > 0 ? 'sum bad' : 'sum' }, `${sheet.house.seats}`,
      of(sheet.house).length > 0 ? mark(false) : null));
  const table = make('table', {
    id: 'seats', class: crowded ? 'crowded' : null, 'aria-labelledby': 'seats-title', 'aria-describedby': 'seats-hint' },
    make('thead', {}, head), make('tbody', {}, body), make('tfoot', {}, foot));
  arrows(table);
  return make('section', { id: 'table' }, make('h2', { id: 'seats-title' }, say('seatsTable')),
    make('p', { id: 'seats-hint', class: 'screen hint' }, say('tableHint')),
    make('p', { id: 'scrolls', class: 'screen', hidden: true }, say('scrolls')), make('div', { class: 'scroll', id: 'seats-part' }, table));
}

// Says that the table goes on where it does.
function hintAtScrolling() {
  const part = find('seats-part');
  if (part) find('scrolls').hidden = part.scrollWidth <= part.clientWidth + 1 && part.scrollHeight <= part.clientHeight + 1;
}

function listCell(sheet, [constituency, group], of, follow) {
  const list = sheet.at.get(`${constituency.number} ${group.number}`);
  if (!list) return make('td', { class: 'empty' }, make('span', { 'aria-label': say('noList'), role: 'img' }, '·'));
  const label = say('cellName', {
    constituency: isolatedText(constituency.name), group: isolatedText(group.name), seats: list.seats });
  return make('td', { class: list.seats === 0n ? 'zero' : null },
    cellButton(`${list.seats}`, of(list), label, (faults) => listDetail(sheet, [constituency, group, list], faults, follow)));
}

// One of the table's buttons can be reached with the tabulator, and the others from there with the arrows.
function arrows(table) {
  const grid = [...table.rows].map((row) => [...row.cells].map((cell) => cell.querySelector('button')));
  (grid[1][1] ?? grid[1][0]).tabIndex = 0;
  const go = (button) => {
    table.querySelectorAll('button[tabindex="0"]').forEach((other) => { other.tabIndex = -1; });
    button.tabIndex = 0;
    button.focus();
  };
  table.addEventListener('click', ({ target }) => { if (target.closest('button')) go(target.closest('button')); });
  table.addEventListener('keydown', (event) => {
    const button = event.target.closest('button');
    if (!button) return;
    const row = grid.find((cells) => cells.includes(button));
    const [column, above] = [row.indexOf(button), grid.indexOf(row)];
    const inColumn = grid.map((cells) => cells[column]);
    const to = {
      ArrowRight: row.slice(column + 1), ArrowLeft: row.slice(0, column).reverse(), Home: row, End: [...row].reverse(),
      ArrowDown: inColumn.slice(above + 1), ArrowUp: inColumn.slice(0, above).reverse(),
    }[event.key]?.find(Boolean);
    if (!to) return;
    event.preventDefault();
    go(to);
  });
}
