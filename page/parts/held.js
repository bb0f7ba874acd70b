// ---- Reading the rows held (FORMATS, "CSV")

// Numbers have 32 bits.
const isNumeral = (text) => /^(?:0|[1-9][0-9]{0,9})$/u.test(text) && Number(text) <= 4294967295;
const isRow = (fields) => fields.length === 4 && fields.slice(0, 3).every(isNumeral) && fields[2] !== '0'
  && (isNumeral(fields[3]) || fields[3] === 'withdrawn');

// The rows held: the votes of each list (`d g`), how many rows there are and can be, also within each constituency, and by municipality
// the lists that are missing.
function readHeld(text, setup) {
  const votes = new Map();
  const seen = new Set();
  for (const [i, line] of linesOf(text).entries()) {
    const fault = (reason) => new Fault(i + 1, line, reason);
    if (i === 0 && line !== 'municipality,list,number,votes') throw fault('csvHead');
    if (i === 0 || line === '') continue;
    const fields = line.split(',');
    if (!isRow(fields)) throw fault('csvRow');
    const [municipality, list, , count] = fields;
    const constituency = setup.municipalities[Number(municipality) - 1]?.constituency;
    if (!constituency) throw fault('noMunicipality');
    if (!setup.groups[Number(list) - 1]?.stands.has(constituency)) throw fault('noListThere');
    const entry = count === 'withdrawn' ? 0n : BigInt(count);
    if (entry > 1000000000n) throw fault('manyVotes');
    if (seen.has(`${municipality} ${list}`)) throw fault('rowTwice');
    seen.add(`${municipality} ${list}`);
    const place = `${constituency} ${list}`;
    votes.set(place, (votes.get(place) ?? 0n) + entry);
  }
  const dueOf = (d, m) => setup.groups.flatMap(({ name, stands }, g) => (stands.has(d) ? [{ name, row: `${m + 1} ${g + 1}` }] : []));
  const all = setup.municipalities.map(({ name, constituency }, m) => ({ name, constituency, due: dueOf(constituency, m) }));
  const missing = all.map(({ name, due }) => {
    const lists = due.filter(({ row }) => !seen.has(row)).map((list) => list.name);
    return { name, lists, isAll: lists.length === due.length };
  }).filter(({ lists }) => lists.length > 0);
  const within = setup.constituencies.map((_, d) => {
    const due = all.filter(({ constituency }) => constituency === d + 1).flatMap((one) => one.due);
    return { held: due.filter(({ row }) => seen.has(row)).length, due: due.length };
  });
  return { votes, rows: seen.size, possible: all.flatMap(({ due }) => due).length, missing, within };
}
