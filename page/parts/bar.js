// ---- The bar: its colour, heading and sentences, and three ticks, by what the checks found. Pure functions, which look at nothing else.

const words = (key, values = {}) => ({ key, values });
const hasVerdict = ({ state }) => state === 'right' || state === 'wrong';
const tick = (state, key, values, ...sentence) => ({ state, heading: words(key, values), sentence });

function setupTick({ own, setup: { is, line } }) {
  if (is === 'read') return own.kind?.isSetup ? tick('mismatch', 'tickSetupOther') : tick('right', 'tickSetup');
  if (is === 'none') return tick('unsure', 'tickNoSetup', {}, words('barNoSetup'));
  return tick('unsure', 'tickSetupUnread', { line }, words('barSetupUnread'));
}

// Rows are compared only where their set-up is read.
function rowsTick({ own, rows, returns }) {
  if (rows.is === 'none') return tick('unsure', 'tickNoRows', {}, words('barNoRows'));
  if (rows.is === 'unread') return tick('unsure', 'tickRowsUnread', { line: rows.line }, words('barRowsUnread'));
  if (rows.is === 'given') return tick('unsure', 'tickRowsAlone', {}, words('barRowsAlone'));
  if (own.votesDiffer) return tick(own.kind.colour, 'tickRowsOther', returns, words('rowIs'));
  const missing = returns.possible - returns.rows;
  return missing > 0 ? tick('unsure', 'tickRowsSome', returns, words('rowIs')) : tick('right', 'tickRows', returns, words('rowIs'));
}

// Which checks the two are, and what they found.
function whatBoth({ kind }) {
  if (kind?.colour === 'mismatch') return words('bothMismatch');
  return kind?.what ? words(kind.isAlone ? 'bothWrongAlone' : 'bothWrong', { what: kind.what }) : words('bothAre');
}

function checksTick({ own, proved, setup, rows, returns }) {
  const right = rows.is === 'compared' && returns.rows < returns.possible ? 'saysRightSoFar' : 'saysRight';
  const wrong = own.kind?.colour === 'mismatch' ? 'saysMismatch' : 'saysWrong';
  const said = { said: { word: own.verdict === 'wrong' ? wrong : right } };
  const agree = proved.state === own.verdict;
  const unless = own.verdict === 'wrong' ? own.kind.colour : 'unsure';
  if (hasVerdict(proved)) return agree ? tick(own.kind?.colour ?? 'right', 'tickBoth', said, whatBoth(own)) : tick('wrong', 'barDiffer');
  if (proved.state === 'runs') return tick(unless, 'barRunning', {}, words('barOwnSays', said));
  const isAlone = proved.state === 'alone' && setup.is === 'none';
  const why = proved.state === 'absent' ? words('barAbsent') : isAlone ? words('barAlone') : words('barNotRun', { why: proved.why });
  return tick(unless, 'tickOne', said, why);
}

// What the bar says of a sheet that is right by this page's own check, and not checked in full: a heading, and what limits it.
function unsureSays({ setup, rows, returns, proved }) {
  const sentence = [words('barUnsureSays')];
  if (setup.is !== 'read' || rows.is !== 'compared') {
    const open = setup.is === 'none' ? (rows.is === 'none' ? 'barOpenBoth' : 'barOpenSetup') : rows.is === 'none' && 'barOpenRows';
    return { heading: words(setup.is === 'read' ? 'barTheseVotes' : 'barOwnVotes'), caveat: open && words(open), sentence };
  }
  const missing = returns.possible - returns.rows;
  if (missing === 0) return { heading: words(proved.state === 'runs' ? 'barRunning' : 'barOneCheck'), sentence };
  return {
    heading: words('barMissing', { ...returns, missing }), caveat: words('barMissingSays'),
    sentence: [words('barMissingAre', { missingRows: { rows: returns.missing } }), ...sentence],
  };
}

// The two checks have different verdicts.
function differing(own, { setup, rows }) {
  if (own.verdict === 'wrong') return { heading: words('barDiffer'), sentence: [words('barDifferWrong', { line: own.fault.line })] };
  const lookedAtAll = setup.is === 'read' && (rows.is === 'compared' || rows.is === 'none');
  return lookedAtAll
    ? { heading: words('barDiffer'), sentence: [words('barDifferRight')] }
    : { heading: words('barProvedWrong'), sentence: [words('barProvedWrongSays')] };
}

// The bar by all that was found:
// - own, by this page's own check: { verdict: 'none' (no sheet), 'right', 'refused' with the `refusal` in place of a sheet, or 'wrong' with
//   its `kind` (kindOfWrong), the first `fault` (of line 0: of the whole file), the `count` of those that fail, and whether its
//   `votesDiffer` from the rows held }
// - proved, by the proved check: { state: 'right', 'wrong', 'runs', 'none' (no sheet), 'alone' (no set-up), 'absent' (this copy of the page
//   has none), or any other: it did not run, and `why` }
// - setup: { is: 'none', 'read', or 'unread' at a `line` }
// - rows: { is: 'none', 'compared', 'unread' at a `line`, or 'given' without a set-up that is read, so that they are not compared }
// - returns: where rows are compared, { rows } held of { possible } ones, and the names of those that are { missing }
// It has a colour ('none', 'right', 'wrong', 'mismatch' of two files, 'damaged', 'unsure', or 'answer' of the office), and keys of WORDS
// with their values: of the heading, if there is one, of the caveat that limits it, of each sentence, and of each tick.
function barOf(found) {
  const { own, proved } = found;
  if (own.verdict === 'none') {
    return { colour: 'none', heading: found.returns && words('returnsIn', found.returns), sentence: [], ticks: [] };
  }
  if (own.verdict === 'refused') {
    const sentence = [words(own.refusal.reason, own.refusal.values), words('barRefusedSays'),
      ...(found.returns ? [] : [words('barRefusedMore')])];
    return { colour: 'answer', heading: words('barRefused'), sentence, ticks: [] };
  }
  const ticks = own.kind?.isUnread ? [] : [setupTick(found), rowsTick(found), checksTick(found)];
  if (hasVerdict(proved) && proved.state !== own.verdict) return { colour: 'wrong', ...differing(own, found), ticks };
  if (own.verdict === 'wrong') {
    const named = own.kind.sentence.filter(({ fault }) => fault).length;
    const more = own.count > Math.max(1, named) ? [words('barFails', { count: own.count })] : [];
    const { colour, heading, caveat, sentence } = own.kind;
    return { colour, heading, caveat, sentence: [...sentence, ...more], ticks };
  }
  return ticks.every(({ state }) => state === 'right')
    ? { colour: 'right', heading: words('barRight'), sentence: [words('barRightSays', found.returns)], ticks }
    : { colour: 'unsure', ...unsureSays(found), ticks };
}
