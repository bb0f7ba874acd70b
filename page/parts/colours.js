// ---- Colours that a reader chose for groups, by the groups' numbers. The address keeps them: #1=e30613&2=f29400

// Rules for the groups with a colour of their own come after those of the style, so they are the ones that hold.
const [pageStyle] = document.styleSheets;
const ownRules = pageStyle.cssRules.length;
let chosenColours = new Map();

// Black or white, whichever is easier to read on this colour.
function onColour(colour) {
  const [red, green, blue] = colour.match(/../gu).map((part) => (parseInt(part, 16) / 255) ** 2.2);
  return 0.2126 * red + 0.7152 * green + 0.0722 * blue > 0.18 ? '#000' : '#fff';
}

// Takes these colours. The edge is one that stands out from any ground, as a colour that was chosen might not.
function haveColours(colours) {
  chosenColours = new Map(colours);
  while (pageStyle.cssRules.length > ownRules) pageStyle.deleteRule(ownRules);
  for (const [number, colour] of chosenColours) {
    pageStyle.insertRule(`.group${number} { --colour: #${colour}; --on: ${onColour(colour)}; --edge: var(--soft); }`, ownRules);
  }
}

// Takes those of the address. A pair that is not the number of a group and a colour counts for nothing.
function readColours() {
  const pairs = [...new URLSearchParams(location.hash.slice(1).toLowerCase())];
  haveColours(pairs.filter(([number, colour]) => /^(?:[1-9]|[12]\d|3[0-2])$/u.test(number) && /^[0-9a-f]{6}$/u.test(colour)));
}

function keepColours(colours) {
  haveColours(colours);
  history.replaceState(null, '', `#${new URLSearchParams(colours)}`);
  showColours();
}

// The classes of a group: by them it has its colour, and its shape where more than eight have one.
const lookOf = (number) => (
  `colour${(number - 1) % COLOURS} look${Math.floor((number - 1) / COLOURS)} group${number}`);

// The inputs have the colours that their groups have.
function showColours() {
  for (const input of /** @type {NodeListOf<HTMLInputElement>} */ (document.querySelectorAll('#colours input'))) {
    input.value = getComputedStyle(input).getPropertyValue('--colour').trim();
  }
}

// A colour for each group, to be chosen. The part stays open when all is made anew.
function colourTable(groups) {
  const choose = (number) => ({ target }) => keepColours([...new Map(chosenColours).set(`${number}`, target.value.slice(1))]);
  const row = ({ name }, i) => {
    const input = make('input', { type: 'color', class: lookOf(i + 1), 'aria-label': say('colourOf', { group: isolatedText(name) }) });
    input.addEventListener('change', choose(i + 1));
    return make('tr', {}, make('th', { scope: 'row' }, swatch(i + 1), narrowName(name)), make('td', {}, input));
  };
  return make('details', { id: 'colours', class: 'screen', open: find('colours')?.hasAttribute('open') ?? false },
    make('summary', {}, say('colours')), make('p', { class: 'hint' }, say('coloursHint')),
    tableOf({}, [say('group'), say('colour')], groups.map(row)),
    button(say('coloursBack'), () => keepColours([])));
}
