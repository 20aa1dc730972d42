// The panel: the chosen thing, the detector, what was printed, all counts, and the program.

let chosen = null;

const thingButton = thing => element('button', {class: 'thing', 'data-thing': thing}, sign(thing));
const valueShown = value => isThing(value) ? thingButton(value) : sign(value);
const entryButton = (entry, now) =>
  element('button', {class: entry === now ? 'at here' : 'at', 'data-entry': entry}, String(entry));

// These with commas between them, and how many more there are than the most that are shown.
function commas(items, most) {
  const shown = items.slice(0, most).map((item, n) => n ? [', ', item] : [item]);
  return items.length > most ? [shown, ` and ${items.length - most} more`] : shown;
}

const item = (name, words) =>
  words.length ? [element('dt', {}, name), element('dd', {}, words)] : [];

// The two sides of a balance as bars of one length, each part with its own pattern.
function barsOf({count, inc, held, letters, dec}) {
  const whole = Math.max(count + inc, held + letters + dec, 1), width = 300;
  const bar = (parts, y) => {
    let x = 0;
    return Object.entries(parts).map(([name, amount], n) => {
      const wide = amount / whole * width, at = x, words = `${name} ${amount}`;
      x += wide;
      return amount > 0 && [
        rect(at, y, Math.max(1.5, wide - 1), 20, ['bar', 'bar striped', 'bar dotted'][n], {rx: 2}),
        wide > 8 * words.length && text(at + 7, y + 14, words, 'mono over'),
      ];
    });
  };
  return element('svg', {class: 'bars', width: 304, height: 50, 'aria-hidden': true},
    bar({count, inc}, 1), bar({held, letters, dec}, 26));
}

function balanceOf(sums) {
  const {count, inc, held, letters, dec} = sums;
  const relation = count + inc === held + letters + dec ? '=' : '\u2260';
  const equation = `${count} + ${inc} ${relation} ${held} + ${letters} + ${dec}`;
  return [
    element('div', {class: 'mono balance'}, equation),
    element('div', {class: 'mono none'}, 'count + inc = held + letters + dec'),
    count + inc + held + letters + dec > 0 && barsOf(sums),
  ];
}

// Who holds the thing, and which letters count it: by side, the actor, and what it has or waits
// for.
function holdersOf(thing, seats) {
  const holders = {held: [], letters: [], inc: [], dec: []};
  for (const {actor, holds, letters} of seats) {
    const button = thingButton(actorNamed(actor));
    const add = (side, words) => holders[side].push([button, ' ', words]);
    for (const held of holds) if (held.thing === thing) add('held', held.amount);
    letters.forEach(({kind, name, loads, amounts}, n) => {
      if (loads.includes(thing)) add('letters', `${name} (letter ${n})`);
      for (const pair of amounts) if (pair.thing === thing) add(kind, pair.amount);
    });
  }
  const names = {held: 'held by', letters: 'loaded by', inc: 'Inc to', dec: 'Dec to'};
  return Object.entries(holders).map(([side, list]) => item(names[side], commas(list, 12)));
}

// The entries that did something to the thing, those around this one.
function storyOf(thing, now) {
  const story = stories.get(thing) || [];
  return ['made', 'sent', 'minted', 'given back', 'freed'].map(deed => {
    const told = story.filter(part => part.deed === deed).map(part => part.at);
    const all = [...new Set(told)].sort((one, other) => one - other);
    const earlier = all.filter(entry => entry < now).length, from = Math.max(0, earlier - 6);
    const shown = all.slice(from, from + 14).map(entry => [entryButton(entry, now), ' ']);
    const rest = all.length > from + 14 ? `\u2026 (${all.length})` : '';
    return item(deed, all.length ? [from ? '\u2026 ' : '', shown, rest] : []);
  });
}

function lettersShown(letters) {
  return letters.map(letter => [call(letter), letter.brings.length
    ? [' brings ', letter.brings.map(({thing}) => [thingButton(thing), ' '])] : []]);
}

// Everything in the seat of the chosen actor; `next` is the name that its next object gets.
function seatShown({actor, kind, turn, fields, objects, next, holds, knows, letters}) {
  const behaviour = turn && run.kinds[kind].behaviours[turn.behaviour];
  const registers = (turn ? turn.registers : []).map((value, n) =>
    value !== '-' && [`r${n} `, valueShown(value)]);
  const withWords = (thing, words) => [thingButton(thing), ' ', words];
  return [
    item('kind', [run.kinds[kind].name]),
    item('turn', turn ? [`${behaviour.name} at ${turn.place}: `,
      element('span', {class: 'mono'}, behaviour.body[turn.place] || 'end')] : []),
    item('fields', commas(fields.map(valueShown), 8)),
    item('registers', commas(registers.filter(one => one), 16)),
    item('objects', commas(objects.map(({thing, count}) => withWords(thing, `count ${count}`)), 12)),
    item('next', [sign(`o${actor}.${next}`)]),
    item('holds', commas(holds.map(({thing, amount}) => withWords(thing, amount)), 16)),
    item('knows', commas(knows.map(({thing, row}) => withWords(thing, row.map(sign).join(' '))), 12)),
    item('letters', commas(lettersShown(letters), 8)),
  ];
}

// Why a thing with this story is not there.
function absence(story, entry) {
  if (!story.length) return element('span', {class: 'none'}, ' is never made');
  if (story[0].at > entry) return element('span', {class: 'none'}, ' not made yet');
  return element('span', {class: 'freed'}, ' freed');
}

function drawChosen(entry, seats, sums) {
  byId('hint').textContent = chosen ? '' : 'click one, or Tab and Enter';
  if (!chosen) {
    put(byId('thing'), element('span', {class: 'none'}, 'none'));
    return;
  }
  const seat = seatAt(ownerOf(chosen), entry), story = stories.get(chosen) || [];
  const object = seat && seat.objects.find(({thing}) => thing === chosen);
  const isThere = chosen[0] === 'a' ? seat : object;
  put(byId('thing'),
    element('b', {}, named(chosen)),
    chosen[0] === 'o' && [' of ', thingButton(actorNamed(ownerOf(chosen)))],
    !isThere && absence(story, entry),
    balanceOf(sums.get(chosen) || NO_SUMS),
    element('dl', {}, holdersOf(chosen, seats), storyOf(chosen, entry)),
    isThere && element('dl', {class: 'seat'},
      object ? item('row', commas(object.row.map(valueShown), 8)) : seatShown(seat)));
}

const line = (look, ...words) => element('li', {class: look}, ...words);
function linesUpTo(lines, most) {
  if (lines.length <= most) return lines;
  return [...lines.slice(0, most), line('none', `and ${lines.length - most} more`)];
}

// The notes that wait, and before them the one that was heard.
function notesShown(entry, before, now) {
  const heard = run.notes.slice(before.heard, now.heard).map(note =>
    line('ghost', `${noteInWords(note)}, heard`));
  const waiting = run.notes.slice(now.heard, now.posted).map((note, n) =>
    line(entry && now.heard + n >= before.posted ? 'new' : '', `${noteInWords(note)} waits`));
  return linesUpTo([...heard, ...waiting], 8);
}

function reportsShown(entry) {
  const reports = reportsAt(entry), kept = new Set(reports.map(({actor}) => actor));
  const withdrawn = entry ? reportsAt(entry - 1).filter(({actor}) => !kept.has(actor)) : [];
  const lines = reports.map(({actor, at, count, held}) => {
    const holds = held.length ? `, holds ${amountsInWords(held)}` : '';
    return line(at === entry ? 'new' : '',
      'report ', thingButton(actorNamed(actor)), ` count ${count}${holds}`);
  });
  const ghosts = withdrawn.map(({actor}) => line('ghost', `report of actor ${actor}`));
  return [linesUpTo(lines, 10), linesUpTo(ghosts, 6)];
}

function tokensShown(before, now) {
  const hasToken = (detector, {number}) => detector.tokens.some(token => token.number === number);
  const open = now.tokens.map(token => {
    const {number, members} = token, acked = members.filter(member => member.acked).length;
    const asked = members.map(member =>
      [thingButton(actorNamed(member.actor)), member.acked && ' \u2713']);
    return line(hasToken(before, token) ? '' : 'new',
      `token ${number}, ${acked} of ${members.length} acknowledged (\u2713): `, commas(asked, 24));
  });
  const closed = before.tokens.filter(token => !hasToken(now, token));
  return [open, closed.map(({number}) => line('ghost', `token ${number}`))];
}

function drawDetector(entry) {
  const before = detectorAt(entry - 1), now = detectorAt(entry);
  const lines = listOf([
    notesShown(entry, before, now), reportsShown(entry), tokensShown(before, now),
  ]);
  put(byId('detector'),
    element('ul', {}, lines.length ? lines : line('none', 'no note, no report, no token')),
    now.news && element('div', {}, 'news: a scan is due'),
    now.opened > 0 && element('div', {class: 'none'}, `${counted(now.opened, 'token')} opened so far`));
}

function drawPrints(entry) {
  const printed = run.prints.filter(print => print.at <= entry), shown = printed.slice(-LIMITS.prints);
  const isCut = printed.length > shown.length;
  byId('printed').textContent =
    isCut ? `the last ${shown.length} of ${printed.length}` : printed.length || '';
  put(byId('prints'), shown.length
    ? shown.map(({at, value}) => element('div', {class: at === entry ? 'new' : ''}, named(value)))
    : element('span', {class: 'none'}, 'nothing yet'));
  byId('prints').scrollTop = byId('prints').scrollHeight;
}

function drawTotals(entry, seats) {
  const {heard, posted, kept, tokens} = detectorAt(entry);
  const total = part => seats.reduce((sum, seat) => sum + seat[part].length, 0);
  const totals = {actors: seats.length, objects: total('objects'), letters: total('letters'),
    notes: posted - heard, reports: kept, tokens: tokens.length};
  put(byId('totals'), Object.entries(totals).map(([name, number]) =>
    element('span', {}, `${name} `, element('b', {}, String(number)))));
}

// The five sums of each thing that is there, in the order of things.
function drawCounts(seats, sums) {
  if (!byId('counts').open) return;
  const there = seats.flatMap(({actor, objects}) =>
    [actorNamed(actor), ...objects.map(({thing}) => thing)]);
  putEach(byId('counts').querySelector('tbody'), 'tr', there.map(thing => {
    const {count, inc, dec, held, letters} = sums.get(thing);
    return [named(thing), count, inc, dec, held, letters].map(cell => element('td', {}, String(cell)));
  }));
}

// The program, and where each turn stands in it.
function drawProgram(seats) {
  if (!byId('program').open) return;
  const turns = new Map();
  for (const {actor, kind, turn} of seats) {
    if (!turn) continue;
    const number = run.kinds[kind].behaviours[turn.behaviour].line + turn.place;
    turns.set(number, `${turns.get(number) || ''} ${sign(actorNamed(actor))}`);
  }
  put(byId('program').querySelector('pre'), run.program.map((words, number) =>
    turns.has(number) ? element('b', {}, `\u25B8 ${words}  ${turns.get(number)}\n`) : `  ${words}\n`));
}
