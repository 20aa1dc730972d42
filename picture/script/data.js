// The data, read once. What changes with the entries is kept as histories: lists of what was so,
// each with the entry `at` which it became so. Entry 0 is the start.

// The most of each that the page shows. Up to so many boxes are full; a full one has so many
// objects, holds and letters, which keep one of so many places.
const LIMITS = {
  entries: 20000, lanes: 96, boxes: 64, fullBoxes: 8, places: 64, objects: 8, holds: 12, letters: 6,
  prints: 40,
};

const emptySeat = (at, actor) => ({
  at, actor, kind: 0, pinned: false, dirty: false, reported: false, count: 0, next: 0, turn: null,
  fields: [], objects: [], holds: [], knows: [], letters: [],
});

// A thing and an amount, and so on.
function pairsOf(words) {
  const pairs = [];
  for (let n = 0; n < words.length; n += 2) {
    pairs.push({thing: words[n], amount: Number(words[n + 1])});
  }
  return pairs;
}

function addSeat(on, seat) {
  const {actors, entries} = on.run;
  if (!actors[seat.actor]) actors[seat.actor] = [];
  actors[seat.actor].push(seat);
  entries[on.at].touched.push(seat.actor);
  on.seat = seat;
}

function addLetter(on, letter) {
  on.letter = {args: [], loads: [], brings: [], amounts: [], ...letter};
  on.seat.letters.push(on.letter);
}

// The detector at this entry, as it was before unless a line has changed it.
function detectorOf(on) {
  const {detector} = on.run;
  const last = detector[detector.length - 1];
  if (last.at === on.at) return last;
  detector.push({...last, at: on.at});
  return detector[detector.length - 1];
}

function addReport(on, actor, report) {
  const {reports} = on.run;
  if (!reports.has(actor)) reports.set(actor, []);
  const history = reports.get(actor);
  const had = history.length > 0 && history[history.length - 1].report !== null;
  detectorOf(on).kept += (report ? 1 : 0) - (had ? 1 : 0);
  history.push({at: on.at, report});
}

function addToken(on, number, token) {
  const detector = detectorOf(on);
  const others = detector.tokens.filter(other => other.number !== number);
  const open = token ? others.concat(token) : others;
  detector.tokens = open.sort((one, other) => one.number - other.number);
  on.token = token;
}

function addEntry(on, words) {
  const {run} = on;
  if (run.entries.length > LIMITS.entries) {
    run.cut = true;
    return;
  }
  on.at = run.entries.push({words, touched: []}) - 1;
  if (words[0] === 'hear') detectorOf(on).heard += 1;
}

// A line of the program: a kind, a behaviour of the last kind, its end, or the next instruction
// of it.
function addProgramLine(on, words) {
  const {program, kinds} = on.run;
  program.push(words.join(' '));
  if (words[0] === 'kind') kinds.push({name: words[1], behaviours: []});
  else if (words[0] === 'on') {
    on.behaviour = {name: words[1], line: program.length, body: []};
    kinds[kinds.length - 1].behaviours.push(on.behaviour);
  } else if (words[0] !== 'end') on.behaviour.body.push(words.join(' '));
}

// What each kind of line says, by its first word.
const READERS = {
  picture: (on, [form]) => { on.run.form = form; },
  weight: (on, [weight]) => { on.run.weight = weight; },
  trace: (on, [trace]) => { on.run.trace = trace; },
  text: addProgramLine,
  entry: addEntry,
  print: (on, [value]) => { on.run.prints.push({at: on.at, value}); },
  actor: (on, [actor, kind, pinned, dirty, reported, count, next]) => addSeat(on, {
    ...emptySeat(on.at, Number(actor)), kind: Number(kind), count: Number(count), next: Number(next),
    pinned: pinned === '1', dirty: dirty === '1', reported: reported === '1',
  }),
  turn: (on, [behaviour, place, ...registers]) => {
    on.seat.turn = {behaviour: Number(behaviour), place: Number(place), registers};
  },
  fields: (on, values) => { on.seat.fields = values; },
  object: (on, [serial, count, ...row]) => {
    on.seat.objects.push({thing: `o${on.seat.actor}.${serial}`, count: Number(count), row});
  },
  holds: (on, words) => { on.seat.holds.push(...pairsOf(words)); },
  knows: (on, [thing, ...row]) => { on.seat.knows.push({thing, row}); },
  letter: (on, [name, ...args]) => addLetter(on, {kind: 'letter', name, args}),
  loads: (on, things) => { on.letter.loads = things; },
  brings: (on, [thing, ...row]) => { on.letter.brings.push({thing, row}); },
  inc: (on, words) => addLetter(on, {kind: 'inc', amounts: pairsOf(words)}),
  dec: (on, words) => addLetter(on, {kind: 'dec', amounts: pairsOf(words)}),
  confirm: (on, [token]) => addLetter(on, {kind: 'confirm', token: Number(token)}),
  gone: (on, [actor]) => addSeat(on, {...emptySeat(on.at, Number(actor)), gone: true}),
  detector: (on, [news, opened]) => {
    Object.assign(detectorOf(on), {news: news === '1', opened: Number(opened)});
  },
  note: (on, words) => { detectorOf(on).posted = on.run.notes.push(words); },
  report: (on, [actor, count, ...held]) => {
    addReport(on, Number(actor), {count, held: heldPairs(held)});
  },
  withdrawn: (on, [actor]) => addReport(on, Number(actor), null),
  token: (on, [number]) => addToken(on, Number(number), {number: Number(number), members: []}),
  member: (on, [actor, acked]) => {
    on.token.members.push({actor: Number(actor), acked: acked === '1'});
  },
  closed: (on, [number]) => addToken(on, Number(number), null),
  end: (on, [end]) => { on.run.end = end; },
};

// Reads the lines of the data, up to the most entries that the page shows.
function readRun(data) {
  const run = {
    form: '', weight: '', trace: '', end: '', program: [], kinds: [], prints: [], notes: [],
    entries: [{words: ['start'], touched: []}], actors: [], reports: new Map(),
    unknown: 0, cut: false,
    detector: [{at: 0, news: false, opened: 0, heard: 0, posted: 0, kept: 0, tokens: []}],
  };
  const on = {run, at: 0, seat: emptySeat(0, 0), behaviour: {body: []}};
  on.letter = {loads: [], brings: []};
  on.token = {members: []};
  for (let from = 0, to; from < data.length && !run.cut; from = to + 1) {
    to = data.indexOf('\n', from);
    if (to < 0) to = data.length;
    const [first, ...words] = data.slice(from, to).split(' ');
    if (Object.hasOwn(READERS, first)) READERS[first](on, words);
    else run.unknown += first === '' ? 0 : 1;
  }
  return run;
}

const run = readRun(byId('data').textContent);
const isRun = run.form === '1';
const lastEntry = run.entries.length - 1;
