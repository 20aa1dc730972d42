// The boxes of actors. While they are drawn, it is noted where each thing and each letter stands,
// and what names what.

let anchors = new Map(), letterAnchors = new Map(), edges = [];

// A value with what it stands in, and the mark of the chosen thing.
function chip(x, y, label, value, look, room) {
  const words = shortened((label ? label + ' ' : '') + sign(value), room);
  const name = text(x, y, words, `mono ${look}`, isThing(value) ? {'data-thing': value} : {});
  if (value !== chosen) return name;
  return [rect(x - 3, y - 12, words.length * 6.7 + 7, 16, 'picked', {rx: 3}), name];
}

// What is drawn of an actor: its seat, or its last one where the entry took it away, and the one
// before.
function boxOf(life, entry) {
  const {actor, place} = life, slot = layout.slots[place];
  const after = seatAt(actor, entry), before = entry ? seatAt(actor, entry - 1) : null;
  return {entry, life, slot, actor, after, before, seat: after || before};
}

function nameEdges(box, values, kind, y) {
  if (!box.after) return;
  const from = actorNamed(box.actor);
  for (const to of values) if (isThing(to)) edges.push({slot: box.slot, y, from, to, kind});
}

// An empty place says who was there.
function emptyBox(slot, entry) {
  const gone = livesOn[slot.place].filter(life => life.to < entry).pop();
  const words = gone && `${isFull ? 'actor ' : '\u25CF'}${gone.actor}, gone at ${gone.to}`;
  return [
    rect(slot.x, slot.y, WIDTH, slot.height, 'card slot', {rx: 6}),
    gone && text(slot.x + 12, slot.y + 20, words, 'small faint'),
  ];
}

// The flags of an actor, each with whether it is set.
const flagsOf = ({pinned, turn, dirty, reported}) =>
  Object.entries({pinned, 'in turn': turn !== null, dirty, reported});

function inAWord({actor, seat, after}) {
  const flags = flagsOf(seat).filter(([, isSet]) => isSet).map(([name]) => name);
  const {name} = run.kinds[seat.kind];
  return [`actor ${actor} ${name} count ${seat.count}`, ...after ? flags : ['gone'],
    counted(seat.objects.length, 'object'), counted(seat.letters.length, 'letter')].join(', ');
}

// The flags that are set. In a full box each has its place.
function flagsDrawn({slot, seat, after}) {
  const flags = after ? flagsOf(seat) : [['gone', true]];
  const drawn = [], y = slot.y + 28.5;
  let x = slot.x + 10.5;
  for (const [name, isSet] of flags) {
    const width = name.length * 5.6 + (isFull ? 10 : 7), look = name.replace(' ', '');
    if (isSet) {
      drawn.push(rect(x, y, width, 15, `flag ${look}`, {rx: 7.5}),
        text(x + width / 2, y + 11, name, `flag-name ${look}`, AT_MIDDLE));
    }
    if (isSet || isFull) x += width + (isFull ? 6 : 4);
  }
  return drawn;
}

// Number, kind, count and flags; a click there chooses the actor.
function headOf(box) {
  const {slot: {x, y, height}, actor, seat, after, before} = box, thing = actorNamed(actor);
  const changed = before && after && before.count !== after.count;
  const title = (isFull ? 'actor ' : '\u25CF') + actor;
  const count = `${changed ? '\u25B8' : ''}count ${seat.count}`;
  const kindX = x + (isFull ? 24 : 20) + title.length * 7.4;
  const kindRoom = Math.max(1, Math.floor((x + WIDTH - 16 - kindX - count.length * 6.7) / 6.4));
  anchors.set(thing, {slot: box.slot, y: y + 16});
  const look = !after ? 'gone' : doerOf(box.entry) === actor ? 'now' : '';
  return choosable(thing, inAWord(box),
    rect(x, y, WIDTH, height, `card ${look}`, {rx: 6}),
    chosen === thing && rect(x + 3, y + 3, WIDTH - 6, 24, 'picked', {rx: 5}),
    text(x + 10, y + 20, title, `title ${after ? '' : 'struck'}`),
    text(kindX, y + 20, shortened(run.kinds[seat.kind].name, kindRoom), 'kind'),
    text(x + WIDTH - 10, y + 20, count, changed ? 'mono count new' : 'mono count', AT_END),
    flagsDrawn(box),
    rect(x + 2, y + 2, WIDTH - 4, isFull ? 26 : height - 4, 'hit', {rx: 5}));
}

// A small box has numbers in place of what it holds.
function smallBody(box) {
  const {slot: {x, y}, seat, after} = box, at = y + 54;
  const letters = after ? seat.letters.length : 0;
  nameEdges(box, seat.fields, 'field', at);
  if (seat.turn) nameEdges(box, seat.turn.registers, 'register', at);
  for (const {thing, row} of seat.objects) {
    anchors.set(thing, {slot: box.slot, y: at});
    nameEdges(box, row, 'place', at);
  }
  for (const letter of seat.letters) nameEdges(box, letter.args, 'argument', at);
  const words = `\u25A0${seat.objects.length}   holds ${seat.holds.length}   \u2709 ${letters}`;
  return text(x + 10, y + 58, words, 'small');
}

function turnOf({slot: {x, y}, seat, after}) {
  if (!seat.turn) return null;
  const {name, body} = run.kinds[seat.kind].behaviours[seat.turn.behaviour], {place} = seat.turn;
  const words = `turn of ${name}, at ${place}:  ${body[place] || 'end'}`;
  return text(x + 10, y + 60, shortened(words, 46), `mono ${after ? '' : 'struck'}`);
}

// The line above a part, and its name; below it how many more there are than shown.
function partOf({slot: {x, y, parts}}, part, isAny, more) {
  const {y: top, lines} = parts[part], at = y + top;
  return [
    element('line', {class: 'rule', x1: x + 8, x2: x + WIDTH - 8, y1: at - 3, y2: at - 3}),
    text(x + 10, at + 12, part, isAny ? 'small' : 'small faint'),
    more > 0 && text(x + 10, at + 12 + (lines - 1) * ROW, `+${more} more`, 'small'),
  ];
}

const lineIn = ({slot: {y, parts}}, part, line) => y + parts[part].y + 12 + line * ROW;

// Fields or registers, three in a line; what was not the same before is bold.
function valuesOf(box, part, values, label, kind, had) {
  if (!box.slot.parts[part]) return [];
  return [partOf(box, part, values.length > 0, 0), values.map(([value, number], n) => {
    const x = box.slot.x + 66 + n % 3 * 84, y = lineIn(box, part, Math.floor(n / 3));
    nameEdges(box, [value], kind, y - 4);
    return chip(x, y, label + number, value, had[number] === value ? '' : 'new', 12);
  })];
}

function fieldsOf(box) {
  const values = box.seat.fields.map((value, number) => [value, number]);
  const had = (box.before || box.seat).fields;
  return valuesOf(box, 'fields', values, 'f', 'field', had);
}

function registersOf(box) {
  const registersIn = seat => seat && seat.turn ? seat.turn.registers : [];
  const held = registersIn(box.seat).map((value, number) => [value, number]);
  const values = held.filter(([value]) => value !== '-');
  return valuesOf(box, 'registers', values, 'r', 'register', registersIn(box.before));
}

// What the seats before and after have of a group: each item with the one before, and whether it
// is still there.
function bothOf({before, after}, group) {
  const old = new Map((before ? before[group] : []).map(item => [item.thing, item]));
  const now = after ? after[group] : [];
  const there = now.map(item => ({item, old: old.get(item.thing), isLeft: true}));
  const left = new Set(there.map(({item}) => item.thing));
  const gone = [...old.values()].filter(item => !left.has(item.thing));
  return there.concat(gone.map(item => ({item, old: item, isLeft: false})));
}

// Draws the items of a group that have one of so many places, each by a function, and says how
// many more there are.
function groupOf(box, group, limit, draw) {
  if (!box.slot.parts[group]) return [];
  let more = 0;
  const drawn = [], both = bothOf(box, group);
  for (const one of both) {
    const place = placeIn(box.life, group, one.item.thing, box.entry);
    if (place < limit) drawn.push(draw(box, one, place));
    else if (one.isLeft) more += 1;
  }
  return [partOf(box, group, both.length > 0, more), drawn];
}

function rowOf(box, row, x, y) {
  const width = Math.min(38, Math.floor(114 / row.length));
  nameEdges(box, row, 'place', y - 4);
  return row.map((value, n) => [
    rect(x + n * width, y - 12, width, 16, 'cell'),
    chip(x + 4 + n * width, y, '', value, '', Math.max(2, Math.floor(width / 7))),
  ]);
}

function objectOf(box, {item, old, isLeft}, place) {
  const x = box.slot.x + 66, y = lineIn(box, 'objects', place);
  const isChanged = isLeft && (!old || old.count !== item.count);
  const look = isLeft ? (old ? '' : 'new') : 'struck';
  const countLook = isLeft ? (isChanged ? 'new' : '') : 'struck';
  anchors.set(item.thing, {slot: box.slot, y: y - 4});
  return [
    isLeft && !old && rect(x - 4, y - 13, WIDTH - 72, 17, 'fresh'),
    choosable(item.thing, `${named(item.thing)} count ${item.count}`,
      chip(x, y, '', item.thing, look, 8),
      text(x + 50, y, `${isChanged ? '\u25B8' : ''}count ${item.count}`, `mono count ${countLook}`),
      rect(x - 5, y - 13, 126, 17, 'hit', {rx: 3})),
    isLeft ? rowOf(box, item.row, x + 130, y) : text(x + 134, y, 'freed', 'gone-word'),
  ];
}

function holdOf(box, {item, old, isLeft}, place) {
  const x = box.slot.x + 66 + place % 2 * 126, y = lineIn(box, 'holds', place >> 1);
  const isChanged = isLeft && (!old || old.amount !== item.amount);
  const look = isLeft ? (isChanged ? 'new' : '') : 'struck';
  return [chip(x, y, '', item.thing, look, 9),
    text(x + 52, y, `${isChanged ? '\u25B8' : ''}\u00D7${item.amount}`, `mono ${look}`)];
}

// The letters that wait, before them the one that was taken; of an actor that is gone those that
// went with it.
function lettersOf({entry, actor, before, after}) {
  if (!after) return before.letters.map(letter => ({letter, state: 'gone'}));
  const taken = before ? before.letters.slice(0, takenFrom(actor, entry)) : [];
  const isNew = letter => entry > 0 && letter.at === entry;
  const waiting = after.letters.map(letter => ({letter, state: isNew(letter) ? 'new' : ''}));
  return [...taken.map(letter => ({letter, state: 'taken'})), ...waiting];
}

function letterOf(box, {letter, state}, line) {
  const x = box.slot.x + 66, y = lineIn(box, 'letters', line);
  const isNew = state === 'new', isGone = state === 'gone' || state === 'taken';
  letterAnchors.set(letter, {slot: box.slot, y: y - 4});
  if (!isGone) nameEdges(box, letter.args, 'argument', y - 4);
  const words = (isNew ? '\u25B8' : '') + shortened(callWithLoad(letter), state ? 31 : 37);
  return [
    isNew && rect(x - 4, y - 13, WIDTH - 72, 17, 'fresh'),
    text(x, y, words, `mono ${isGone ? 'struck' : state}`),
    isGone && text(box.slot.x + WIDTH - 8, y, state, 'gone-word', AT_END),
  ];
}

function mailOf(box) {
  if (!box.slot.parts.letters) return [];
  const letters = lettersOf(box), shown = letters.slice(0, LIMITS.letters);
  return [partOf(box, 'letters', letters.length > 0, letters.length - shown.length),
    shown.map((letter, line) => letterOf(box, letter, line))];
}

// What stands on a place at the entry.
function drawPlace(place, entry) {
  const life = livesOn[place].find(isThereAt(entry));
  if (!life) return emptyBox(layout.slots[place], entry);
  const box = boxOf(life, entry), head = headOf(box);
  if (!isFull) return [head, smallBody(box)];
  const parts = [fieldsOf(box), registersOf(box), groupOf(box, 'objects', LIMITS.objects, objectOf),
    groupOf(box, 'holds', LIMITS.holds, holdOf), mailOf(box)];
  return [head, turnOf(box), parts];
}
