// What happened to each thing, and how long each actor, object and hold is there.

// For each thing the entries that did something to it.
const stories = new Map();

function tell(thing, at, deed) {
  if (!stories.has(thing)) stories.set(thing, []);
  stories.get(thing).push({at, deed});
}

// What comes and goes of one group (objects or holds) between two seats of an actor.
function followGroup(life, group, before, after, at) {
  const spans = life.spans[group];
  const then = new Set(before[group].map(item => item.thing));
  const now = new Set(after[group].map(item => item.thing));
  for (const thing of then) {
    if (now.has(thing)) continue;
    spans.get(thing)[spans.get(thing).length - 1].to = at;
    if (group === 'objects') tell(thing, at, 'freed');
  }
  for (const thing of now) {
    if (then.has(thing)) continue;
    if (!spans.has(thing)) spans.set(thing, []);
    spans.get(thing).push({from: at, to: Infinity});
    if (group === 'objects') tell(thing, at, 'made');
  }
}

// Notes of each letter when it came; the data write all that wait each time.
function followLetters(before, seat) {
  const taken = takenFrom(seat.actor, seat.at);
  seat.letters.forEach((letter, n) => {
    const waited = before.letters[n + taken];
    letter.at = waited ? waited.at : seat.at;
    if (waited) return;
    for (const thing of letter.loads) tell(thing, seat.at, 'sent');
    const deed = letter.kind === 'inc' ? 'minted' : 'given back';
    for (const {thing} of letter.amounts) tell(thing, seat.at, deed);
  });
  return taken;
}

// The most of each part that the actor ever has, for which its box needs room.
function widen(shape, seat, taken) {
  const most = (part, number) => { shape[part] = Math.max(shape[part], number); };
  most('fields', seat.fields.length);
  most('letters', seat.letters.length + taken);
  if (!seat.turn) return;
  most('turn', 1);
  most('registers', seat.turn.registers.filter(value => value !== '-').length);
}

// Gives each span the lowest place that is free while it lasts, or the limit where none below is.
// Returns how many places are taken, and one more where the limit was reached.
function givePlaces(spans, limit) {
  const until = [];
  let beyond = 0;
  for (const span of [...spans].sort((one, other) => one.from - other.from)) {
    let place = 0;
    while (place < until.length && place < limit && until[place] >= span.from) place++;
    span.place = place;
    if (place < limit) until[place] = span.to;
    else beyond = 1;
  }
  return until.length + beyond;
}

const noShape = () => ({turn: 0, fields: 0, registers: 0, objects: 0, holds: 0, letters: 0});

// The life of one actor, from its first seat on.
function lifeOf(actor, history) {
  const spans = {objects: new Map(), holds: new Map()};
  const life = {actor, from: history[0].at, to: Infinity, place: 0, shape: noShape(), spans};
  tell(actorNamed(actor), life.from, 'made');
  let before = emptySeat(0, actor);
  for (const seat of history) {
    for (const group of ['objects', 'holds']) followGroup(life, group, before, seat, seat.at);
    if (seat.gone) {
      life.to = seat.at;
      tell(actorNamed(actor), seat.at, 'freed');
    } else widen(life.shape, seat, followLetters(before, seat));
    before = seat;
  }
  for (const group of ['objects', 'holds']) {
    life.shape[group] = givePlaces([...spans[group].values()].flat(), LIMITS.places);
  }
  return life;
}

const lives = run.actors.map((history, actor) => lifeOf(actor, history));

// The place that an object or a hold has in its actor's box.
const placeIn = (life, group, thing, entry) =>
  life.spans[group].get(thing).find(span => span.from <= entry && entry <= span.to).place;
