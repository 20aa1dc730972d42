// A moment of the run: what was so after an entry, and what the entry did.

// What became so at the entry or last before it.
function latest(history, entry) {
  let low = 0, high = history.length;
  while (low < high) {
    const middle = (low + high) >> 1;
    if (history[middle].at <= entry) low = middle + 1;
    else high = middle;
  }
  return low ? history[low - 1] : null;
}

// The seat of an actor, or null where it is not there.
function seatAt(actor, entry) {
  const seat = latest(run.actors[actor] || [], entry);
  return seat && !seat.gone ? seat : null;
}

// The seats of all actors that are there, by rising numbers.
function seatsAt(entry) {
  const seats = [];
  for (let actor = 0; actor < run.actors.length; actor++) {
    const seat = seatAt(actor, entry);
    if (seat) seats.push(seat);
  }
  return seats;
}

const detectorAt = entry => latest(run.detector, Math.max(0, entry));

// The reports that are kept, by rising numbers of their actors.
function reportsAt(entry) {
  const reports = [];
  for (const [actor, history] of run.reports) {
    const kept = latest(history, entry);
    if (kept && kept.report) reports.push({actor, at: kept.at, ...kept.report});
  }
  return reports.sort((one, other) => one.actor - other.actor);
}

// The actor whose event the entry is, or null where it is one of the detector or the start.
function doerOf(entry) {
  const [event, actor] = run.entries[entry].words;
  return ['start', 'hear', 'scan', 'reap'].includes(event) ? null : Number(actor);
}

// How many letters the entry takes from those that wait for an actor.
const takenFrom = (actor, entry) =>
  run.entries[entry].words[0] === 'take' && doerOf(entry) === actor ? 1 : 0;

// The letters that the entry posted, each with the actor for whom it waits.
function postedAt(entry) {
  const posted = [];
  for (const to of run.entries[entry].touched) {
    const seat = seatAt(to, entry);
    if (seat) for (const letter of seat.letters) if (letter.at === entry) posted.push({to, letter});
  }
  return posted;
}

// The things that are no more after the entry.
function freedAt(entry) {
  const freed = [];
  for (const actor of run.entries[entry].touched) {
    const before = seatAt(actor, entry - 1), after = seatAt(actor, entry);
    if (!before) continue;
    if (!after) freed.push(actorNamed(actor));
    const left = new Set(after ? after.objects.map(object => object.thing) : []);
    for (const {thing} of before.objects) if (!left.has(thing)) freed.push(thing);
  }
  return freed;
}

const NO_SUMS = {count: 0, inc: 0, dec: 0, held: 0, letters: 0};

// The five sums of each thing over these seats: what its owner counts, what increments and
// decrements under way bring, what others hold, and how many letters load it. Count and inc are
// together held, letters and dec.
function fiveSums(seats) {
  const sums = new Map();
  const add = (thing, side, amount) => {
    if (!sums.has(thing)) sums.set(thing, {...NO_SUMS});
    sums.get(thing)[side] += amount;
  };
  for (const seat of seats) {
    add(actorNamed(seat.actor), 'count', seat.count);
    for (const {thing, count} of seat.objects) add(thing, 'count', count);
    for (const {thing, amount} of seat.holds) add(thing, 'held', amount);
    for (const letter of seat.letters) {
      for (const thing of letter.loads) add(thing, 'letters', 1);
      for (const {thing, amount} of letter.amounts) add(thing, letter.kind, amount);
    }
  }
  return sums;
}
