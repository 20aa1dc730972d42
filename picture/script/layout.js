// Where the boxes stand. An actor keeps its place while it is there; a place is given again only
// after the actor on it is gone. So do objects and holds within a box. Few boxes tell all, many
// are small.

const places = givePlaces(lives, LIMITS.boxes);
const shownPlaces = Math.min(places, LIMITS.boxes);
const isFull = places <= LIMITS.fullBoxes;

const ROW = 18, TOP = 44, EDGE = isFull ? 16 : 34, WIDTH = isFull ? 318 : 148;

// The parts of a full box, each with how many lines it takes of so many items.
const PARTS = {
  fields: number => Math.ceil(number / 3),
  registers: number => Math.ceil(number / 3),
  objects: number => Math.min(number, LIMITS.objects),
  holds: number => Math.ceil(Math.min(number, LIMITS.holds) / 2),
  letters: number => Math.min(number, LIMITS.letters),
};

// Who stands on each place, one after the other.
const livesOn = Array.from({length: shownPlaces}, () => []);
for (const life of lives) if (life.place < shownPlaces) livesOn[life.place].push(life);

// How high the box of a place is, and where its parts begin: there is room for whoever comes to
// stand there.
function slotAt(place) {
  const most = noShape();
  for (const {shape} of livesOn[place]) {
    for (const part in most) most[part] = Math.max(most[part], shape[part]);
  }
  const slot = {place, height: isFull ? (most.turn ? 70 : 50) : 66, parts: {}};
  if (!isFull) return slot;
  for (const [part, linesOf] of Object.entries(PARTS)) {
    const lines = linesOf(most[part]);
    if (!lines) continue;
    slot.parts[part] = {y: slot.height, lines};
    slot.height += lines * ROW + 7;
  }
  return slot;
}

const slots = Array.from({length: shownPlaces}, (_, place) => slotAt(place));

// The boxes in so many columns; how large they are where all are in sight, and where their
// breadth is.
function spread(columns, room) {
  const gutter = !isFull ? 44 : columns > 2 ? 130 : 190, gap = isFull ? 22 : 18;
  const bottoms = new Array(columns).fill(TOP + (!isFull ? 14 : columns > 2 ? 26 : 14));
  const placed = slots.map((slot, place) => {
    const column = place % columns, y = bottoms[column];
    bottoms[column] += slot.height + gap;
    return {...slot, column, x: EDGE + column * (WIDTH + gutter), y};
  });
  const beside = isFull && columns === 1 ? gutter : 0;
  const width = 2 * EDGE + columns * WIDTH + (columns - 1) * gutter + beside;
  const height = Math.max(...bottoms, TOP + 40) + 4;
  const broad = Math.min(room.width / width, 1.25), whole = Math.min(broad, room.height / height);
  return {slots: placed, columns, gutter, width, height, broad, whole};
}

// The way of spreading them in which they are largest. Two columns are the easiest to read, so
// others have to be better. What would be too small to read is drawn larger, and the stage can be
// scrolled.
function layOut(room) {
  const most = Math.max(1, Math.min(shownPlaces, isFull ? 4 : 12));
  const worth = way => way.whole * (isFull && way.columns !== 2 ? .85 : 1);
  const best = Array.from({length: most}, (_, n) => spread(n + 1, room))
    .reduce((one, other) => worth(other) > worth(one) ? other : one);
  return {...best, zoom: Math.max(best.whole, Math.min(best.broad, .8), .66)};
}

let layout = layOut({width: 1000, height: 600});

const isThereAt = entry => life => life.from <= entry && entry <= life.to;

// The slot in which an actor stands at the entry, or null where it has none.
function slotOf(actor, entry) {
  const life = lives[actor];
  return life && life.place < shownPlaces && isThereAt(entry)(life) ? layout.slots[life.place] : null;
}
