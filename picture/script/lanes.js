// The lanes: the life of each actor, and a mark for each entry by its kind. Below them the story
// of the chosen thing.

const laneCount = Math.min(run.actors.length, LIMITS.lanes);
const laneHeight = Math.max(1.6, Math.min(14, 104 / (laneCount + 1)));
const lanesHeight = laneHeight * (laneCount + 1) + 14;
const LANES_LEFT = 62, LANES_RIGHT = 8;

let lanesWidth = 1000;

const lanesLength = () => lanesWidth - LANES_LEFT - LANES_RIGHT;
const xOfEntry = entry => LANES_LEFT + lanesLength() * (lastEntry ? entry / lastEntry : 0);
const entryAtX = x => Math.round((x - LANES_LEFT) / lanesLength() * lastEntry);

const yOfLane = lane => lane * laneHeight + laneHeight / 2 + 2;
const laneOf = actor => Math.floor(actor * laneCount / run.actors.length);
const yOfDoer = doer => yOfLane(doer === null ? laneCount : laneOf(doer));

// The mark of an event, of a size r to each side.
const circle = (x, y, r) =>
  `M${x - r} ${y}a${r} ${r} 0 1 0 ${2 * r} 0a${r} ${r} 0 1 0 ${-2 * r} 0z`;
const cross = (x, y, r) => `M${x - r} ${y - r}l${2 * r} ${2 * r}m0 ${-2 * r}l${-2 * r} ${2 * r}`;
const MARKS = {
  take: (x, y, r) => `M${x - r} ${y - r}l${r} ${2 * r}l${r} ${-2 * r}z`,
  go: (x, y, r) => `M${x - r} ${y - r}h${2 * r}v${2 * r}h${-2 * r}z`,
  collect: circle,
  scan: circle,
  leave: cross,
  reap: cross,
  block: (x, y, r) => `M${x} ${y - r}l${r} ${r}l${-r} ${r}l${-r} ${-r}z`,
  hear: (x, y, r) => `M${x - r} ${y}h${2 * r}`,
};

// Where there is no room for marks, strokes: long ones for take and go.
function strokeOf(event, x, y) {
  const height = Math.max(2.8, laneHeight * .8) * (event === 'take' || event === 'go' ? 1 : .5);
  return `M${x.toFixed(1)} ${(y - Math.max(1.4, laneHeight * .4)).toFixed(1)}v${height.toFixed(1)}`;
}

// The marks of all entries as two paths, of which the second is filled.
function marksOfEntries() {
  const gap = lanesLength() / Math.max(1, lastEntry), isClose = gap < 5 || laneHeight < 5;
  const r = Math.min(4, gap * .36, laneHeight * .36), open = [], filled = [];
  run.entries.forEach(({words: [event]}, entry) => {
    if (entry === 0) return;
    const x = xOfEntry(entry), y = yOfDoer(doerOf(entry));
    const marks = event === 'go' && !isClose ? filled : open;
    if (isClose) marks.push(strokeOf(event, x, y));
    else if (Object.hasOwn(MARKS, event)) marks.push(MARKS[event](x, y, r));
  });
  const width = isClose ? Math.max(.9, Math.min(1.4, gap * .8)) : 1.3;
  return [
    element('path', {class: 'tick', d: open.join(''), 'stroke-width': width}),
    element('path', {class: 'tick filled', d: filled.join(''), 'stroke-width': width}),
  ];
}

function livesDrawn() {
  const d = lives.map(({actor, from, to}) =>
    `M${xOfEntry(from)} ${yOfDoer(actor)}H${xOfEntry(Math.min(lastEntry, to))}`);
  const width = laneHeight < 4 ? .35 * laneCount / run.actors.length : 1;
  const detector = `M${LANES_LEFT} ${yOfDoer(null)}H${xOfEntry(lastEntry)}`;
  return element('path', {class: 'life', d: d.join('') + detector, 'stroke-width': width});
}

function laneNames() {
  const name = (doer, words) => text(LANES_LEFT - 12, yOfDoer(doer) + 3.5, words, 'small', AT_END);
  const named = laneHeight >= 8 ? lives : [];
  return [named.map(({actor}) => name(actor, sign(actorNamed(actor)))), name(null, 'detector')];
}

function drawLanes() {
  const lanes = byId('lanes'), svg = lanes.firstElementChild;
  lanesWidth = lanes.clientWidth;
  svg.setAttribute('width', lanesWidth);
  svg.setAttribute('height', lanesHeight);
  put(svg.firstElementChild, livesDrawn(), marksOfEntries(), laneNames());
}

// Where the run stands, and the entries that did something to the chosen thing.
function drawCursor(entry) {
  const x = xOfEntry(entry), story = chosen ? stories.get(chosen) || [] : [];
  const marks = story.map(({at}) => `M${xOfEntry(at)} ${lanesHeight - 9}l4 7h-8z`);
  put(byId('lanes').firstElementChild.lastElementChild,
    path(marks.join(''), 'story'),
    element('line', {class: 'cursor', x1: x, x2: x, y1: 0, y2: lanesHeight - 6}));
}
