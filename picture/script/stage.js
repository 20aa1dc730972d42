// The stage: the boxes, and above them what leads from one to another.

let edgesShown = isFull ? 'all' : 'near';

// Is the edge one of the chosen thing's: to it, or from the chosen actor?
const isOfChosen = edge => chosen !== null && (edge.to === chosen || edge.from === chosen);

// The edges that are drawn, from each place to each other one once.
function edgesAt(entry) {
  const acting = actorNamed(doerOf(entry)), drawn = [], seen = new Set();
  for (const edge of edgesShown === 'none' ? [] : edges) {
    const to = anchors.get(edge.to), isNear = edge.from === acting, isChosen = isOfChosen(edge);
    if (!to || (edgesShown === 'near' && !isNear && !isChosen)) continue;
    const isLoop = to.slot === edge.slot;
    if (isLoop && (!isFull || Math.abs(to.y - edge.y) < 4)) continue;
    const key = isFull ? [edge.y, edge.to, edge.kind] : [to.slot.place];
    const ends = [edge.slot.place, ...key].join();
    if (seen.has(ends)) continue;
    seen.add(ends);
    const line = isLoop
      ? loopIn(to.slot, edge.y, to.y)
      : lineBetween(edge.slot, edge.y, to.slot, to.y);
    drawn.push(path(line.d, `edge ${edge.kind} ${isChosen ? 'chosen' : isNear ? 'near' : ''}`),
      tipOf(line, isChosen ? 'chosen' : ''));
  }
  return drawn;
}

// The detector in a line.
function stripAt(entry) {
  const {news, heard, posted, kept, tokens} = detectorAt(entry);
  const isNow = entry > 0 && doerOf(entry) === null;
  const asked = tokens.map(({number, members}) => {
    const acked = members.filter(member => member.acked).length;
    return `token ${number}: ${acked} of ${members.length} acknowledged`;
  });
  const words = [`${counted(posted - heard, 'note')} waiting`, `${counted(kept, 'report')} kept`,
    asked.join(', ') || 'no open token', news ? 'news' : 'no news'].join('  \u00B7  ');
  return [
    rect(EDGE, 10, layout.width - 2 * EDGE, 24, `card ${isNow ? 'now' : ''}`, {rx: 6}),
    text(EDGE + 10, 27, 'detector', 'title'),
    text(EDGE + 84, 26.5, shortened(words, Math.floor((layout.width - 100) / 6)), 'strip'),
  ];
}

// A letter or a note on its way, with what it counts.
function labelOf(lines, middleX, top) {
  const width = Math.max(...lines.map(line => line.length)) * 6.7 + 14;
  const x = Math.max(4, Math.min(layout.width - width - 4, middleX - width / 2));
  return [
    rect(x, top, width, lines.length * 15 + 5, 'label', {rx: 4}),
    lines.map((line, n) => text(x + width / 2, top + 14 + n * 15, line, 'mono', AT_MIDDLE)),
  ];
}

// Where a label stands: at the middle of its line; with small boxes below the box that it is
// about.
function labelAt(line, slot, lines, number) {
  if (!isFull) return labelOf([lines.join(' ')], slot.x + WIDTH / 2, slot.y + slot.height - 1);
  const [x, y] = line.middle;
  return labelOf(lines, x, y - (lines.length * 15 + 5) / 2 + number % 4 * 10);
}

function letterInShort(letter) {
  const load = letter.loads.length ? [shortened(`+1 ${letter.loads.map(sign).join(' ')}`, 24)] : [];
  return [shortened(call(letter), letter.kind === 'letter' ? 24 : 26), ...load];
}

// Who posted a letter: the actor whose event it was; of a reap the member that held what the letter
// gives back. Confirms are of the detector.
function senderOf(letter, entry) {
  const [event] = run.entries[entry].words;
  if (event !== 'reap') return doerOf(entry);
  const isGivenBack = ({thing, amount}) =>
    letter.amounts.some(pair => pair.thing === thing && pair.amount === amount);
  return run.entries[entry].touched.find(actor =>
    !seatAt(actor, entry) && seatAt(actor, entry - 1).holds.some(isGivenBack));
}

// The letters that the entry posts, from box to box or from the detector.
function lettersFlyingAt(entry) {
  const flying = [];
  for (const {to, letter} of postedAt(entry).slice(0, 12)) {
    const sender = senderOf(letter, entry), slot = slotOf(to, entry);
    const from = sender === null ? null : slotOf(sender, entry);
    if (!slot || (sender !== null && !from)) continue;
    const {y} = letterAnchors.get(letter) || {y: slot.y + slot.height - 12};
    const line = from ? lineBetween(from, from.y + 36, slot, y) : lineUp(slot, y, true);
    flying.push({line, tip: tipOf(line, 'flying'), slot, words: letterInShort(letter)});
  }
  return flying;
}

// The notes that the entry posts, to the detector.
function notesFlyingAt(entry) {
  const doer = doerOf(entry), slot = doer === null ? null : slotOf(doer, entry);
  if (!slot) return [];
  return run.notes.slice(detectorAt(entry - 1).posted, detectorAt(entry).posted).map(note => {
    const line = lineUp(slot, slot.y + 36, false);
    return {line, tip: tipUp(line, 'flying'), slot, words: [noteInShort(note)]};
  });
}

function overlayAt(entry) {
  const flying = entry ? lettersFlyingAt(entry).concat(notesFlyingAt(entry)) : [];
  return [
    edgesAt(entry), stripAt(entry), flying.map(({line, tip}) => [path(line.d, 'flight'), tip]),
    flying.map(({line, slot, words}, number) => labelAt(line, slot, words, number)),
  ];
}

// Where not all boxes fit, the acting one is brought into sight.
function scrollTo(slot) {
  const stage = byId('stage');
  if (!slot || stage.scrollHeight <= stage.clientHeight + 4) return;
  const top = slot.y * layout.zoom, bottom = (slot.y + slot.height) * layout.zoom;
  const isInSight = top >= stage.scrollTop && bottom <= stage.scrollTop + stage.clientHeight;
  if (!isInSight) stage.scrollTop = Math.max(0, top - 12);
}

function drawStage(entry) {
  const stage = byId('stage'), svg = stage.firstElementChild;
  const focused = stage.contains(document.activeElement) ? document.activeElement : null;
  const thing = focused && focused.getAttribute('data-thing');
  anchors = new Map();
  letterAnchors = new Map();
  edges = [];
  const places = slots.map((_, place) => drawPlace(place, entry));
  putEach(svg, 'g', [...places, overlayAt(entry)]);
  if (entry && doerOf(entry) !== null) scrollTo(slotOf(doerOf(entry), entry));
  if (!thing || document.activeElement === focused) return;
  const again = stage.querySelector(`g[data-thing="${CSS.escape(thing)}"]`);
  if (again) again.focus({preventScroll: true});
}

// Lays the boxes out for the room that there is.
function fitStage() {
  const stage = byId('stage'), svg = stage.firstElementChild;
  const room = {width: stage.clientWidth - 16, height: stage.clientHeight - 12};
  layout = layOut(room);
  svg.setAttribute('viewBox', `0 0 ${layout.width} ${layout.height}`);
  svg.setAttribute('width', Math.floor(layout.width * layout.zoom));
  svg.setAttribute('height', Math.floor(layout.height * layout.zoom));
}
