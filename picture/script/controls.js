// What the reader does: steps, chooses, plays, saves.

let now = 0, playing = null, noting = null;

// What the address says after its `#`, so that a page can be opened where one was.
function addressOfMoment() {
  const parts = [`entry=${now}`];
  if (chosen) parts.push(`thing=${chosen}`);
  if (document.documentElement.classList.contains('dark')) parts.push('theme=dark');
  if (byId('counts').open) parts.push('counts');
  if (edgesShown !== (isFull ? 'all' : 'near')) parts.push(`edges=${edgesShown}`);
  return '#' + parts.join('&');
}

// Browsers limit how often an address may change, so it waits for a rest.
function noteAddress() {
  clearTimeout(noting);
  noting = setTimeout(() => history.replaceState(null, '', addressOfMoment()), 200);
}

function show(entry) {
  now = Math.max(0, Math.min(lastEntry, entry));
  const seats = seatsAt(now), sums = fiveSums(seats);
  put(byId('step'), element('b', {}, String(now)), ` of ${lastEntry}`);
  byId('event').textContent = run.entries[now].words.join(' ');
  byId('words').textContent = entryInWords(now);
  byId('slider').value = now;
  drawPrints(now);
  drawTotals(now, seats);
  drawStage(now);
  drawChosen(now, seats, sums);
  drawDetector(now);
  drawCounts(seats, sums);
  drawProgram(seats);
  drawCursor(now);
}

function goTo(entry) {
  show(entry);
  noteAddress();
}

function choose(thing) {
  chosen = thing;
  goTo(now);
}

function pause() {
  clearInterval(playing);
  playing = null;
  byId('play').textContent = 'play';
}

function play() {
  if (playing) return pause();
  if (now >= lastEntry) goTo(0);
  playing = setInterval(() => now < lastEntry ? goTo(now + 1) : pause(), 700);
  byId('play').textContent = 'pause';
}

function setTheme(isDark) {
  document.documentElement.classList.toggle('dark', isDark);
  byId('theme').textContent = isDark ? 'light' : 'dark';
}

function changeTheme() {
  setTheme(!document.documentElement.classList.contains('dark'));
  noteAddress();
}

function readAddress() {
  const said = new URLSearchParams(location.hash.slice(1));
  if (said.has('theme')) setTheme(said.get('theme') === 'dark');
  if (/^(a\d+|o\d+\.\d+)$/.test(said.get('thing'))) chosen = said.get('thing');
  if (['all', 'near', 'none'].includes(said.get('edges'))) edgesShown = said.get('edges');
  if (said.has('counts')) byId('counts').open = true;
  byId('edges').value = edgesShown;
  show(parseInt(said.get('entry'), 10) || 0);
}

// The stage as a drawing of its own, with the colours of the page in it.
function save() {
  const svg = byId('stage').firstElementChild.cloneNode(true);
  const colours = getComputedStyle(document.documentElement);
  const own = 'text { font-family: sans-serif; } svg { background: var(--paper); }';
  const rules = (document.querySelector('style').textContent + own)
    .replace(/var\((--\w+)\)/g, (_, name) => colours.getPropertyValue(name));
  svg.prepend(build(element('style', {}, rules), SVG));
  const drawing = new Blob([new XMLSerializer().serializeToString(svg)], {type: 'image/svg+xml'});
  const link = document.createElement('a');
  link.href = URL.createObjectURL(drawing);
  link.download = `entry-${now}.svg`;
  link.click();
  URL.revokeObjectURL(link.href);
}

// What the page leaves out, or does not understand.
function tellLimits() {
  const told = [];
  if (!isRun) told.push('These are no data of the form that this page shows.');
  if (run.unknown) told.push(`${counted(run.unknown, 'line')} of the data not understood.`);
  if (isRun && !run.end && !run.cut) told.push('The data stop before their end.');
  if (run.cut) told.push(`The run is longer: only its first ${LIMITS.entries} entries are shown.`);
  if (places > shownPlaces) {
    told.push(`At some entries there are more than the ${shownPlaces} actors that have boxes.`);
  }
  if (laneCount < run.actors.length) told.push('Several actors share a lane.');
  byId('limits').hidden = told.length === 0;
  byId('limits').textContent = told.join(' ');
}

function onKey(event) {
  if (event.ctrlKey || event.metaKey || event.altKey || event.target.tagName === 'SELECT') return;
  const drawn = event.target.closest('g[data-thing]');
  const takesSpace = ['BUTTON', 'SUMMARY'].includes(event.target.tagName);
  const entries = {
    ArrowLeft: now - 1, ArrowRight: now + 1, PageUp: now - 10, PageDown: now + 10,
    Home: 0, End: lastEntry,
  };
  if (Object.hasOwn(entries, event.key)) goTo(entries[event.key]);
  else if (drawn && event.key === 'Enter') toggle(drawn.getAttribute('data-thing'));
  else if (event.key === ' ' && !takesSpace) play();
  else if (event.key === 'Escape') choose(null);
  else return;
  event.preventDefault();
}

const toggle = thing => choose(thing === chosen ? null : thing);

function onClick(event) {
  const thing = event.target.closest('[data-thing]'), entry = event.target.closest('[data-entry]');
  if (thing) toggle(thing.getAttribute('data-thing'));
  else if (entry) goTo(Number(entry.getAttribute('data-entry')));
}

function listen() {
  const clicks = {
    first: () => goTo(0), back: () => goTo(now - 1),
    next: () => goTo(now + 1), last: () => goTo(lastEntry),
    play, save, theme: changeTheme,
  };
  for (const [id, act] of Object.entries(clicks)) byId(id).addEventListener('click', act);
  byId('slider').addEventListener('input', event => goTo(Number(event.target.value)));
  byId('edges').addEventListener('change', event => {
    edgesShown = event.target.value;
    goTo(now);
  });
  for (const id of ['counts', 'program']) byId(id).addEventListener('toggle', () => show(now));
  byId('lanes').addEventListener('click', event =>
    goTo(entryAtX(event.clientX - byId('lanes').getBoundingClientRect().left)));
  document.addEventListener('click', onClick);
  document.addEventListener('keydown', onKey);
  window.addEventListener('hashchange', readAddress);
  window.addEventListener('resize', () => {
    drawLanes();
    fitStage();
    show(now);
  });
}

setTheme(matchMedia('(prefers-color-scheme: dark)').matches);
byId('slider').max = lastEntry;
byId('end').textContent = !isRun ? '' : [
  run.cut ? 'cut' : `ends ${run.end}`, `weight ${run.weight}`,
  run.trace === 'roots' ? 'root-only tracing' : 'deep tracing',
].join(' \u00B7 ');
byId('signs').open = isFull;
tellLimits();
drawLanes();
fitStage();
readAddress();
listen();
