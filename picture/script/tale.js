// An entry in words.

function takeInWords({actor, before, after}) {
  const letter = before.letters[0];
  const what = (letter.kind === 'letter' ? 'letter ' : '') + call(letter);
  const told = [`Actor ${actor} takes the ${what}.`];
  if (letter.kind === 'confirm') {
    const answer = 'Its report is out: it posts an Ack.';
    return told.concat(before.reported ? answer : 'No report of it is out: no answer.');
  }
  if (before.reported) told.push('Its report was out, so it posts an Unblock.');
  if (letter.kind !== 'letter') {
    const changes = letter.amounts.map(({thing, amount}) => `${named(thing)} by ${amount}`);
    const deed = letter.kind === 'inc' ? 'rises' : 'falls';
    return told.concat(`What it counts ${deed}: ${listed(changes)}.`);
  }
  const own = letter.loads.filter(thing => ownerOf(thing) === actor);
  const others = letter.loads.filter(thing => ownerOf(thing) !== actor);
  if (others.length) {
    told.push(`The counts pass from the letter to it: it holds 1 more of ${thingsInWords(others)}.`);
  }
  if (own.length) told.push(`What it counts of its own falls by 1: ${thingsInWords(own)}.`);
  return told.concat(after.turn ? 'A turn begins.' : 'It has no such behaviour.');
}

function goInWords({entry, actor, before, after, posted}) {
  const told = [];
  const add = deed => told.push(`${told.length ? 'It' : `Actor ${actor}`} ${deed}`);
  const rows = after.objects.slice(before.objects.length).map(object => object.thing);
  if (rows.length) add(`makes ${thingsInWords(rows)}.`);
  if (before.pinned !== after.pinned) add(after.pinned ? 'is pinned.' : 'is no longer pinned.');
  for (const other of run.entries[entry].touched) {
    if (seatAt(other, entry - 1)) continue;
    const kind = run.kinds[seatAt(other, entry).kind].name;
    add(`makes actor ${other}, a ${kind}, counted ${run.weight}, and holds as much of it.`);
  }
  for (const {to, letter} of posted) {
    if (letter.kind === 'inc') {
      const minted = thingsInWords(letter.amounts.map(({thing}) => thing));
      add(`mints: it holds ${run.weight} more of ${minted}, and an Inc tells actor ${to}.`);
      told.push('The next go does the same again.');
      continue;
    }
    const load = letter.loads.length ? `counts 1 of ${thingsInWords(letter.loads)}` : 'loads nothing';
    add(`posts ${call(letter)} to ${to === actor ? 'itself' : `actor ${to}`}. The letter ${load}.`);
  }
  for (const print of run.prints) if (print.at === entry) add(`prints ${named(print.value)}.`);
  if (!after.turn) add('ends its turn.');
  if (!told.length) add('goes on.');
  return told;
}

// The objects of actors that go.
function objectsInWords(freed, whom) {
  const objects = freed.filter(thing => thing[0] === 'o');
  return objects.length ? [`With ${whom} goes all that was left there: ${thingsInWords(objects)}.`] : [];
}

function collectInWords({actor, freed}) {
  const what = freed.length ? thingsInWords(freed) : 'nothing';
  return [`Actor ${actor} collects.`, `It frees ${what}.`];
}

function leaveInWords({actor, freed}) {
  const told = `Actor ${actor} leaves by itself: nobody holds it, and nothing waits for it.`;
  return [told, ...objectsInWords(freed, 'it')];
}

function blockInWords({actor, after}) {
  const held = after.holds.filter(({thing}) => thing[0] === 'a');
  const holds = held.length ? `holds ${amountsInWords(held)}` : 'holds no actor';
  return [`Actor ${actor} reports that it is blocked: count ${after.count}, ${holds}.`];
}

function hearInWords({then, now}) {
  const told = [`The detector hears the ${noteInWords(run.notes[then.heard])}.`];
  const isOpen = token => now.tokens.some(other => other.number === token.number);
  const lost = then.tokens.filter(token => !isOpen(token));
  if (lost.length) told.push(`Token ${listed(lost.map(token => token.number))} is cancelled.`);
  return now.news && !then.news ? told.concat('That is news.') : told;
}

function scanInWords({now, then}) {
  const told = [`The detector scans its ${counted(now.kept, 'report')}.`];
  const token = now.tokens.find(other => !then.tokens.some(old => old.number === other.number));
  if (!token) return told.concat('No set is closed.');
  const members = listed(token.members.map(member => `actor ${member.actor}`));
  return told.concat(`A closed set: token ${token.number} for ${members}, and a Confirm to each.`);
}

function reapInWords({number, freed}) {
  const actors = freed.filter(thing => thing[0] === 'a'), isOne = actors.length === 1;
  const go = `${thingsInWords(actors)} ${isOne ? 'goes' : 'go'}`;
  const told = `The detector reaps token ${number}, acknowledged by all: ${go}.`;
  return [told, ...objectsInWords(freed, isOne ? 'it' : 'them')];
}

const TELLERS = {
  take: takeInWords, go: goInWords, collect: collectInWords, leave: leaveInWords,
  block: blockInWords, hear: hearInWords, scan: scanInWords, reap: reapInWords,
};

// What goes back by the letters that a collection, a leave or a reap posts.
function givenBackInWords(posted) {
  const back = posted.filter(({letter}) => letter.kind === 'dec');
  const told = back.slice(0, 6).map(({to, letter}) =>
    `A Dec to actor ${to} gives back ${amountsInWords(letter.amounts)}.`);
  return back.length > 6 ? told.concat(`And ${counted(back.length - 6, 'more Dec')}.`) : told;
}

function entryInWords(entry) {
  if (entry === 0) return isRun ? 'The start: one actor of the first kind, and the letter start.' : '';
  const [event, number] = run.entries[entry].words;
  if (!Object.hasOwn(TELLERS, event)) return '';
  const actor = Number(number), posted = postedAt(entry);
  const told = TELLERS[event]({
    entry, number, actor, posted, before: seatAt(actor, entry - 1), after: seatAt(actor, entry),
    freed: freedAt(entry), then: detectorAt(entry - 1), now: detectorAt(entry),
  });
  return told.concat(givenBackInWords(posted)).join(' ');
}
