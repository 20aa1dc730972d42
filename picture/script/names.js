// Things, values, letters and notes, in signs and in words.

const isThing = value => value[0] === 'a' || value[0] === 'o';
const ownerOf = thing => parseInt(thing.slice(1), 10);
const actorNamed = actor => 'a' + actor;

// A value as it stands in a box.
function sign(value) {
  if (value === '-') return 'null';
  if (value[0] === 'a') return '\u25CF' + value.slice(1);
  if (value[0] === 'o') return '\u25A0' + value.slice(1);
  return value;
}

// A value as it stands in a sentence.
function named(value) {
  if (value === '-') return 'null';
  if (value[0] === 'a') return 'actor ' + value.slice(1);
  if (value[0] === 'o') return 'object ' + value.slice(1);
  return value;
}

const counted = (number, word) => `${number} ${word}${number === 1 ? '' : 's'}`;
const shortened = (words, length) =>
  words.length > length ? words.slice(0, Math.max(0, length - 1)) + '\u2026' : words;

// These in a sentence; of many the first ones.
function listed(items) {
  if (items.length > 14) return `${items.slice(0, 12).join(', ')} and ${items.length - 12} more`;
  if (items.length < 2) return items.join('');
  return `${items.slice(0, -1).join(', ')} and ${items[items.length - 1]}`;
}

const thingsInWords = things => listed(things.map(named));
const amountsInWords = pairs =>
  listed(pairs.map(({thing, amount}) => `${amount} of ${named(thing)}`));

// A letter as a call: a behaviour with its arguments, or one of the collector's own.
function call(letter) {
  if (letter.kind === 'letter') return `${letter.name}(${letter.args.map(sign).join(', ')})`;
  if (letter.kind === 'confirm') return `Confirm ${letter.token}`;
  const [name, side] = letter.kind === 'inc' ? ['Inc', '+'] : ['Dec', '\u2212'];
  const amounts = letter.amounts.map(({thing, amount}) => `${side}${amount} ${sign(thing)}`);
  return [name, ...amounts].join(' ');
}

const callWithLoad = letter =>
  call(letter) + (letter.loads.length ? ` \u00B7 loads ${letter.loads.map(sign).join(' ')}` : '');

// A note to the detector; its words are those of the data.
function noteInWords([kind, first, second, ...held]) {
  if (kind === 'unblock') return `Unblock of actor ${first}`;
  if (kind === 'ack') return `Ack of token ${first} by actor ${second}`;
  const holds = held.length ? `, holds ${amountsInWords(heldPairs(held))}` : '';
  return `Block of actor ${first} (count ${second}${holds})`;
}

const noteInShort = ([kind, first]) =>
  kind === 'ack' ? `Ack ${first}` : kind === 'block' ? 'Block' : 'Unblock';

// What a report says of other actors, whose numbers stand before the amounts.
const heldPairs = words => pairsOf(words.map((word, n) => n % 2 ? word : actorNamed(word)));
