// What `check` asks of a page that it has opened. It reads what stands there, and knows nothing
// of the page's script.

// The numbers that the page shows now.
function shown() {
  const all = (from, selector, read) => [...from.querySelectorAll(selector)].map(read);
  const words = it => it.textContent;
  const boxes = all(document, '#stage g[data-thing]', it => it);
  const present = boxes.filter(it => !it.querySelector('.struck'));
  return {
    entry: Number(words(document.querySelector('#step b'))),
    event: words(document.querySelector('#event')),
    totals: Object.fromEntries(all(document, '#totals span', it =>
      [it.firstChild.data.trim(), Number(words(it.lastChild))])),
    counts: all(document, '#counts tbody tr', row => all(row, 'td', words).join(' ')),
    prints: all(document, '#prints div', words),
    printed: words(document.querySelector('#printed')),
    drawn: present.map(it => `${it.dataset.thing} ${words(it.querySelector('.count'))}`),
    places: all(document, '#stage g[data-thing^="a"] .card', it =>
      [it.parentNode.dataset.thing, it.getAttribute('x'), it.getAttribute('y')].join(' ')),
  };
}

// How many milliseconds a step takes on a clock, with its layout, for so many steps at the middle.
function stepTimes(most) {
  const slider = document.querySelector('#slider'), steps = Math.min(most, Number(slider.max));
  slider.value = Math.floor((slider.max - steps) / 2);
  slider.dispatchEvent(new Event('input'));
  return Array.from({length: steps}, () => {
    const began = performance.now();
    document.body.dispatchEvent(new KeyboardEvent('keydown', {key: 'ArrowRight', bubbles: true}));
    document.querySelector('#stage').getBoundingClientRect();
    return performance.now() - began;
  });
}
