// Elements. What is drawn is told as descriptions, and an element is filled anew only where its
// description is another. Words of the data become texts and attributes, never markup.

const SVG = 'http://www.w3.org/2000/svg';
const described = new WeakMap();

const byId = id => document.getElementById(id);

// Children are elements, texts and lists of these; what is empty is left out.
const listOf = children => children.flat(Infinity).filter(child => child || child === 0);
const element = (name, attributes, ...children) => ({name, attributes, children: listOf(children)});

const text = (x, y, words, look = '', attributes = {}) =>
  element('text', {x, y, class: look, ...attributes}, words);
const rect = (x, y, width, height, look, attributes = {}) =>
  element('rect', {x, y, width, height, class: look, ...attributes});
const path = (d, look) => element('path', {d, class: look});
const AT_MIDDLE = {'text-anchor': 'middle'}, AT_END = {'text-anchor': 'end'};

// A drawn thing, which can be clicked, or reached by Tab.
const choosable = (thing, label, ...children) =>
  element('g', {'data-thing': thing, tabindex: 0, role: 'button', 'aria-label': label}, children);

function build(child, space) {
  if (typeof child !== 'object') return document.createTextNode(child);
  const inner = child.name === 'svg' ? SVG : space;
  const made = document.createElementNS(inner, child.name);
  for (const [name, value] of Object.entries(child.attributes)) made.setAttribute(name, value);
  for (const below of child.children) made.append(build(below, inner));
  return made;
}

// Shows these children in an element, and no others.
function put(parent, ...told) {
  const children = listOf(told);
  const description = JSON.stringify(children);
  if (described.get(parent) === description) return;
  described.set(parent, description);
  parent.replaceChildren();
  for (const child of children) parent.append(build(child, parent.namespaceURI));
}

// Gives an element one child of a name for each of the rows, and shows each row in its own.
function putEach(parent, name, rows) {
  while (parent.childElementCount > rows.length) parent.lastElementChild.remove();
  while (parent.childElementCount < rows.length) {
    parent.append(build(element(name, {}), parent.namespaceURI));
  }
  let child = parent.firstElementChild;
  for (const row of rows) {
    put(child, row);
    child = child.nextElementSibling;
  }
}
