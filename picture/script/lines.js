// Lines between boxes: each is a path, where its tip is and to which side it points, and its
// middle.

// Where the detector's strip ends below.
const STRIP_END = 34;

const sideOf = (slot, isRight) => isRight ? slot.x + WIDTH : slot.x;

// Is there a gutter at the right of a column in which a line to the same column may go?
const bowsRight = column => column < layout.columns - 1 || layout.columns === 1;

// The tip of a line that goes to a side, or upwards.
const tipOf = ({tip: [x, y], side}, look) => path(`M${x} ${y}l${-7 * side} -3.5v7z`, `tip ${look}`);
const tipUp = ({tip: [x, y]}, look) => path(`M${x} ${y}l-3.5 7h7z`, `tip ${look}`);

// Within one box, at the side where no other lines go.
function loopIn(slot, fromY, toY) {
  const isRight = !bowsRight(slot.column), x = sideOf(slot, isRight), side = isRight ? 1 : -1;
  const out = x + side * Math.min(12, 5 + Math.abs(fromY - toY) * .06);
  return {
    d: `M${x} ${fromY}C${out} ${fromY} ${out} ${toY} ${x} ${toY}`,
    tip: [x, toY], side: -side, middle: [out, (fromY + toY) / 2],
  };
}

// Between full boxes of one column or of two beside each other, by the gutter.
function bow(from, fromY, to, toY) {
  const isSame = from.column === to.column;
  const isRight = isSame ? bowsRight(from.column) : from.column < to.column;
  const x = sideOf(from, isRight), side = isRight ? 1 : -1;
  const toX = sideOf(to, isSame ? isRight : !isRight);
  const bend = isSame
    ? Math.min(layout.gutter * .42, 16 + Math.abs(fromY - toY) * .16)
    : Math.max(24, Math.abs(toX - x) * .45);
  const out = x + side * bend, into = isSame ? toX + side * bend : toX - side * bend;
  return {
    d: `M${x} ${fromY}C${out} ${fromY} ${into} ${toY} ${toX} ${toY}`,
    tip: [toX, toY], side: isSame ? -side : side,
    middle: [(x + 3 * out + 3 * into + toX) / 8, (fromY + toY) / 2],
  };
}

// A path by corners, which are rounded.
function rounded(corners) {
  const d = ['M' + corners[0]];
  for (let n = 1; n < corners.length - 1; n++) {
    const [x, y] = corners[n];
    const ways = [corners[n - 1], corners[n + 1]].map(([otherX, otherY]) => [otherX - x, otherY - y]);
    const r = Math.min(7, ...ways.map(([wayX, wayY]) => Math.hypot(wayX, wayY) / 2));
    const [before, after] = ways.map(([wayX, wayY]) =>
      [x + Math.sign(wayX) * r, y + Math.sign(wayY) * r]);
    d.push(`L${before}Q${x} ${y} ${after}`);
  }
  return d.join('') + 'L' + corners[corners.length - 1];
}

// Between small boxes or far columns, along the gutters and the gaps between rows. Lines of
// different places are moved apart a little.
function route(from, fromY, to, toY) {
  const isRight = !isFull || from.column < to.column, side = isRight ? 1 : -1;
  const apart = (from.place * 7 % 5 - 2) * 3, out = side * layout.gutter / (isFull ? 4 : 2);
  const x = sideOf(from, isRight), outX = x + out + apart;
  const toX = sideOf(to, !isRight), inX = toX - out + apart;
  if (to.column === from.column + 1) {
    const corners = [[x, fromY], [outX, fromY], [outX, toY], [toX, toY]];
    return {d: rounded(corners), tip: [toX, toY], side, middle: [outX, (fromY + toY) / 2]};
  }
  const between = to.y < from.y ? to.y + to.height + 9 : to.y - 9;
  const gap = isFull ? TOP + 11 + apart : between + apart / 2;
  const corners = [[x, fromY], [outX, fromY], [outX, gap], [inX, gap], [inX, toY], [toX, toY]];
  return {d: rounded(corners), tip: [toX, toY], side, middle: [(outX + inX) / 2, gap]};
}

function lineBetween(from, fromY, to, toY) {
  const isBow = isFull && Math.abs(from.column - to.column) <= 1;
  return isBow ? bow(from, fromY, to, toY) : route(from, fromY, to, toY);
}

// To the detector, whose strip is above all boxes, or from there.
function lineUp(slot, y, isDown) {
  const isRight = bowsRight(slot.column), side = isRight ? 1 : -1;
  const x = sideOf(slot, isRight), aside = x + side * layout.gutter / 2;
  return {
    d: `M${x} ${y}Q${aside} ${y} ${aside} ${STRIP_END}`, middle: [aside, (y + STRIP_END) / 2],
    tip: isDown ? [x, y] : [aside, STRIP_END], side: -side,
  };
}
