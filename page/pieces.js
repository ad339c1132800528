// Drawings: discs of draughts, two with a crown for a king; five-cornered pieces of shogi with kanji or a letter; small
// boards; icons.
import { draw } from './dom.js';
import { STROKES } from './kanji.js';

const CROWN = 'M32 62 29 37l12 9 9-15 9 15 12-9-3 25z';
const LETTERS = {
  K: 'M-16-24V24M16-24L-14 2M-5-6L17 24',
  R: 'M-15 24V-24H4Q16-24 16-11T4 2H-15M2 2L17 24',
  B: 'M-15 0H3Q16 0 16 12T3 24H-15V-24H2Q13-24 13-12T2 0',
  G: 'M16-13Q11-25-1-25-18-25-18 0T0 25Q16 25 17 9V2H2',
  S: 'M14-15Q10-25-1-25-14-25-14-13-14-2 0 0 15 2 15 13 15 25 0 25-13 25-15 14',
  N: 'M-16 24V-24L16 24V-24',
  L: 'M-12-24V24H15',
  P: 'M-14 24V-24H3Q16-24 16-10T3 4H-14',
};
// Sizes of shogi pieces relative to the king, and the outline of a piece.
const SIZES = { K: 1, R: 0.97, B: 0.97, G: 0.93, S: 0.93, N: 0.89, L: 0.87, P: 0.83 };
const corners = 'M50 5 78 17 90 94H10L22 17Z';
const thick = 'M10 94H90V99H10Z';

function disc(kind) {
  const at = (cy, r, name) => draw('circle', { cx: 50, cy, r, class: name });
  const single = [at(55, 39, 'rim'), at(51, 39, 'face'), at(51, 29, 'ring')];
  if (kind !== 'king') return single;
  return [at(58, 39, 'rim'), at(54, 39, 'face'), at(49, 39, 'rim'), at(45, 39, 'face'),
    draw('path', { d: CROWN, class: 'crown', transform: 'translate(0 -3)' })];
}

function sign(kind, side, letters, turned) {
  if (!letters) {
    const d = STROKES[kind === 'K' && side ? 'k' : kind];
    return draw('path', { d, class: 'sign', transform: 'translate(23 31) scale(.54)' });
  }
  const plus = kind[1] ? 'M-34 0H-20M-27-7V7' : '';
  const place = `translate(${kind[1] ? 56 : 50} 60)${turned ? 'rotate(180)' : ''} scale(.9)`;
  return draw('path', { d: plus + LETTERS[kind.at(-1)], class: 'sign', transform: turned ? place.replace('56', '44') : place });
}

function wood(kind, side, turned, letters) {
  const size = SIZES[kind.at(-1)];
  const place = `${turned ? 'rotate(180 50 50)' : ''}translate(${50 - 50 * size} ${52 - 50 * size}) scale(${size})`;
  return [draw('g', { transform: place }, draw('path', { d: thick, class: 'rim' }), draw('path', { d: corners, class: 'face' }),
    sign(kind, side, letters, turned))];
}

// A piece of a kind and a side; a `turned` one points down.
export function picture(kind, side, turned, letters) {
  const parts = kind[2] ? disc(kind) : wood(kind, side, turned, letters);
  const look = `piece side${side}${kind[0] === '+' ? ' promoted' : ''}${kind[2] ? ' disc' : ''}`;
  return draw('svg', { viewBox: '0 0 100 100', class: look, 'aria-hidden': true }, ...parts);
}

// A small drawing of a position, seen from the side `near`.
export function miniature(rules, { board }, near, last) {
  const isShogi = !!rules.hand[0];
  const size = isShogi ? 9 : 10;
  const shapes = { dark: '', last: '', one: '', other: '', kings: '' };
  const rows = isShogi ? rules.rows : rules.rows.map((row, down) => row.flatMap((it) => (down % 2 ? [it, ''] : ['', it])));
  rows.forEach((row, down) => row.forEach((square, right) => {
    const [x, y] = near ? [size - 1 - right, size - 1 - down] : [right, down];
    const piece = board[square];
    if (square) shapes[last.includes(square) ? 'last' : 'dark'] += `M${x} ${y}h1v1h-1z`;
    if (!piece) return;
    const side = rules.side(piece);
    const flip = side === near ? 1 : -1;
    const shape = isShogi
      ? `M${x + 0.5} ${y + 0.5 - 0.42 * flip}l${0.27 * flip} ${0.14 * flip} ${0.1 * flip} ${0.68 * flip}h${-0.74 * flip}l${0.1 * flip} ${-0.68 * flip}z`
      : `M${x + 0.12} ${y + 0.5}a.38.38 0 1 0 .76 0a.38.38 0 1 0-.76 0z`;
    shapes[(isShogi ? side === near : !side) ? 'one' : 'other'] += shape;
    if (isShogi ? piece[1] : rules.kind(piece) === 'king') shapes.kings += `M${x + 0.35} ${y + 0.5}a.15.15 0 1 0 .3 0a.15.15 0 1 0-.3 0z`;
  }));
  const parts = Object.entries(shapes).map(([name, d]) => draw('path', { d, class: name }));
  const lines = isShogi ? [draw('path', { d: Array.from({ length: 8 }, (_, at) => `M${at + 1} 0v9M0 ${at + 1}h9`).join(''), class: 'lines' })] : [];
  parts.splice(2, 0, ...lines);
  return draw('svg', { viewBox: `0 0 ${size} ${size}`, class: `mini ${isShogi ? 'shogi' : 'draughts'}`, 'aria-hidden': true }, ...parts);
}

const ICONS = {
  start: 'M5 4V20M19 4L9 12 19 20Z',
  back: 'M17 4L7 12 17 20Z',
  on: 'M7 4L17 12 7 20Z',
  present: 'M19 4V20M5 4L15 12 5 20Z',
  flip: 'M8 20V5M8 4L4 9M8 4L12 9M16 4V19M16 20L12 15M16 20L20 15',
  settings: 'M3 7H10M16 7H21M3 17H6M12 17H21M13 4V10M9 14V20',
  record: 'M12 4V15M12 15L7 10M12 15L17 10M4 20H20',
};

export const icon = (name) => draw('svg', { viewBox: '0 0 24 24', class: 'icon', 'aria-hidden': true }, draw('path', { d: ICONS[name] }));
