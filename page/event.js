// The view of an event: its standings as a cross table, and its games.
import { button, byId, fill, make } from './dom.js';
import { reason } from './ends.js';
import { LASTING, lookAtClub, minute, secondsLeft } from './home.js';
import { ask } from './server.js';
import { span, text } from './words.js';

const POINTS = { '2-0': [2, 0], '1-1': [1, 1], '0-2': [0, 2] };
const pair = (game) => `${game.first} \u2013 ${game.second}`;
const score = (game) => text('score', { pair: pair(game), result: game.result ?? text('running') });
// A table of more entrants has no columns of single games.
const WIDEST = 40;
const STEP = 50;
const FEW = 10;
// An event of more games is not asked for at each look.
const MANY = 500;
// The event on the screen and its replies, the function that paints its games again, and how many rows of each list are shown.
let seenEvent = '';
let seenReplies = '';
let repaint = () => {};
// The last replies for an event, and the time at which they were received.
let held = { games: [], standings: [] };
let shownRows = {};

// The columns after those of single games: what the server calls them, their heads, and the titles of these.
const sums = (isRunning) => [
  ...[['games', 'played'], ['wins', 'wins'], ['draws', 'draws'], ['losses', 'losses']].map(([key, head]) => [key, text(head)]),
  ['sonneborn_berger', 'SB', text('sonnebornBerger')],
  ...(isRunning ? [['running', text('inProgress')]] : []),
];

// How a game ended; or whose turn it is, and the time left.
function outcome(game) {
  if (game.end) return [reason(game)];
  const seconds = secondsLeft(game);
  const left = seconds < 0 ? text('over') : seconds < Infinity ? text('left', { span: span(seconds) }) : '';
  return [text('turn', { name: game.turn }), left];
}

// A key for a pair of players, in either order.
const both = (one, other) => [one, other].sort().join(' ');

function cell(games, name) {
  return make('td', { className: 'cell' }, ...games.map((it) => make('a', {
    href: `#game/${it.game}`,
    title: score(it),
    ariaLabel: `${text('game')} ${it.game}${text('comma')}${score(it)}`,
    className: it.end ? '' : 'running',
  }, it.end ? String(POINTS[it.result][it.first === name ? 0 : 1]) : '\u2022')));
}

function crossTable(standings, games, reader) {
  const byPairs = {};
  for (const it of games) (byPairs[both(it.first, it.second)] ??= []).push(it);
  const head = (label, title = '') => make('th', { scope: 'col', title }, label);
  const columns = standings.length > WIDEST ? [] : standings;
  const counts = sums(games.some((it) => !it.end));
  const cells = (row) => columns.map((other) => {
    return other === row ? make('td', { className: 'self' }) : cell(byPairs[both(row.member, other.member)] ?? [], row.member);
  });
  return make('table', { className: 'cross' },
    make('thead', {}, make('tr', {}, head('', text('place')), head(text('name')), head(text('points')),
      ...columns.map((it) => head(String(it.place), it.member)), ...counts.map(([, ...it]) => head(...it)))),
    make('tbody', {}, ...standings.map((row) => make('tr', { className: row.member === reader ? 'mine' : '' },
      make('td', {}, String(row.place)), make('th', { scope: 'row' }, row.member),
      make('td', { className: 'points' }, String(row.points)), ...cells(row),
      ...counts.map(([key]) => make('td', {}, String(row[key])))))));
}

const moveCount = (count) => {
  return text(new Intl.PluralRules(text('code')).select(count) === 'one' ? 'oneMove' : 'moveCount', { count });
};

// A list of the games that match the search by a player's name, the reader's own first, cut after so many rows.
function list(name, all, reader, kind) {
  const sought = byId('search').value.trim().toLowerCase();
  const isOwn = (it) => [it.first, it.second].includes(reader);
  const games = all.filter((it) => pair(it).toLowerCase().includes(sought)).sort((it, other) => isOwn(other) - isOwn(it));
  if (!games[0]) return [];
  const count = shownRows[name] ?? STEP;
  const more = () => {
    shownRows[name] = count + STEP;
    repaint();
  };
  const words = (...some) => some.filter((it) => it).join(' \u00b7 ');
  const row = (it) => make('li', { className: isOwn(it) ? 'mine' : '' },
    make('span', {}, make('span', { className: 'number', ariaHidden: true }, `${it.game}`), make('a', { href: `#game/${it.game}` }, pair(it))),
    make('span', { className: 'faint' }, words(moveCount(kind === 'draughts' ? Math.ceil(it.ply / 2) : it.ply), ...outcome(it))),
    make('b', {}, it.result ?? ''));
  return [make('h2', {}, `${text(name)} `, make('span', { className: 'count' }, String(games.length))),
    make('ul', { className: 'rows' }, ...games.slice(0, count).map(row)),
    ...(games.length > count ? [button(text('more', { count: games.length - count }), more, name)] : [])];
}

function paintLists(games, reader, kind) {
  const lists = [['runningGames', games.filter((it) => !it.end)], ['endedGames', games.filter((it) => it.end)]];
  const found = lists.flatMap(([name, some]) => list(name, some, reader, kind));
  fill('event-games', ...(found[0] || !games[0] ? found : [make('p', { className: 'faint', role: 'status' }, text('none'))]));
}

export function startEvent() {
  byId('search').oninput = () => repaint();
}

async function requestEvent(name) {
  const { games } = await ask(`events/${name}/games`);
  const { standings } = await ask(`events/${name}/standings`);
  held = { standings, games, at: Date.now() };
}

// `isShown` says whether the event is on the screen.
export async function lookAtEvent(name, _, isShown) {
  if (!isShown || held.games.length <= MANY || Date.now() - held.at > LASTING) await requestEvent(name);
  const { standings, games } = held;
  const { events } = await lookAtClub([name]);
  return (reader) => {
    const kind = events.find((it) => it.event === name)?.game;
    fill('title', name);
    const now = JSON.stringify([name, standings, games, kind, reader, minute(), text('code')]);
    if (now === seenReplies) return;
    seenReplies = now;
    fill('about', `${text(kind)} \u00b7 ${text('scoring')}`);
    fill('standings', ...(games[0] ? [crossTable(standings, games, reader)] : [make('p', { className: 'empty' }, text('noGamesYet'))]));
    if (name !== seenEvent) {
      byId('search').value = '';
      shownRows = {};
    }
    seenEvent = name;
    byId('search-games').hidden = games.length <= FEW;
    repaint = () => paintLists(games, reader, kind);
    repaint();
  };
}
