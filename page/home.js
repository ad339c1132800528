// The home view: games as cards, the most urgent first; challenges; events; finished games.
import { ask } from './server.js';
import { button, byId, fill, make } from './dom.js';
import { draughts } from './draughts.js';
import { ending } from './ends.js';
import { miniature } from './pieces.js';
import { perform } from './notices.js';
import { shogi } from './shogi.js';
import { DAY, moment, span, text } from './words.js';

const CHALLENGES = 9999;
const MINUTE = 60;
// For how many milliseconds the page does not ask again for what changes slowly: members, events, a long list of games.
export const LASTING = 300000;
let me = null;
// The members and events, and the time at which they were received.
let club = null;
let received = 0;
let unanswered = 0;
// Drawn positions by game, each with its ply.
const pictures = new Map();
// The replies that are painted, without the seconds.
let paintedHome = '';

const link = (view, name, words = name) => make('a', { href: `#${view}/${name}` }, words);
const isMine = (game) => game.turn === me.member;
const opponent = (game) => (game.first === me.member ? game.second : game.first);
export const secondsLeft = (game) => (game.deadline === null ? Infinity : game.deadline - me.moment);
// The minute of the last reply.
export const minute = () => Math.floor(me.moment / MINUTE);
const isOver = (game) => secondsLeft(game) < 0;
const eventOf = (event) => club.events.find((it) => it.event === event);
const kindOf = (event) => eventOf(event)?.game;
const rulesOf = ({ kind }) => (kind === 'shogi' ? shogi : draughts);
const toMe = (it) => it.state === 'open' && it.to === me.member;

// Order of the cards: games to claim, draw offers, games to move, then the others; each by the time left.
const GROUPS = ['toClaim', 'toAnswer', 'toMove', 'toWait'];
const [CLAIM, ANSWER, MOVE, WAIT] = GROUPS.keys();
const hasOffer = (game) => game.offer && game.offer !== me.member;
const rank = (game) => (isMine(game) ? MOVE : isOver(game) ? CLAIM : hasOffer(game) ? ANSWER : WAIT);
const waitingGames = () => me.games.filter((it) => rank(it) < WAIT);
const byUrgency = (one, other) => rank(one) - rank(other) || secondsLeft(one) - secondsLeft(other) || one.game - other.game;

function timeLeft(game) {
  if (game.deadline === null) return '';
  if (isOver(game)) return text(isMine(game) ? 'overMine' : 'overTheirs');
  return text('left', { span: span(secondsLeft(game)) });
}

// The drawn position of a game, from the side of the member.
function pictureOf(game) {
  if (pictures.get(game.game)?.ply !== game.ply) {
    const rules = rulesOf(game);
    const last = game.last ? rules.squares(game.last) : [];
    const near = game.second === me.member ? 1 : 0;
    pictures.set(game.game, { ply: game.ply, drawn: miniature(rules, rules.read(game.position), near, [last[0], last.at(-1)]) });
  }
  return pictures.get(game.game).drawn.cloneNode(true);
}

function card(game) {
  const own = game.first === me.member ? 0 : 1;
  const rules = rulesOf(game);
  const isLate = secondsLeft(game) < DAY;
  const words = (name, ...its) => make('span', { className: name }, ...its);
  const turn = isMine(game) ? text('yourTurn') : text('turn', { name: game.turn });
  return make('li', { className: `card${rank(game) < WAIT ? ' mine' : ''}` }, make('a', { href: `#game/${game.game}` },
    pictureOf(game),
    words('facts',
      words('who', opponent(game)),
      words('faint', `${game.event} \u00b7 ${text('youAre', { side: text(rules.sides[own]) })}`),
      words(isMine(game) ? 'turn mine' : 'turn', turn),
      make('span', { className: isLate ? 'left late' : 'left', title: moment(game.deadline) }, timeLeft(game)),
      ...(game.offer ? [words('tag', text('offers', { name: game.offer }))] : []))));
}

function group(name, games) {
  if (!games[0]) return [];
  return [make('h2', {}, `${text(name)} `, make('span', { className: 'count' }, String(games.length))),
    make('ul', { className: 'cards' }, ...games.map(card))];
}

function paintGames() {
  const sorted = me.games.toSorted(byUrgency);
  const parts = GROUPS.flatMap((name, at) => group(name, sorted.filter((it) => rank(it) === at)));
  const none = make('p', { className: 'panel empty' }, text('noGames'));
  fill('games', ...(parts[0] ? parts : [none]));
}

function answers({ event, from, number }) {
  const path = `answers/${from}/${number}`;
  const answer = (name, where, body, look) => {
    return button(text(name), () => perform(() => ask(where, body)), `${name} ${where}`, look);
  };
  return from === me.member
    ? [answer('withdraw', `challenges/${number}/withdraw`, {})]
    : [...(eventOf(event).open ? [answer('take', path, { accept: true }, 'main')] : []), answer('refuse', path, { accept: false })];
}

// Lists open challenges, and accepted ones whose game has just begun; and how many the server left out.
function paintChallenges() {
  const begun = (it) => me.games.find((game) => game.game === it.game && game.ply < 2);
  const shown = me.challenges.filter((it) => it.state === 'open' || begun(it)).sort((it, other) => toMe(other) - toMe(it));
  const row = (it) => make('li', { className: toMe(it) ? 'mine' : '' },
    make('span', {}, text(toMe(it) ? 'challengesYou' : 'challenged', it),
      make('span', { className: 'faint' }, ` ${text('starts', { ...it, game: text(kindOf(it.event)) })}`)),
    make('span', { className: 'answers' }, ...(it.state === 'open' ? answers(it)
      : [make('span', { className: 'tag good' }, text('accepted')), link('game', it.game, text('toGame'))])));
  const declined = me.refused.map((it) => make('li', {}, make('span', {}, text('challenged', it),
    make('span', { className: 'faint' }, ` ${text('starts', { ...it, game: text(kindOf(it.event)) })}`))));
  const folded = make('details', { id: 'declined', open: !!byId('declined')?.open },
    make('summary', {}, `${text('declined')} `, make('span', { className: 'count' }, String(declined.length))),
    make('ul', { className: 'rows' }, ...declined));
  const more = [['moreReceived', me.more.to], ['moreOwn', me.more.from]].filter(([, count]) => count)
    .map(([name, count]) => make('p', { className: 'faint' }, text(name, { count })));
  fill('challenges', ...(shown[0] ? [make('h2', {}, text('challenges')), make('ul', { className: 'rows' }, ...shown.map(row))] : []),
    ...more, ...(declined[0] ? [folded] : []));
}

function paintClub() {
  const terms = (it) => text(it.increment ? 'terms' : 'wholeGame', {
    game: text(it.game), budget: span(it.budget), increment: span(it.increment),
  });
  const row = (it) => make('li', {}, link('event', it.event), make('span', { className: 'faint' }, terms(it)),
    ...(it.open ? [] : [make('span', { className: 'tag' }, text(68))]));
  const open = club.events.filter((it) => it.open);
  fill('events', ...club.events.map(row));
  const others = club.members.filter((it) => it !== me.member);
  fill('other', ...others.map((it) => make('option', {}, it)));
  fill('cup', ...open.map((it) => make('option', { value: it.event }, text('eventGame', { event: it.event, game: text(it.game) }))));
  byId('challenge').hidden = !others[0] || !open[0];
}

// The member's finished games, the latest first. They are requested when the reader opens them.
async function lookAtEnded() {
  if (!byId('ended').open) return;
  const { games, more } = await ask('me/ended');
  const faint = (...words) => make('span', { className: 'faint' }, words.filter((it) => it).join(' \u00b7 '));
  const rows = games.map((it) => make('li', {}, link('game', it.game, opponent(it)),
    faint(it.event, ending(it, me.member), moment(it.ended))));
  fill('ended-games', rows[0] ? make('ul', { className: 'rows' }, ...rows) : make('p', { className: 'faint' }, text('noEnded')),
    ...(more ? [make('p', { className: 'faint' }, text('older', { count: more }))] : []));
}

// How many open challenges to the member there are.
const challengesToMe = () => me.challenges.filter(toMe).length + me.more.to;

// Requests the member's games and challenges; returns the member's name and the number of things that wait.
export async function lookAtMe() {
  me = await ask('me');
  return { member: me.member, waiting: waitingGames().length + challengesToMe() };
}

// The most urgent game, besides the one on the screen, that waits for the member; and how many there are.
export function nextGame(shown) {
  const others = waitingGames().filter((it) => it.game !== shown).sort(byUrgency);
  return { next: others[0], count: others.length };
}

// The items of notices: what waits for the member, and each running game, whose end is announced.
export function newsOf() {
  const item = (it, name, kind) => {
    const words = text(name, { name: opponent(it), event: it.event });
    return { tag: `${kind} ${it.game}`, words, place: `game/${it.game}`, end: kind === 'game' };
  };
  return [
    ...me.games.filter(isMine).map((it) => item(it, 'noticeTurn', `ply ${it.ply}`)),
    ...me.games.filter((it) => !isMine(it) && isOver(it)).map((it) => item(it, 'noticeOver', 'over')),
    ...me.games.filter(hasOffer).map((it) => item(it, 'noticeOffer', `offer ${it.ply}`)),
    ...me.games.map((it) => item(it, 'noticeEnded', 'game')),
    ...me.refused.map((it) => {
      return { tag: `declined ${it.number}`, words: text('noticeDeclined', { name: it.to, event: it.event }), place: '' };
    }),
    ...me.challenges.filter(toMe).map((it) => {
      return { tag: `challenge ${it.from} ${it.number}`, words: `${text('challengesYou', it)} ${it.event}`, place: '' };
    }),
  ];
}

// Requests the members and events, if the last reply is old or lacks one of these events.
export async function lookAtClub(names) {
  if (!club || names.some((it) => !kindOf(it)) || Date.now() - received > LASTING) {
    club = await ask('me/events');
    received = Date.now();
  }
  return club;
}

// Paints nothing if the replies are the same, up to the seconds, and no deadline is near.
export async function lookAtHome(_, mine) {
  await mine;
  await lookAtClub([...me.challenges, ...me.refused].map((it) => it.event));
  return () => {
    fill('title', text('home'));
    const isNear = me.games.some((it) => Math.abs(secondsLeft(it)) < 2 * MINUTE);
    const now = JSON.stringify([{ ...me, moment: isNear ? me.moment : minute() }, club, text('code')]);
    if (now === paintedHome) return;
    paintedHome = now;
    paintGames();
    paintChallenges();
    paintClub();
    lookAtEnded().catch(() => {});
    byId('news').textContent = text('news', { moves: me.games.filter(isMine).length, challenges: challengesToMe() });
  };
}

// A challenge has a number of the member's own, chosen at random; a number that was used before is replaced. The number
// stays until the server has answered, so that sending again is idempotent.
async function challenge(terms, tries = 3) {
  unanswered ||= Math.ceil(Math.random() * CHALLENGES);
  try {
    await ask(`challenges/${unanswered}`, terms);
    unanswered = 0;
  } catch (error) {
    if (error.number !== 58 || !tries) throw error;
    unanswered = 0;
    await challenge(terms, tries - 1);
  }
}

// The two starting positions beside the sign-in form.
export function paintWelcome() {
  const opening = (rules) => miniature(rules, rules.read(rules.opening), 0, []);
  fill('welcome', opening(draughts), opening(shogi));
  club = null;
  pictures.clear();
}

export function startHome() {
  byId('challenge').onsubmit = (event) => {
    event.preventDefault();
    const terms = { event: byId('cup').value, first: !byId('begins').selectedIndex, other: byId('other').value };
    perform(() => challenge(terms));
  };
  byId('ended').ontoggle = () => lookAtEnded().catch(() => {});
}
