// The view of a game: its board, its moves to step through, and the reader's actions.
import { drawRoutes, focusOn, layBoard, paintBoard, slide, startBoard } from './board.js';
import { ask, request } from './server.js';
import { button, byId, fill, make } from './dom.js';
import { draughts } from './draughts.js';
import { ending } from './ends.js';
import { nextGame } from './home.js';
import { answerOf, lookAgain, perform } from './notices.js';
import { icon, picture } from './pieces.js';
import { shogi } from './shogi.js';
import { chosen } from './storage.js';
import { deliver, settle, tellUnsent } from './unsent.js';
import { clockFace, DAY, isJapanese, kindName, moment, span, text } from './words.js';

const BUTTONS = { start: -1000, back: -1, on: 1, present: 1000 };
let reader = '';
// The server's replies, and the time at which they were received.
let game = null;
let clock = null;
let told = 0;
let legal = [];
let rules = draughts;
// The position after each number of plies, each move as text, and the number of plies on the screen (null: all).
let positions = [];
let written = [];
let ply = null;
let isFlipped = false;
// The square of the touched piece; the move that waits for confirmation; the move that was sent and not answered.
let touched = null;
let waiting = null;
let sent = null;
// The analysis: the plies of the game before the moves that are tried, these moves, and the server's reply to them.
// No move of it is ever sent as a move.
let study = null;
// The requests for an analysis so far. Only the reply to the last one counts.
let explored = 0;
// The replies that are painted, without the seconds.
let paintedGame = '';
// The game and the number of plies that the board shows, so that one step is animated.
let seen = {};

const players = () => [game.first, game.second];
const own = () => players().indexOf(reader);
const near = () => ((own() === 1) !== isFlipped ? 1 : 0);
const isMyTurn = () => game && !game.end && own() === game.ply % 2;
const plies = () => (study ? study.at + study.moves.length : ply ?? game.ply);
// The side whose pieces can be touched.
const mover = () => (study ? plies() % 2 : own());
const first = (move) => rules.squares(move)[0];
const target = (move) => rules.squares(move).at(-1);
const tried = () => (ply === null && !study ? waiting ?? sent : null);
const playable = () => (study ? study.legal : isMyTurn() && ply === null && !tried() ? legal : []);
const movesOf = (from, to) => playable().filter((it) => first(it) === from && target(it) === to);
const isOpen = () => game && !byId('game').hidden;
const passed = () => (Date.now() - told) / 1000;
const timeOf = (side) => clock.now[side] - (clock.turn === players()[side] ? passed() : 0);
const isOverdue = () => clock.deadline !== null && clock.moment + passed() > clock.deadline;

// A move in the notation of the reader's language.
function spell(at, move = game.moves[at]) {
  if (rules === draughts) return move;
  if (isJapanese()) return shogi.writtenInJapan(positions[at], move, at % 2, game.moves[at - 1]);
  return shogi.written(positions[at], move, at % 2);
}

// The same for a move that is tried.
function spellTried(move) {
  if (rules === draughts) return move;
  const before = study.moves.at(-1) ?? game.moves[plies() - 1];
  if (isJapanese()) return shogi.writtenInJapan(study.position, move, mover(), before);
  return shogi.written(study.position, move, mover());
}

// Asks a question in a dialog and resolves to the index of the option taken. `seenAt` gets the index under the pointer or
// the focus. If there is one option, Cancel has the focus, so that a second Enter does nothing.
function choose(question, options, seenAt = () => {}, looks = 'main') {
  const dialog = byId('dialog');
  byId('question').textContent = question;
  return new Promise((taken) => {
    byId('options').replaceChildren(...[...options, text('cancel')].map((option, at) => {
      const made = button(option, () => {
        taken(at);
        dialog.close();
      }, '', at < options.length ? looks : '');
      made.onfocus = made.onpointerenter = () => seenAt(at);
      made.autofocus = options.length === 1 && at === 1;
      return made;
    }));
    dialog.onclose = () => taken(options.length);
    dialog.showModal();
  });
}

function paintPosition() {
  const trial = tried();
  const before = study?.position ?? positions[plies()];
  const position = trial ? rules.play(before, trial, game.ply % 2) : before;
  const last = trial ?? study?.moves.at(-1) ?? game.moves[plies() - 1];
  const checked = rules.checked?.(position, (plies() + !!trial) % 2);
  const mustTake = playable()[0]?.includes('x');
  const marks = {
    last: last ? [first(last), target(last)].filter((it) => it[1] !== '*') : [],
    tried: waiting && trial ? [target(trial)] : [],
    touched: [touched],
    target: playable().filter((it) => first(it) === touched).map(target),
    movable: playable().map(first),
    check: checked ? [checked] : [],
  };
  byId('board').className = mustTake ? 'must' : '';
  byId('play').classList.toggle('study', !!study);
  paintBoard(position, { rules, near: near(), own: mover(), letters: chosen('letters'), marks });
  drawRoutes(trial && rules.squares(trial).length > 2 ? [rules.squares(trial)] : [], 0);
  const now = { game: game.game, count: plies() + !!trial };
  if (now.game === seen.game && now.count - seen.count === 1) slide(first(last), target(last));
  const undone = !study && game.moves[now.count];
  if (now.game === seen.game && seen.count - now.count === 1 && undone && !trial) slide(target(undone), first(undone));
  seen = now;
}

function paintPlayer(id, side) {
  const name = players()[side];
  const dot = make('span', { className: `dot side${side}`, ariaHidden: true });
  fill(`${id}-player`, make('b', {}, dot, name), make('span', { className: 'faint' }, text(rules.sides[side])));
  const isTurn = !game.end && game.ply % 2 === side;
  byId(id).className = `player${isTurn ? ' turn' : ''}`;
}

// The clocks run on between two requests.
function tick() {
  if (!isOpen()) return;
  for (const [id, side] of [['near', near()], ['far', 1 - near()]]) {
    const face = byId(`${id}-clock`);
    const words = clockFace(timeOf(side));
    if (face.textContent !== words) face.textContent = words;
    const isLow = clock.turn === players()[side] && timeOf(side) < DAY;
    face.className = `clock${isLow ? ' low' : ''}`;
  }
}

// The status line: whose turn and deadline; the end; or the move of an earlier position.
function state() {
  const at = plies();
  if (study) return [make('b', {}, text('analysis')), ` ${[...study.words, study.end && text(study.end)].filter(Boolean).join(text('comma'))}`];
  const move = at && text('moved', { name: players()[(at + 1) % 2], move: spell(at - 1) });
  if (ply !== null) return [move || text('atStart')];
  if (game.end) {
    const isMate = !!rules.checked?.(positions[at], at % 2);
    return [make('b', {}, ending({ ...game, isMate }, reader)), ...(move ? [` ${move}`] : [])];
  }
  const turn = isMyTurn() ? text('yourTurn') : text('turn', { name: players()[at % 2] });
  if (waiting && tried()) return [make('b', {}, turn)];
  const until = clock.deadline === null ? '' : isOverdue() ? text(isMyTurn() ? 'overMine' : own() < 0 ? 'overOther' : 'overTheirs')
    : text('until', { moment: moment(clock.deadline), left: text('left', { span: span(clock.deadline - clock.moment) }) });
  return [make('b', {}, turn), ` ${until}`, ...(move ? [make('span', { className: 'faint' }, ` ${move}`)] : [])];
}

// The hint before a move: confirmation, an offer, an earlier position, a forced capture or a check.
function hint() {
  if (study) return text('analysisHint');
  const trial = waiting && tried();
  if (trial) return text('confirmHint', { move: spell(game.ply, trial) });
  if (sent) return text('sending');
  if (game.offer && !game.end) return text(game.offer === reader ? 'yourOffer' : 'offers', { name: game.offer });
  if (!playable()[0]) return ply === null ? '' : text('earlier');
  if (legal[0].includes('x')) return text('mustTake');
  return rules.checked?.(positions[game.ply], own()) ? text('inCheck') : '';
}

// A button whose action is confirmed in a dialog.
function action(name, path, looks = '') {
  return button(text(name), async () => {
    if (await choose(text('sure', { what: text(name) }), [text(name)], undefined, `main ${looks}`) === 0) perform(() => ask(path, {}));
  }, path, looks);
}

function actions() {
  const next = game.ply + 1;
  const found = [];
  const may = (name, end, looks) => found.push(action(name, `games/${game.game}/${end}`, looks));
  if (game.end || own() < 0 || study) return found;
  if (game.offer && game.offer !== reader) may('accept', `draw/${next}/accept`, 'main');
  if (!isMyTurn() && isOverdue()) may('claim', 'claim-time', 'main');
  if (isMyTurn() && rules.hasEntered?.(positions[game.ply], own())) may('declare', `declare/${next}`);
  if (rules === draughts && !game.offer) may('offer', `draw/${next}/offer`);
  may('resign', 'resign', 'danger');
  if (!isMyTurn()) Object.assign(found.at(-1), { disabled: true, title: text('resignWhen') });
  return found;
}

function paintMoves() {
  const list = byId('moves');
  const step = (at) => {
    const made = button(written[at], () => (study ? explore(at + 1) : stepTo(at + 1)), String(at + 1));
    if (written[at] !== game.moves[at]) made.title = game.moves[at];
    return make('li', { value: at + 1 }, made);
  };
  list.className = rules === draughts ? 'pairs' : isJapanese() ? 'plies wide-signs' : 'plies';
  const old = list.querySelector('[aria-current]');
  old?.removeAttribute('aria-current');
  fill('moves', ...game.moves.map((_, at) => step(at)));
  const current = list.children[(study?.at ?? plies()) - 1]?.firstChild;
  if (current) current.ariaCurrent = true;
  if (current !== old || !current) list.scrollTop = current ? current.offsetTop - list.clientHeight / 2 : 0;
}

function paintSteps() {
  const made = Object.entries(BUTTONS).map(([name, by]) => {
    const step = button(icon(name), () => stepTo(plies() + by), name);
    const at = by < 0 ? plies() > 0 : study ? !study.moves[0] && study.at < game.ply : ply !== null;
    return Object.assign(step, { ariaLabel: text(name), title: text(name), ariaDisabled: !at });
  });
  const flip = button(icon('flip'), turnBoard, 'flip');
  fill('steps', ...made, Object.assign(flip, { ariaLabel: text('flip'), title: text('flip'), ariaPressed: isFlipped }));
}

function paint() {
  paintPosition();
  paintPlayer('far', 1 - near());
  paintPlayer('near', near());
  tick();
  written = game.moves.map((_, at) => spell(at));
  fill('title', `${text('game')} ${game.game}${text('comma')}`, make('a', { href: `#event/${game.event}` }, game.event));
  fill('state', ...state());
  fill('hint', hint());
  const isWaiting = !!(waiting && tried());
  byId('confirm').hidden = !isWaiting && !study;
  byId('confirm').dataset.move = isWaiting ? spell(game.ply, waiting) : '';
  fill('confirm', ...(study ? [button(text('backToGame'), () => explore(null), 'leave', 'main'), button(text('undo'), () => stepTo(plies() - 1), 'undo')] : isWaiting ? [button(text('confirm'), () => send(waiting), 'confirm', 'main'), button(text('takeBack'), () => takeBack(), 'back')] : []));
  const found = actions();
  const isUrgent = (it) => it.className === 'main';
  fill('urgent', ...found.filter(isUrgent));
  fill('actions', ...found.filter((it) => !isUrgent(it)));
  const { next, count } = nextGame(game.game);
  const isFree = next && !isMyTurn() && !study;
  fill('next', ...(isFree ? [make('a', { href: `#game/${next.game}`, className: 'button' }, text('nextGame', { count }))] : []));
  paintSteps();
  paintMoves();
  const words = make('span', {}, icon('record'), ` ${text('record')}`);
  const opener = Object.assign(button(text('analyse'), () => explore(plies()), 'analyse'), { id: 'analyse', hidden: !!study });
  fill('tools', opener, Object.assign(button(words, () => perform(download), 'record'), { id: 'record' }));
  tellUnsent();
}

function lay() {
  layBoard(rules, near());
  seen = {};
  paint();
}

function turnBoard() {
  isFlipped = !isFlipped;
  lay();
}

// Shows the position after so many plies of the game and the moves that are tried then; null goes back to the game.
async function explore(at, moves = [], words = []) {
  touched = waiting = null;
  explored += 1;
  const { game: id } = game;
  const count = explored;
  if (at === null) study = null;
  else {
    const body = { game: id, ply: at, moves };
    const reply = await answerOf(() => ask(`analysis/${rules === shogi ? 'shogi' : 'draughts'}`, body));
    if (!reply || count !== explored || game?.game !== id) return;
    study = { ...reply, at, words, position: rules.read(reply.position) };
  }
  paint();
}

function stepTo(count) {
  if (study) {
    const { at, moves, words } = study;
    const to = Math.min(Math.max(count, 0), moves[0] ? plies() : game.ply);
    if (to === plies()) return;
    explore(Math.min(to, moves[0] ? at : to), moves.slice(0, Math.max(to - at, 0)), words.slice(0, Math.max(to - at, 0)));
    return;
  }
  ply = count < game.ply ? Math.max(count, 0) : null;
  touched = waiting = null;
  paint();
}

function takeBack() {
  const from = waiting && first(waiting);
  waiting = touched = null;
  paint();
  focusOn(from);
}

async function send(move) {
  const to = target(move);
  const it = { game: game.game, ply: game.ply + 1, move, as: spell(game.ply, move) };
  sent = move;
  waiting = touched = null;
  paint();
  focusOn(to);
  if (!await deliver(it)) {
    sent = null;
    if (game?.game === it.game) paint();
  }
  await lookAgain();
}

// Lets the reader choose between moves with the same two squares: a promotion by its piece, a capture by its route.
async function chooseMove(moves) {
  const board = (study?.position ?? positions[game.ply]).board;
  const kind = rules.kind(board[first(moves[0])]);
  const piece = (it) => make('span', {}, picture(it, mover(), false, chosen('letters')), kindName(it));
  const options = moves.map((it) => (rules === shogi ? piece((it[4] ?? '') + kind) : it));
  const taken = await choose(text('which'), options, (at) => rules === draughts && drawRoutes(moves.map(rules.squares), at));
  drawRoutes([]);
  return taken;
}

function lift(square) {
  touched = square;
  paintPosition();
}

// Tries a move; of two moves with these squares the promotion is listed first.
async function go(from, to) {
  const moves = movesOf(from, to).reverse();
  const move = moves[moves.length > 1 ? await chooseMove(moves) : 0];
  if (!playable().includes(move)) return lift(null);
  if (study) return explore(study.at, [...study.moves, move], [...study.words, spellTried(move)]).then(() => focusOn(to));
  if (!chosen('confirm')) return send(move);
  waiting = move;
  touched = null;
  paint();
  return byId('confirm').firstChild?.focus({ preventScroll: true });
}

function touch(square) {
  if (waiting) {
    const isOwnOther = ![first(waiting), target(waiting)].includes(square);
    takeBack();
    if (!isOwnOther) return;
  }
  if (movesOf(touched, square)[0]) {
    go(touched, square);
    return;
  }
  const isMovable = playable().map(first).includes(square);
  const isOwn = square && positions[game.ply].board[square] && rules.side(positions[game.ply].board[square]) === own();
  byId('say').classList.toggle('told', !!playable()[0] && isOwn && !isMovable);
  lift(square !== touched && isMovable ? square : null);
}

async function download() {
  const href = URL.createObjectURL(await (await request(`games/${game.game}/record`)).blob());
  make('a', { href, download: `${game.event}-${game.game}.${rules === shogi ? 'csa' : 'pdn'}` }).click();
}

// Stores a reply. Earlier positions are computed from the moves; the current one is the server's.
function take(now, kind) {
  const isOther = game?.game !== now.game;
  if (isOther || now.ply !== game.ply || now.end) touched = waiting = sent = null;
  if (isOther) study = null;
  game = now;
  settle(now);
  rules = kind === 'shogi' ? shogi : draughts;
  positions = [rules.read(rules.opening)];
  now.moves.forEach((move, at) => positions.push(rules.play(positions[at], move, at % 2)));
  positions[now.ply] = rules.read(now.position);
  if (!isOther) return;
  ply = null;
  isFlipped = false;
  seen = {};
  layBoard(rules, near());
}

// Requests a game; returns the function that paints it.
export async function lookAtGame(id) {
  const now = await ask(`games/${id}/page`);
  return (name) => {
    reader = name;
    clock = now.clock;
    told = Date.now();
    legal = now.legal;
    const { next, count } = nextGame(now.game.game);
    const left = clock.deadline === null || isOverdue() || span(clock.deadline - clock.moment);
    const replies = JSON.stringify([now.game, now.kind, legal, left, next?.game, count, name, text('code')]);
    if (replies === paintedGame) return;
    take(now.game, now.kind);
    paint();
    paintedGame = replies;
  };
}

// Paints the game again after a change of the settings.
export const repaintGame = () => isOpen() && lay();
export function leaveGame() {
  game = study = null;
  explored += 1;
  paintedGame = '';
  byId('dialog').close();
}

export function startGame() {
  startBoard({ touched: touch, lifted: lift, dropped: go });
  setInterval(tick, 1000);
  document.onkeydown = ({ key, target: on, ctrlKey, altKey, metaKey }) => {
    if (!isOpen() || ctrlKey || altKey || metaKey || on.closest('select, input, dialog')) return;
    if (key === 'f') turnBoard();
    if (key === 'Escape') {
      if (waiting) takeBack();
      else lift(null);
    }
    if (on.closest('[role=grid], #standings')) return;
    const to = { ArrowLeft: plies() - 1, ArrowRight: plies() + 1, Home: 0, End: game.ply }[key];
    if (to !== undefined) stepTo(to);
  };
}
