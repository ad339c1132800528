// Sign-in, and the view that the address names: home, a game or an event. A look requests the view's data and paints it.
import { announce, isWatching, writeManifest } from './alerts.js';
import { byId, fill } from './dom.js';
import { lookAtEvent, startEvent } from './event.js';
import { leaveGame, lookAtGame, repaintGame, startGame } from './game.js';
import { lookAtHome, lookAtMe, newsOf, paintWelcome, startHome } from './home.js';
import { complain, sayAway, startNotices } from './notices.js';
import { isPassing, showKey } from './server.js';
import { startSettings } from './settings.js';
import { forget, keep, recall } from './storage.js';
import { putAway, tellUnsent } from './unsent.js';
import { startLanguage, text } from './words.js';

const OFTEN = 4000;
const SELDOM = 30000;
const HIDDEN = 300000;
const SOON = 300;
const UNKNOWN = [52, 53];
const VIEWS = { home: lookAtHome, event: lookAtEvent, game: lookAtGame };
let key = recall('memberKey') ?? '';
let looking = Promise.resolve();
// The address of the painted view; null while the page waits for a reply or for a key.
let shown = null;
let timer = 0;

function show(view) {
  for (const id of ['sign-in', 'missing', 'waiting', ...Object.keys(VIEWS)]) byId(id).hidden = id !== view;
  for (const id of ['member', 'sign-out', 'badge']) byId(id).hidden = !key;
  document.body.className = view;
  if (view !== 'game') leaveGame();
}

// Shows a view without data.
function showWords(view, title) {
  fill('title', title);
  show(view);
  shown = null;
  document.title = title;
}

// Hides the previous view until the server has answered.
function showWaiting() {
  const { view, name } = place();
  showWords('waiting', { home: text('home'), game: `${text('game')} ${name}`, event: name }[view]);
}

function place() {
  const [, view = 'home', name] = /^#(game|event)\/([\w.-]+)$/.exec(location.hash) ?? [];
  return { view, name };
}

// No view, if the server does not know the game or the event.
function isUnknown(error) {
  if (!UNKNOWN.includes(error.number)) throw error;
}

async function lookOnce() {
  const { hash } = location;
  const { view, name } = place();
  const isHidden = document.hidden;
  const mine = lookAtMe();
  const [me, paint] = await Promise.all([mine, isHidden ? null : VIEWS[view](name, mine, shown === hash).catch(isUnknown)]);
  fill('member', me.member);
  fill('badge', me.waiting ? String(me.waiting) : '');
  const count = me.waiting ? `(${me.waiting}) ` : '';
  announce(me.member, me.waiting, newsOf());
  if (isHidden) {
    document.title = count + (byId('title').textContent || text('home'));
    return;
  }
  if (hash !== location.hash || !key) return;
  if (paint) {
    show(view);
    paint(me.member);
    shown = hash;
  } else showWords('missing', text(view === 'game' ? 53 : 52));
  tellUnsent();
  document.title = count + byId('title').textContent;
}

function isBack() {
  sayAway();
  return SELDOM;
}

// Handles a failed look: an unknown key, a server that does not answer, or a refusal. Returns the pause before the next.
function isWrong(error) {
  if (!key) return SELDOM;
  if (error.number === 50) enter('', error.message);
  else if (isPassing(error)) sayAway(error.message);
  else complain(error.message);
  if (key && shown !== location.hash) showWaiting();
  return isPassing(error) ? OFTEN : SELDOM;
}

// Schedules the next look. A hidden page looks rarely, and only if the reader wants notices.
function lookLater(pause) {
  clearTimeout(timer);
  if (document.hidden && !isWatching()) return;
  timer = setTimeout(() => key && look(), document.hidden ? HIDDEN : pause);
}

// Looks once the running look is done, and schedules the next.
function look() {
  clearTimeout(timer);
  looking = looking.then(lookOnce).then(isBack, isWrong).then(lookLater);
  return looking;
}

// Looks, and shows that the page is loading if the server does not answer soon.
async function lookAround() {
  const { hash } = location;
  const slow = setTimeout(() => hash === location.hash && shown !== hash && showWaiting(), SOON);
  await look();
  clearTimeout(slow);
}

// Signs in with a key, or shows the form. The address stays, so that a new sign-in leads to the same view.
function enter(given, why = '') {
  key = given;
  showKey(key);
  if (key) return lookAround();
  forget('memberKey');
  putAway();
  sayAway();
  complain(why);
  paintWelcome();
  showWords('sign-in', text('signIn'));
  return byId(byId('name').value ? 'key' : 'name').focus();
}

async function signIn(event) {
  event.preventDefault();
  complain();
  const given = byId('name').value.trim().toLowerCase();
  await enter(byId('key').value.trim());
  if (!key) return;
  const name = byId('member').textContent;
  if (given && name && given !== name.toLowerCase()) complain(text('otherName', { name }));
  keep('memberKey', key, byId('remember').checked ? 'localStorage' : 'sessionStorage');
  byId('sign-in').reset();
  byId('title').focus();
}

function signOut() {
  forget('memberKey');
  forget('unsent');
  location.hash = '';
  location.reload();
}

// Goes to another view: the last refusal is dismissed, and the old view is hidden if the server does not answer soon.
async function turn() {
  if (!key) return;
  complain();
  await lookAround();
  scrollTo(0, 0);
  byId('title').focus({ preventScroll: true });
}

function changeLanguage() {
  leaveGame();
  if (key) look();
  else showWords('sign-in', text('signIn'));
}

startNotices(look);
startLanguage(changeLanguage);
startSettings(() => repaintGame());
startGame();
startHome();
startEvent();
byId('sign-in').onsubmit = signIn;
byId('sign-out').onclick = signOut;
window.onhashchange = turn;
document.onvisibilitychange = () => key && (document.hidden ? lookLater() : look());
window.ononline = () => key && !document.hidden && look();
writeManifest();
show('');
enter(key);
