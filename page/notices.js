// Messages over the views: the server does not answer, a move was not sent, a request was refused.
import { isPassing } from './server.js';
import { button, byId, fill, make } from './dom.js';
import { text } from './words.js';

let looker = null;

const line = (words, ...more) => (words ? [make('p', {}, words), ...more] : []);

// Shows that the server does not answer; without words, hides it.
export const sayAway = (words = '') => fill('away', ...line(words && text('retrying', { why: words })));

// Shows a refusal until the next action or view, or until it is dismissed; without words, hides it.
export function complain(words = '') {
  fill('wrong', ...line(words, button(text('dismiss'), () => complain())));
}

// Shows a move that was not sent, with both buttons; without words, hides it.
export function sayUnsent(words, again, dismissed) {
  fill('unsent', ...line(words, button(text('again'), again, '', 'main'), button(text('dismiss'), dismissed)));
}

export const lookAgain = () => looker();
export const startNotices = (look) => { looker = look; };

// Runs an action, shows its failure if it has one, and resolves to its result.
export async function answerOf(deed) {
  let found;
  try {
    found = await deed();
    complain();
  } catch (error) {
    if (isPassing(error)) sayAway(error.message);
    complain(isPassing(error) ? text('notDone', { why: error.message }) : error.message);
  }
  return found;
}

// The same, and looks again.
export async function perform(deed) {
  await answerOf(deed);
  await lookAgain();
}
