// A move that could not be sent. It is stored in the tab until it is sent or dismissed. Sending it again is idempotent.
import { ask, isPassing } from './server.js';
import { complain, lookAgain, sayAway, sayUnsent } from './notices.js';
import { forget, keep, recall } from './storage.js';
import { text } from './words.js';

const kept = () => JSON.parse(recall('unsent') ?? 'null');

export function putAway() {
  forget('unsent');
  sayUnsent();
}

// Shows the move that was not sent, if there is one.
export function tellUnsent() {
  const it = kept();
  if (it) sayUnsent(text('unsent', it), () => deliver(it).then(lookAgain), putAway);
  else sayUnsent();
}

// Sends a move, { game, ply, move, as }; resolves to whether the server accepted it.
export async function deliver(it) {
  let isTaken = false;
  try {
    await ask(`games/${it.game}/moves/${it.ply}`, { move: it.move });
    isTaken = true;
    putAway();
    complain();
  } catch (error) {
    if (isPassing(error)) {
      keep('unsent', JSON.stringify(it), 'sessionStorage');
      tellUnsent();
      sayAway(error.message);
    } else {
      putAway();
      complain(error.message);
    }
  }
  return isTaken;
}

// Forgets the stored move if the game has reached its ply or has ended.
export function settle({ game, ply, end }) {
  const it = kept();
  if (it && it.game === game && (ply >= it.ply || end)) putAway();
}
