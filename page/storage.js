// What the page stores: `sessionStorage` for the tab, `localStorage` beyond it. A browser may refuse both.

function attempt(use) {
  try {
    return use();
  } catch {
    return null;
  }
}

export const recall = (name) => attempt(() => sessionStorage[name] ?? localStorage[name]);
export const keep = (name, value, store = 'localStorage') => attempt(() => { window[store][name] = value; });
export const forget = (name) => attempt(() => delete sessionStorage[name] && delete localStorage[name]);

// The settings, each on or off, with their defaults.
const CHOICES = { confirm: true, animate: true, letters: false, alerts: false, sound: false };
export const choices = Object.keys(CHOICES);
export const chosen = (name) => (recall(name) ?? String(CHOICES[name])) === 'true';
