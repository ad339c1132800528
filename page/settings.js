// The dialog of settings.
import { isForbidden, mayNotify } from './alerts.js';
import { byId } from './dom.js';
import { icon } from './pieces.js';
import { choices, chosen, keep } from './storage.js';

// Stores a setting. Notifications also need the browser's permission.
async function store(name, box) {
  const isRefused = name === 'alerts' && box.checked && !await mayNotify();
  if (name === 'alerts') byId('alerts-refused').hidden = !isRefused;
  if (isRefused) box.checked = false;
  keep(name, box.checked);
}

// Calls `changed` after each change.
export function startSettings(changed) {
  const dialog = byId('settings');
  byId('open-settings').prepend(icon('settings'));
  byId('open-settings').onclick = () => {
    byId('alerts-refused').hidden = !chosen('alerts') || !isForbidden();
    dialog.showModal();
  };
  dialog.onclick = ({ target }) => { if (target === dialog) dialog.close(); };
  for (const name of choices) {
    const box = byId(`${name}-choice`);
    box.checked = chosen(name);
    box.onchange = () => store(name, box).then(changed);
  }
}
