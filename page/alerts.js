// Notices outside of the page, if the member wants them: notifications, a sound, and a count on the icon of an installed
// page. Also the manifest, by which a browser can install the page.
import { byId, make } from './dom.js';
import { chosen } from './storage.js';

// The tones of the sound: pitch in hertz, and start in seconds.
const TONES = [[660, 0], [880, 0.14]];
const VOLUME = 0.12;
const LENGTH = 0.35;
// The member, and what the last look found; none before the first look.
let announced = null;

// Whether the browser does not let the page notify: the member has withdrawn the permission, or has never given it.
export const isForbidden = () => window.Notification?.permission !== 'granted';
const canNotify = () => chosen('alerts') && !isForbidden();

// Whether the page asks the server while it is hidden.
export const isWatching = () => canNotify() || chosen('sound');

function ring() {
  const audio = new AudioContext();
  for (const [pitch, delay] of TONES) {
    const start = audio.currentTime + delay;
    const tone = audio.createOscillator();
    const volume = audio.createGain();
    tone.frequency.value = pitch;
    volume.gain.setValueAtTime(VOLUME, start);
    volume.gain.exponentialRampToValueAtTime(0.001, start + LENGTH);
    tone.connect(volume).connect(audio.destination);
    tone.start(start);
    tone.stop(start + LENGTH);
  }
  setTimeout(() => audio.close(), 2000);
}

// Some telephones throw here, since they notify through service workers only; then the title of the tab counts.
function notify({ tag, words, place }) {
  try {
    const notice = new Notification(words, { tag, icon: byId('icon').href });
    notice.onclick = () => {
      window.focus();
      location.hash = place;
      notice.close();
    };
  } catch {
    // No notification.
  }
}

// Announces what is new since the last look. Items are { tag, words, place, end }: one with `end` is announced when it is
// gone, any other when it is new.
export function announce(member, count, items) {
  const isFirst = announced?.member !== member;
  const isIn = (list) => ({ tag }) => list.some((it) => it.tag === tag);
  const come = isFirst ? [] : items.filter((it) => !it.end && !isIn(announced.items)(it));
  const gone = isFirst ? [] : announced.items.filter((it) => it.end && !isIn(items)(it));
  announced = { member, items };
  navigator.setAppBadge?.(count).catch(() => {});
  const fresh = [...come, ...gone];
  if (!fresh[0]) return;
  if (chosen('sound')) ring();
  if (canNotify() && !document.hasFocus()) fresh.forEach(notify);
}

// Asks the browser for its permission to notify.
export const mayNotify = async () => await window.Notification?.requestPermission() === 'granted';

// Adds the manifest, which needs the page's own address.
export function writeManifest() {
  const address = location.origin + location.pathname;
  const manifest = {
    name: 'Gathlwyro',
    id: address,
    start_url: address,
    scope: address,
    display: 'standalone',
    background_color: '#f5f2ea',
    theme_color: '#1d5f4b',
    icons: [{ src: byId('icon').href, sizes: 'any', type: 'image/svg+xml' }],
  };
  const href = `data:application/manifest+json,${encodeURIComponent(JSON.stringify(manifest))}`;
  document.head.append(make('link', { rel: 'manifest', href }));
}
