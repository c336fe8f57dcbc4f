// The pointer on a picture: it drags and clicks, the wheel and two fingers zoom, and a tip says what is there.
import {byId} from './dom.js';

/** What a pointer does with a picture: `words` says what is at a point, '' for nothing; `hold` which thing is held
 * there, `drag` moves it by so many pixels, `drop` leaves it there, `click` ends a touch without a move; and `zoom`
 * gets a factor and a point.
 * @typedef {{words: (x: number, y: number) => string, hold?: (x: number, y: number) => number,
 *   click: (x: number, y: number, event: PointerEvent) => void,
 *   drag: (dx: number, dy: number, event: PointerEvent, held: number) => void,
 *   drop?: (event: PointerEvent, held: number) => void, zoom: (factor: number, x: number, y: number) => void,
 *   wheel?: (event: WheelEvent) => void}} Hand */

// Pixels that a click may move; and those of a tip from the pointer.
const STILL = 4, AWAY = '14px';

/** The factor by which the wheel zooms. */
export const zoomOf = pixels => Math.exp(-pixels * 0.0015);

/** Lets a hand work on a picture. @param {HTMLElement} canvas @param {Hand} hand */
export function onPointer(canvas, hand) {
  const fingers = /** @type {Map<number, number[]>} */ (new Map());
  let held = /** @type {{x: number, y: number, moved: boolean, it: number}|null} */ (null);
  const apart = () => {
    const [[x, y], [otherX, otherY]] = fingers.values();
    return [Math.max(1, Math.hypot(x - otherX, y - otherY)), (x + otherX) / 2, (y + otherY) / 2];
  };
  canvas.addEventListener('pointerdown', ({button, pointerId, pointerType, offsetX: x, offsetY: y}) => {
    if (button) return;
    if (pointerType === 'touch') fingers.set(pointerId, [x, y]);
    held = {x, y, moved: false, it: hand.hold ? hand.hold(x, y) : -1};
    canvas.setPointerCapture(pointerId);
    canvas.classList.add('held');
  });
  // (a finger scrolls the page, unless it holds something)
  canvas.addEventListener('touchstart', event => { if (held && held.it >= 0) event.preventDefault(); },
    {passive: false});
  canvas.addEventListener('pointermove', event => {
    const {pointerId, offsetX, offsetY} = event;
    if (fingers.size === 2 && fingers.has(pointerId)) {
      const [before] = apart();
      fingers.set(pointerId, [offsetX, offsetY]);
      const [now, x, y] = apart();
      held = null;
      return hand.zoom(now / before, x, y);
    }
    if (!held) return;
    const dx = Math.round(offsetX - held.x), dy = Math.round(offsetY - held.y);
    if (!held.moved && Math.hypot(dx, dy) < STILL) return;
    Object.assign(held, {x: held.x + dx, y: held.y + dy, moved: true});
    hand.drag(dx, dy, event, held.it);
  });
  const release = event => {
    const was = held;
    held = null;
    fingers.delete(event.pointerId);
    canvas.classList.remove('held');
    if (was && was.moved) hand.drop?.(event, was.it);
    else if (was && event.type === 'pointerup') hand.click(event.offsetX, event.offsetY, event);
  };
  canvas.addEventListener('pointerup', release);
  canvas.addEventListener('pointercancel', release);
  canvas.addEventListener('wheel', event => {
    event.preventDefault();
    if (hand.wheel) hand.wheel(event); else hand.zoom(zoomOf(event.deltaY), event.offsetX, event.offsetY);
  }, {passive: false});
  offerTips(canvas, hand.words);
}

/** Shows tips over a picture, on that side of the pointer where the window has more room. */
function offerTips(canvas, wordsAt) {
  const tip = byId('tip'), beside = (place, size) => place < size / 2 ? AWAY : `calc(-100% - ${AWAY})`;
  canvas.addEventListener('pointermove', ({buttons, pointerType, offsetX, offsetY, clientX: x, clientY: y}) => {
    tip.textContent = buttons || pointerType === 'touch' ? '' : wordsAt(offsetX, offsetY);
    tip.hidden = !tip.textContent;
    canvas.classList.toggle('points', !tip.hidden);
    Object.assign(tip.style, {left: `${x}px`, top: `${y}px`,
      transform: `translate(${beside(x, innerWidth)}, ${beside(y, innerHeight)})`});
  });
  for (const name of ['pointerleave', 'pointerdown']) canvas.addEventListener(name, () => { tip.hidden = true; });
}
