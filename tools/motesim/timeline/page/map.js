// The map of a run: motes at their places, who hears whom, which links lose packets, and the packets on their way.
import {COLLIDE, DEAF, KINDS, LOST, RECV, SEND, lowerBound, numbers} from './data.js';
import {chooseMote, showCard} from './details.js';
import {byId, count, element} from './dom.js';
import {redraw} from './draw.js';
import {box, drawArrow, drawForm, drawPath, fill, fitCanvas, ring, setFont, stampOf, stroke, write} from './forms.js';
import {HANDED, MEDIUM, arrivalOf} from './index.js';
import {linkInWords, moteInWords} from './near.js';
import {onPointer} from './pointer.js';
import {MapLayout} from './places.js';
import {page} from './stage.js';

const MOST_LINKS = 12000, MOST_FLYING = 4000;
// The height of a label, and its distance from its link.
const TALL = 12, APART = 6;
// How far a packet on its way is from its sender at first and at last, as shares; and a lost one, from some share on.
const FIRST = 0.12, LAST = 0.88, LOST_FROM = 0.55, LOST_AT = 0.6;

export class MapView extends MapLayout {
  constructor(pane, frame, title) {
    super(pane.run);
    this.pane = pane;
    // The actions with the motes on a map that can be changed: hold, drag, drop, click and key.
    this.edits = /** @type {any} */ (null);
    this.still = /** @type {any} */ (null);
    this.canvas = element('canvas', '', [], {role: 'img', 'aria-label':
      'Map of the motes: who hears whom, and the packets on their way at the moment that is played'});
    this.context = this.canvas.getContext('2d');
    this.said = element('p');
    frame.append(element('h2', title), this.canvas, this.said);
    this.listen();
  }

  take(run) {
    super.take(run);
    this.still = null;
  }

  /** Makes the picture as large as the page shows it, so that the mouse finds the motes at their places. */
  resize() {
    this.fitTo(this.canvas.clientWidth || 120, byId('maps').clientHeight);
    this.dots = fitCanvas(this.context, this.width, this.height);
    this.still = null;
  }

  /** Draws links and losses, which don't change with the moment, as a picture to keep. */
  drawStill() {
    const {run, dots, canvas: {width, height}} = this, still = new OffscreenCanvas(width, height);
    const c = still.getContext('2d');
    c.scale(dots, dots);
    if (this.linkCount <= MOST_LINKS) {
      c.beginPath();
      for (const [s, r] of this.links()) {
        const [x0, y0, x1, y1] = this.way(s, r);
        c.moveTo(x0, y0);
        c.lineTo(x1, y1);
      }
      stroke(c, 'line', this.radius > 4 ? 1.2 : 0.8);
    }
    const losses = run.losses.filter(([s, r]) => run.hearers[s] && run.hearers[s].includes(r));
    for (const [s, r] of losses) this.drawLoss(c, s, r);
    setFont(c, 11, 'center');
    this.shares = losses.flatMap(loss => this.drawShare(c, ...loss));
    return still;
  }

  /** Draws the receiver's half of a link that loses packets: dashed, with a cross. */
  drawLoss(c, s, r) {
    const [x0, y0, x1, y1] = this.way(s, r), x = (x0 + x1) / 2, y = (y0 + y1) / 2;
    drawPath(c, [x, y, x1, y1], 'paper', 3);
    drawPath(c, [x, y, x1, y1], 'trouble', 1.8, 1, [4, 3]);
    if (Math.hypot(x1 - x0, y1 - y0) >= 20) drawForm(c, 'cross', x, y, 4);
  }

  /** Draws the share of a link's losses beside it, nearer to the receiver; opposite links have it on other sides.
   * Returns the places of what was written. */
  drawShare(c, s, r, every) {
    const dx = this.x(r) - this.x(s), dy = this.y(r) - this.y(s), long = Math.hypot(dx, dy);
    if (long <= 30) return [];
    const text = every === 1 ? 'all' : `1 in ${every}`, wide = c.measureText(text).width;
    const x = this.x(s) + dx * 0.66 + dy / long * (wide / 2 + APART);
    const y = this.y(s) + dy * 0.66 - dx / long * (TALL / 2 + APART);
    write(c, text, x, y, 'trouble');
    return [{x, y, wide}];
  }

  draw() {
    const {context: c, run, pane} = this, {chosen, play} = page;
    this.still ||= this.drawStill();
    box(c, 'paper', 0, 0, this.width, this.height);
    c.drawImage(this.still, 0, 0, this.width, this.height);
    const flying = this.drawFlying();
    for (const m of run.begins.keys()) this.drawMote(m);
    for (const copy of chosen.pane === pane && chosen.k >= 0 ? run.copiesOf(chosen.k) : []) {
      drawArrow(c, this.way(run.packetSender[chosen.k], run.copyTo[copy], this.radius), run.copyFate[copy],
        copy === chosen.copy ? 3 : 2, 4);
    }
    for (const draw of page.mapOverlays) draw(this);
    this.said.textContent = [`Moment ${Math.floor(play.now)}: ${count(flying, 'copy')} on the way.`,
      this.linkCount > MOST_LINKS && `${count(this.linkCount, 'link')} not drawn.`,
      this.isShort && 'Wide empty stretches are shortened.',
      !run.places && 'Without a scenario, the places are not known.'].filter(Boolean).join(' ');
  }

  /** Draws a dot for each copy between its sender and its receiver, and a cross for one that is lost on the way.
   * Returns how many there are. */
  drawFlying() {
    const {run, radius} = this, {now} = page.play, size = Math.max(2, radius * 0.4);
    const first = lowerBound(run.packetAt, now - run.longest), last = lowerBound(run.packetAt, now + 1e-9);
    let flying = 0;
    for (const k of numbers(first, last)) {
      for (const copy of run.copiesOf(k)) {
        const sent = run.packetAt[k], fate = run.copyFate[copy];
        const share = (now - sent) / (arrivalOf(run, k, copy) - sent);
        if (share >= 1 || ++flying > MOST_FLYING) continue;
        const isLost = fate === MEDIUM && share > LOST_FROM, at = isLost ? LOST_AT : FIRST + (LAST - FIRST) * share;
        const [x0, y0, x1, y1] = this.way(run.packetSender[k], run.copyTo[copy]);
        const x = x0 + (x1 - x0) * at, y = y0 + (y1 - y0) * at;
        if (isLost) drawForm(this.context, 'cross', x, y, size);
        else this.drawDisc(x, y, size, fate === HANDED ? 'send' : 'trouble');
      }
    }
    return flying;
  }

  /** Draws a disc by its picture, because a large net has thousands of them in each frame. */
  drawDisc(x, y, r, colour, edge = '', wide = 0) {
    const {dots, context} = this;
    const picture = stampOf(`disc ${colour} ${edge} ${wide}`, r, dots, (c, middle) => {
      ring(c, middle, middle, r);
      fill(c, colour);
      if (edge) stroke(c, edge, wide);
    }), side = picture.width / dots, place = at => Math.round((at - side / 2) * dots) / dots;
    context.drawImage(picture, place(x), place(y), side, side);
  }

  /** What a mote does at this moment: it sends, receives, is silent, has trouble of a kind, or has halted. */
  deeds(m) {
    const {run} = this, {play} = page, now = Math.floor(play.now), end = run.lineAt(m, now + 1);
    const deeds = {isHalted: run.haltAt[m] <= now, sends: false, hears: false, isSilent: false, trouble: ''};
    for (let i = run.lineAt(m, Math.min(now, Math.floor(play.before) + 1)); i < end; i++) {
      const kind = run.kind[i];
      if (kind === SEND) deeds.sends = true;
      else if (kind === RECV) deeds.hears = true;
      else if (kind === COLLIDE || kind === LOST || kind === DEAF) deeds.trouble = KINDS[kind];
      else if (run.silent[i]) deeds.isSilent = true;
    }
    return deeds;
  }

  drawMote(m) {
    const {context: c, radius: r} = this, x = this.x(m), y = this.y(m);
    if (x < -20 || y < -20 || x > this.width + 20 || y > this.height + 20) return;
    const {isHalted, sends, hears, isSilent, trouble} = this.deeds(m);
    const isChosen = page.chosen.pane === this.pane && page.chosen.mote === m;
    this.drawDisc(x, y, r, sends ? 'send' : isHalted ? 'grid' : hears ? 'recv' : 'run', isChosen ? 'mark' : 'quiet',
      isChosen ? 3 : 1);
    if (sends) {
      ring(c, x, y, r + 4);
      stroke(c, 'send', 1.5);
    }
    if (isSilent && !sends && r >= 4) drawForm(c, 'silent', x + r, y - r, Math.max(3, r * 0.45));
    if (trouble && r >= 3) drawForm(c, trouble, x - r, y - r, Math.max(3.5, r * 0.5));
    if (isHalted) drawForm(c, 'cross', x, y, r * 0.7);
    else if (r >= 7) {
      setFont(c, r >= 10 ? 11 : 9.5, 'center');
      write(c, String(m), x, y + 0.5, sends || hears ? 'paper' : 'ink');
    }
    if (r >= 5) this.drawPrinted(m, x, y + r + 2);
  }

  drawPrinted(m, x, y) {
    const {context: c, run} = this, prints = run.prints[m];
    const last = lowerBound(prints, run.lineAt(m, Math.floor(page.play.now) + 1)) - 1;
    if (last < 0) return;
    setFont(c, 10.5, 'center', 'top');
    write(c, String(run.w[prints[last]]), x, y, 'print');
  }

  wordsAt(x, y) {
    const mote = this.moteNear(x, y), link = mote < 0 && this.linkNear(x, y);
    return mote >= 0 ? moteInWords(this.run, mote) : link ? linkInWords(this.run, link[0], link[1]) : '';
  }

  /** Draws the links and losses anew, too. */
  redraw() {
    this.still = null;
    redraw();
  }

  listen() {
    const {canvas} = this;
    onPointer(canvas, {
      words: (x, y) => this.wordsAt(x, y),
      zoom: (factor, x, y) => {
        this.zoomAt(factor, x, y);
        this.redraw();
      },
      hold: (x, y) => this.edits ? this.edits.hold(x, y) : -1,
      drag: (dx, dy, event, mote) => {
        if (mote >= 0) return this.edits.drag(mote, event.offsetX, event.offsetY);
        this.dx += dx;
        this.dy += dy;
        this.redraw();
      },
      drop: (event, mote) => mote >= 0 && this.edits.drop(mote, event.offsetX, event.offsetY),
      click: (x, y, {clientX, clientY}) => {
        const mote = this.moteNear(x, y);
        if (this.edits?.click(x, y, mote) || mote < 0) return;
        chooseMote(this.pane, mote, true);
        showCard(clientX, clientY);
      },
    });
    canvas.addEventListener('keydown', event => {
      if (event.ctrlKey || event.metaKey || event.altKey || !this.edits?.key(event)) return;
      event.preventDefault();
      event.stopPropagation();
    });
  }
}
