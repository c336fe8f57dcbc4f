// The columns of a run, as motesim.timeline.columns has them, and the lines of the report that they hold.

export const KINDS = ['start', 'leave', 'post', 'full', 'take', 'drop', 'print', 'busy', 'send', 'recv', 'lost',
  'collide', 'deaf', 'halt', 'boots'];
export const [START, LEAVE, POST, FULL, TAKE, DROP, PRINT, BUSY, SEND, RECV, LOST, COLLIDE, DEAF, HALT,
  BOOTS] = KINDS.keys();
/** The words of a line after its kind, by their columns: a process (p), serial or number (x), event (e) or value (w),
 * or a sender (s), which is in the column p. */
export const FIELDS = ['p', 'p', 'xpew', 'pew', 'xp', 'xp', 'pw', 'p', 'xw', 'sxw', 'sx', 'sx', 'sx', '', ''].map(
  it => [...it]);
/** The number of the process `all`. */
export const ALL = 0xffff;
export const ARRAYS = {u8: Uint8Array, u16: Uint16Array, u32: Uint32Array};
export const isCall = kind => kind === START || kind === TAKE;
const NONE = new Uint32Array(0), NO_NAMES = /** @type {string[]} */ ([]);


/** The first place of a sorted array, from `low` on and below `high`, whose number isn't below `value`. */
export function lowerBound(array, value, low = 0, high = array.length) {
  while (low < high) {
    const middle = (low + high) >>> 1;
    if (array[middle] < value) low = middle + 1; else high = middle;
  }
  return low;
}

/** The whole numbers from one on, below another. */
export const numbers = (from, to) => Array.from({length: Math.max(0, to - from)}, (_, i) => from + i);

/** The columns in a buffer, in the order in which a table names them with their kinds of numbers.
 * @param {any} table @param {ArrayBuffer} buffer */
export function columnsIn(table, buffer) {
  let place = 0;
  return Object.fromEntries(table.columns.map(([name, type, count]) => {
    const column = new ARRAYS[type](buffer, place, count);
    place += Math.ceil(column.byteLength / 4) * 4;
    return [name, column];
  }));
}

/** A run: for each line of a trace its moment (at), kind, and words; for each packet its moment, sender, value and
 * copies. `indexRun` adds what follows from them. */
export class Run {
  begins = NONE; traceStart = NONE; at = NONE; kind = NONE; p = NONE; x = NONE; e = NONE; w = NONE;
  packetAt = NONE; packetSender = NONE; packetNumber = NONE; packetValue = NONE; copyStart = NONE; copyTo = NONE;
  copyAfter = NONE; sentStart = NONE; sentPackets = NONE; posts = NONE;
  processes = NO_NAMES; events = NO_NAMES; programs = NO_NAMES;
  /** @type {Record<number, string>} the fields of values, if the format of packets is declared */
  fields = {};

  /** @param {any} table the names @param {Record<string, any>} columns */
  constructor(table, columns) {
    Object.assign(this, table, columns);
    this.count = this.x.length;
    this.packets = this.packetSender.length;
    this.copies = this.copyTo.length;
  }

  process(p) { return p === ALL ? 'all' : this.processes[p]; }

  moteOf(line) { return lowerBound(this.traceStart, line + 1) - 1; }

  /** The row of a trace's line in the report, counted from 1. */
  numberOf(line, mote) { return line + mote + 2; }

  /** The row of a packet in the report. */
  numberOfPacket(k) { return this.count + this.begins.length + 2 + k; }

  /** How many rows the report has: those of traces and packets, the heads of motes, `medium` and `left`. */
  get rows() { return this.numberOfPacket(this.packets); }

  /** The item of a row of the report: {mote, line} in a trace, line -1 at its head, or {packet}; null for others. */
  atRow(row) {
    const packet = row - this.numberOfPacket(0);
    if (packet >= -1) return packet >= 0 && packet < this.packets ? {packet} : null;
    let mote = 0;
    while (this.numberOf(this.traceStart[mote + 1], mote) <= row) mote++;
    const line = row - mote - 2;
    return {mote, line: line < this.traceStart[mote] ? -1 : line};
  }

  /** The words of a row of the report; those of a trace line with the fields of its value. */
  rowText(row) {
    const {packet, mote, line} = /** @type {any} */ (this.atRow(row));
    return packet !== undefined ? this.packetText(packet) : line >= 0 ? `${this.at[line]} ${this.told(line)}` :
      `mote ${mote} ${this.programs[this.begins[mote]]}`;
  }

  /** A word of a trace line, by its column. */
  field(i, name) {
    const {p, e} = this;
    return name === 'p' ? this.process(p[i]) : name === 's' ? p[i] : name === 'e' ? this.events[e[i]] : this[name][i];
  }

  /** The words of a trace line after its moment. */
  words(i) {
    return [KINDS[this.kind[i]], ...FIELDS[this.kind[i]].map(name => this.field(i, name))].join(' ');
  }

  text(i) { return `${this.at[i]} ${this.words(i)}`; }

  /** The words of a trace line, with the fields of its value. */
  told(i) { return this.words(i) + ([PRINT, SEND, RECV].includes(this.kind[i]) && this.fields[this.w[i]] || ''); }

  copiesOf(k) { return numbers(this.copyStart[k], this.copyStart[k + 1]); }

  packetText(k) {
    const at = this.packetAt[k], copies = this.copiesOf(k).map(
      c => ` ${this.copyTo[c]}@${this.copyAfter[c] ? at + this.copyAfter[c] : 'lost'}`);
    return `${at} ${this.packetSender[k]} ${this.packetNumber[k]} ${this.packetValue[k]}${copies.join('')}`;
  }

  /** The packet of a sender by its number, or -1; and all packets of a sender. */
  packetOf(sender, number) {
    const place = this.sentStart[sender] + number;
    return place < this.sentStart[sender + 1] ? this.sentPackets[place] : -1;
  }
  packetsOf(sender) { return [...this.sentPackets.subarray(this.sentStart[sender], this.sentStart[sender + 1])]; }

  /** The copy of a packet for a mote, or -1. */
  copyFor(k, mote) {
    const c = lowerBound(this.copyTo, mote, this.copyStart[k], this.copyStart[k + 1]);
    return c < this.copyStart[k + 1] && this.copyTo[c] === mote ? c : -1;
  }

  /** The first line of a mote at a moment or later. */
  lineAt(mote, moment) { return lowerBound(this.at, moment, this.traceStart[mote], this.traceStart[mote + 1]); }

  /** The lines of the turn that a line belongs to: from, to. */
  turn(line, mote) { return [this.lineAt(mote, this.at[line]), this.lineAt(mote, this.at[line] + 1)]; }

  /** The line of a mote at a moment with these words, or -1. */
  find({mote, at, words}) {
    return mote < this.begins.length ? numbers(this.lineAt(mote, at), this.lineAt(mote, at + 1)).find(i =>
      this.words(i) === words) ?? -1 : -1;
  }
}
