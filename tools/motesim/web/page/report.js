// A report as columns: the numbers that `Run` takes, and a table of names.
import {ALL, ARRAYS, FIELDS, KINDS} from '../../timeline/page/data.js';

/** The columns that `Run` takes, with their kinds of numbers. */
const TYPES = {traceStart: 'u32', at: 'u32', x: 'u32', packetAt: 'u32', copyAfter: 'u32', w: 'u16', p: 'u16', e: 'u16',
  begins: 'u16', packetSender: 'u16', packetValue: 'u16', copyCount: 'u16', copyTo: 'u16', kind: 'u8'};
const LINE_END = 10;

/** The place of a name among those that were met.
 * @param {Map<string, number>} names @param {string} name @returns {number} */
const placeIn = (names, name) => names.get(name) ?? names.set(name, names.size).size - 1;

/** The columns of a report, its names, and how many copies were left at its end. */
export function columnsOf(text) {
  const columns = /** @type {any} */ (Object.fromEntries(Object.keys(TYPES).map(name => [name, []])));
  const processes = new Map(), events = new Map(), programs = new Map();
  const codes = new Map(KINDS.map((kind, code) => [kind, code]));
  let place = 0, left = 0;

  /** The next word, whose separator is passed. */
  const word = () => {
    const from = place;
    while (text.charCodeAt(place) > 32) place++;
    return text.slice(from, place++);
  };
  const number = () => {
    let value = 0;
    for (let digit = text.charCodeAt(place++) - 48; digit >= 0 && digit < 10; digit = text.charCodeAt(place++) - 48) {
      value = value * 10 + digit;
    }
    return value;
  };
  const READ = {x: number, w: number, s: number, e: () => placeIn(events, word()), p: () => {
    const name = word();
    return name === 'all' ? ALL : placeIn(processes, name);
  }};

  const addLine = at => {
    const code = codes.get(word()), line = {x: 0, p: 0, e: 0, w: 0, s: 0};
    for (const field of FIELDS[code]) line[field] = READ[field]();
    columns.at.push(at);
    columns.kind.push(code);
    columns.x.push(line.x);
    columns.p.push(line.p + line.s);
    columns.e.push(line.e);
    columns.w.push(line.w);
  };

  const addPacket = at => {
    const first = columns.copyTo.length;
    columns.packetAt.push(at);
    columns.packetSender.push(number());
    number();
    columns.packetValue.push(number());
    while (text.charCodeAt(place - 1) !== LINE_END) {
      columns.copyTo.push(number());
      columns.copyAfter.push(text[place] === 'l' ? word() && 0 : number() - at);
    }
    columns.copyCount.push(columns.copyTo.length - first);
  };

  let add = addLine;
  while (place < text.length) {
    if (text.charCodeAt(place) < 58) add(number());
    else {
      const head = word();
      if (head === 'medium') add = addPacket;
      else if (head === 'left') left = number();
      else {
        columns.traceStart.push(columns.at.length);
        number();
        columns.begins.push(placeIn(programs, word()));
      }
    }
  }
  columns.traceStart.push(columns.at.length);
  return {table: {left, programs: [...programs.keys()], processes: [...processes.keys()], events: [...events.keys()]},
    columns: Object.fromEntries(Object.entries(TYPES).map(([name, type]) => [name, new ARRAYS[type](columns[name])]))};
}
