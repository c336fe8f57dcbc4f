// Names that begin as the word before the caret does, in a list below it: arrows choose one, and Tab writes it.
import {byId, element} from '../../timeline/page/dom.js';
import {lineAndColumn, programsOf} from './toml.js';

const MOST = 6, LEAST = 2;

/** The names that may stand at an offset of a text: those of the notation and of its program, or keys and programs.
 * `words` are those of the notation. */
export function namesAt(text, offset, {colours, naming, keys}) {
  const programs = programsOf(text), program = programs.find(({begin, end}) => offset >= begin && offset <= end);
  const known = program ? [...text.slice(program.begin, program.end).replace(/\/\/.*/g, '').match(/\b[a-z]\w*/g) || [],
    ...Object.values(colours).flat(), ...naming] :
    [...Object.values(keys).flatMap(it => it.may), ...programs.map(it => it.name)];
  return [...new Set(known)].filter(it => /^\w+$/.test(it));
}

export class Names {
  found = /** @type {string[]} */ ([]);
  chosen = 0;
  begin = '';

  constructor(pad, words) {
    const {area} = this.pad = pad;
    area.addEventListener('input', event => this.show(
      /** @type {InputEvent} */ (event).inputType === 'insertText' ? this.fitting(words) : []));
    for (const name of ['blur', 'wheel', 'pointerdown']) area.addEventListener(name, () => this.show([]));
  }

  /** The names that begin as the word before the caret, which isn't in a comment. */
  fitting(words) {
    const {value, selectionStart: at} = this.pad.area, row = value.slice(value.lastIndexOf('\n', at - 1) + 1, at);
    this.begin = /(?:^|\W)([A-Za-z_]\w*)$/.exec(row)?.[1] || '';
    if (this.begin.length < LEAST || /\/\/|#/.test(row) || /\w/.test(value[at] || '')) return [];
    // (the word that is typed is one of the names of its program)
    const text = value.slice(0, at - this.begin.length) + value.slice(at);
    return namesAt(text, at - this.begin.length, words).filter(it => it.startsWith(this.begin) &&
      it !== this.begin).slice(0, MOST);
  }

  show(found, chosen = 0) {
    const {area, high} = this.pad, box = byId('names');
    Object.assign(this, {found, chosen});
    box.hidden = !found.length;
    if (box.hidden) return;
    const [row, column] = lineAndColumn(area.value, area.selectionStart), top = row * high - area.scrollTop;
    box.replaceChildren(...found.map((name, i) => element('li', name, [], {role: 'option',
      'aria-selected': String(i === chosen),
      onpointerdown: event => {
        event.preventDefault();
        this.take(name);
      }})));
    box.style.left = `calc(${column - this.begin.length + 6}ch + ${8 - area.scrollLeft}px)`;
    box.style.top = `${top > area.clientHeight / 2 ? top + 4 - box.offsetHeight : top + high + 10}px`;
  }

  take(name) {
    this.pad.write(name.slice(this.begin.length));
    this.show([]);
  }

  /** Reacts to a key while names are listed; true if it does. */
  onKey(key) {
    const {found, chosen} = this, {length} = found, by = key === 'ArrowDown' ? 1 : key === 'ArrowUp' ? length - 1 : 0;
    if (!length) return false;
    if (by) this.show(found, (chosen + by) % length);
    else if (key === 'Tab') this.take(found[chosen]);
    else this.show([]);
    return by > 0 || key === 'Tab' || key === 'Escape';
  }
}
