// What the studio's page asks: runs and verdicts in the page's own workers, and all else from its server.
import {Refused, page} from '../../timeline/page/stage.js';
import {Alone} from '../../web/page/alone.js';
import {withSentence, withoutSentence} from '../../web/page/edits.js';

const LOST = 'The studio doesn\'t answer. Start it again, and open its page: the browser keeps your text.';

export class Server extends Alone {
  /** The file of the expectations that are shown: its name, text and stamp; null if there is none. */
  expected = /** @type {any} */ (null);

  /** The server, with its module and the script of its workers. */
  static async begin() {
    const module = fetch('motecheck.wasm').then(it => it.arrayBuffer()).then(it => WebAssembly.compile(it));
    return new Server(module, await (await fetch('worker.js')).text(), {});
  }

  async run(asked) {
    const got = await super.run(asked);
    if (!got.limit) return got;
    const {does} = await this.ask('advise', {text: asked.text}).catch(() => ({does: ''}));
    return does ? {limit: got.limit + does} : got;
  }

  /** The expectations of the file beside the document, with the claims that they mean for a text. */
  async expectations(document, text) {
    const {items, about, file} = await this.ask('expectations', {...document, text, saved: page.web.saved});
    this.expected = file;
    return items.map(it => ({...it, remark: it.remark || about}));
  }

  /** The server explains errors, with their corrections. */
  async faultOf(text, line) { return this.ask('explain', {text, line}); }

  /** The server has explained the error already. */
  async mend() { return null; }

  /** Adds an expectation to the file beside the document; a claim, or one of another document, to its text. */
  async expect(words) {
    if (words.includes(': ')) return words;
    await this.write(withSentence(this.expected?.text || '', words));
    return '';
  }

  async unexpect(words) { await this.write(withoutSentence(this.expected.text, words)); }

  async write(source) {
    const {document, history: {text}} = page.web;
    await this.ask('expect', {...document, text, source, stamp: this.expected?.stamp || ''});
  }

  /** Asks for a value, or for the bytes of a page. */
  async ask(what, asked) {
    let answer, got;
    try {
      answer = await fetch(what, {method: 'POST', headers: {'Content-Type': 'application/json'}, cache: 'no-store',
        body: JSON.stringify(asked)});
      if (answer.ok) got = await answer.arrayBuffer();
    } catch {
      throw new Refused(LOST);
    }
    if (answer.status === 403) throw new Refused(LOST);
    if (!answer.ok) throw new Refused(`The studio's answer has the status ${answer.status}.`);
    if (answer.headers.get('Content-Type') !== 'application/json') return got;
    const value = JSON.parse(new TextDecoder().decode(got));
    if (value.refused) throw new Refused(value.refused);
    if (value.places) page.places = value.places;
    return value;
  }
}
