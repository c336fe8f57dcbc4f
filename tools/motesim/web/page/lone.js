// Opens the page without a server: on the text of a link, of this page, or of the last time, or on an example.
import {chainOf} from '../../timeline/page/causes.js';
import {byId} from '../../timeline/page/dom.js';
import {openAsAddressed} from '../../timeline/page/main.js';
import {unpacked} from '../../timeline/page/packing.js';
import {page} from '../../timeline/page/stage.js';
import {Alone} from './alone.js';
import {beginChecks} from './checks.js';
import {sessionHere, textToOpen} from './keeping.js';
import {say} from './outcome.js';
import {begin, open, openAgain, openExample} from './web.js';

const ORIGINS = {link: 'This net came with the link.', page: 'This net was saved with the page.',
  draft: 'This is your text of the last time.'};

async function start() {
  const data = JSON.parse(byId('data').textContent);
  const module = unpacked(byId('module').textContent, 'gzip').then(
    bytes => WebAssembly.compile(/** @type {BufferSource} */ (bytes)));
  page.chainOf = chainOf;
  const [first] = begin(new Alone(module, byId('worker').textContent, data), data), session = sessionHere();
  beginChecks();
  page.reactions.opened.push(({name}) => { document.title = `${name.replace(/\.toml$/, '')} – motesim`; });
  if (session) return openAgain(session);
  const opened = await textToOpen().catch(() => undefined);
  const saved = opened?.from === 'draft' ? '' : opened?.text;
  if (opened) await open({where: '', ...opened}, {intro: ORIGINS[opened.from], saved}); else await openExample(first);
  if (opened === undefined) say('The link is broken: no text can be read from it. This is the first example.', 'bad');
  if (opened?.from === 'link' && page.panes.length) openAsAddressed();
}

// (another link, or a step back to one: the address of the page itself stays the same, so nothing is loaded)
window.addEventListener('hashchange', () => location.reload());
window.motesim = page;
start().catch(fault => {
  byId('said').textContent = `This page can't run here: ${fault.message}`;
  console.error(fault);
});
