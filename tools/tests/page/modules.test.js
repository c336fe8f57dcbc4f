// Each module of the pages can be imported without a browser, except those that open a page or a worker.
import {readdirSync} from 'node:fs';
import {test} from 'node:test';

const FOLDERS = ['timeline', 'studio', 'web'].map(name => `../../motesim/${name}/page/`);
const OPENING = ['open.js', 'studio.js', 'lone.js', 'worker.js'];

for (const folder of FOLDERS) {
  for (const name of readdirSync(new URL(folder, import.meta.url))) {
    if (name.endsWith('.js') && !OPENING.includes(name)) test(name, () => import(folder + name));
  }
}
