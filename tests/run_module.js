// Runs a module on each file NAME.toml of a folder, and writes what it writes to NAME.1 and NAME.2, and its status to
// NAME.status: node run_module.js MODULE FOLDER
'use strict';
const fs = require('fs');
const {runModule} = require('../web/run_module.js');

const [file, folder] = process.argv.slice(2);
const compiled = new WebAssembly.Module(fs.readFileSync(file));
for (const name of fs.readdirSync(folder).filter(it => it.endsWith('.toml'))) {
  const path = folder + '/' + name.slice(0, -'.toml'.length), written = {1: [], 2: []};
  let status;
  try {
    const scenario = fs.readFileSync(path + '.toml');
    status = runModule(compiled, scenario, (stream, bytes) => written[stream].push(bytes)).status;
  } catch (fault) {
    status = fault;
  }
  for (const stream of [1, 2]) fs.writeFileSync(path + '.' + stream, Buffer.concat(written[stream]));
  fs.writeFileSync(path + '.status', String(status));
}
