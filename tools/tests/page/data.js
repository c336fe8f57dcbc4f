// The runs that test_page_modules.py writes for these tests, and words of the notation.
import {readFileSync} from 'node:fs';
import {Run, columnsIn} from '../../motesim/timeline/page/data.js';
import {indexRun} from '../../motesim/timeline/page/index.js';
import {unpacked} from '../../motesim/timeline/page/packing.js';
import {columnsOf} from '../../motesim/web/page/report.js';
import {scenarioOf} from '../../motesim/web/page/alone.js';

/** `runs` has for each run its table, its packed columns, its texts, and what the Python package knows of it. */
export const given = JSON.parse(readFileSync(process.env.MOTESIM_PAGE_DATA, 'utf-8'));
export const names = Object.keys(given.runs);

async function indexed(table, columns) {
  const run = new Run(table, columns);
  await indexRun(run);
  return run;
}

/** A run as a page has it that Python has packed. */
export async function runOf(name) {
  const {table, columns} = structuredClone(given.runs[name]);
  return indexed(table, columnsIn(table, (await unpacked(columns)).buffer));
}

/** A run as the page without a server reads it. */
export function readRun({name, report, scenario, table = {}}) {
  const read = columnsOf(report);
  return indexed({name, ...read.table, ...(scenario ? scenarioOf(scenario) : {end: table.end})}, read.columns);
}
