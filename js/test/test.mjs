// Plays recorded battles with a module under Node: node test/test.mjs FOLDER [MODULE], where FOLDER has the recorded cases.
import {createReadStream, existsSync} from "node:fs";
import {createInterface} from "node:readline";

import {load} from "../gen1.mjs";

import {checks} from "./checks.mjs";

const [folder, module] = process.argv.slice(2);

async function* linesIn(name) {
  const path = `${folder}/${name}`;
  if (existsSync(path)) yield* createInterface({input: createReadStream(path)});
}

const {passed, faults} = await checks(await load(module), linesIn);
faults.slice(0, 10).forEach((fault) => console.log(fault));
console.log(`${passed} passed, ${faults.length} failed`);
process.exit(faults.length ? 1 : 0);
