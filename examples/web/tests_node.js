/** node tests_node.js: runs the tests in node, over vemiktag.wasm and cases.json beside it. */

import { readFile } from "node:fs/promises";
import { testAll } from "./tests.js";

const [wasm, cases] = await Promise.all(["vemiktag.wasm", "cases.json"].map((name) => readFile(new URL(name, import.meta.url))));
await testAll(await WebAssembly.compile(wasm), JSON.parse(cases), (line) => console.log(`node: ${line}`));
