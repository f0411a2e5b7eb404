// The page and its workers are this one script: a worker has no document.

import { App } from "./app.js";
import { Library } from "./library.js";
import { find } from "./dom.js";
import { serve } from "./jobs.js";

/**
 * What the page carries, as base64 of gzip.
 * @param {string} id
 */
async function unpacked(id) {
  const packed = Uint8Array.from(atob((find(id).textContent || "").trim()), (character) => character.charCodeAt(0));
  const stream = new Blob([packed]).stream().pipeThrough(new DecompressionStream("gzip"));
  return new Uint8Array(await new Response(stream).arrayBuffer());
}

async function start() {
  try {
    const [code, veth, options] = await Promise.all(["module", "example", "options"].map(unpacked)), module = await WebAssembly.compile(code);
    // A worker that is made of a text needs no file beside the page.
    const script = URL.createObjectURL(new Blob([find("script").textContent || ""], { type: "text/javascript" }));
    new App(new Library(module), () => new Worker(script), new Map([["", veth], ["options", options]])).start();
    document.body.dataset.ready = "yes";
    performance.mark("ready");
  } catch (why) {
    find("about").textContent = `This browser cannot run the library: ${why instanceof Error ? why.message : why}.`;
    throw why;
  }
}

if (typeof document === "undefined") serve();
else start();
