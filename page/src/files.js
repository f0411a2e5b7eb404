// The files that a user gives: by the button, or dropped on the page. Those in other forms are converted.

import { converted } from "./convert.js";
import { find } from "./dom.js";

/**
 * Calls with each file that is given, once it is read; of files that are given while one is being read with the last one. What it returns forgets the
 * file that is being read.
 * @param {(text: string) => void} say
 * @param {(name: string, file: Uint8Array, note: string) => void} onFile
 */
export function takeFiles(say, onFile) {
  let given = 0;
  const read = async (/** @type {File | undefined} */ file) => {
    if (!file) return;
    const number = ++given;
    say(`${file.name}: reading…`);
    try {
      const taken = await converted(new Uint8Array(await file.arrayBuffer()));
      if (number === given) onFile(file.name, taken.file, taken.note);
    } catch (why) {
      if (number === given) say(`cannot read ${file.name}: ${why instanceof Error ? why.message : why}`);
    }
  };
  /** @type {HTMLInputElement} */
  const input = find("file");
  input.addEventListener("change", () => {
    if (input.files) read(input.files[0]);
    // So that the same file can be chosen again: without a change there is no event.
    input.value = "";
  });
  const over = (/** @type {boolean} */ isOver) => (/** @type {DragEvent} */ event) => {
    event.preventDefault();
    document.body.classList.toggle("over", isOver);
  };
  document.addEventListener("dragover", over(true));
  document.addEventListener("dragleave", over(false));
  document.addEventListener("drop", (event) => {
    over(false)(event);
    if (event.dataTransfer) read(event.dataTransfer.files[0]);
  });
  return () => {
    given++;
  };
}
