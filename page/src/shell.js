// Keys, menus and faults that belong to no part of the page.

import { Stopped } from "./memory.js";
import { find } from "./dom.js";

/** After so many milliseconds work that goes on can be stopped. */
const SLOW = 200;

/**
 * Calls with each key that is typed in no field. Where the focus is in a part that scrolls sideways, the keys are of that part.
 * @param {(key: string) => boolean} takesKey
 */
export function takeKeys(takesKey) {
  document.addEventListener("keydown", (event) => {
    const { target } = event, isTyped = target instanceof HTMLElement && target.matches("input:not([type=checkbox]), textarea, select");
    if (isTyped || event.ctrlKey || event.altKey || event.metaKey) return;
    const part = target instanceof Element && target.closest("[tabindex]:not(.by-steps)");
    if (part && part.scrollWidth > part.clientWidth) return;
    if (takesKey(event.key)) event.preventDefault();
  });
}

/**
 * Calls when the library stopped in a call of the page's own. It has been started anew by then.
 * @param {(why: Stopped) => void} onTrap
 */
export function takeTraps(onTrap) {
  const take = (/** @type {Event} */ event, /** @type {unknown} */ why) => {
    if (!(why instanceof Stopped)) return;
    event.preventDefault();
    onTrap(why);
  };
  window.addEventListener("error", (event) => take(event, event.error));
  window.addEventListener("unhandledrejection", (event) => take(event, event.reason));
}

/** Closes a menu when something is chosen in it, when the focus leaves it, and on Escape, which brings the focus back to its button. */
export function closeMenus() {
  document.querySelectorAll("details").forEach((menu) => {
    const close = () => menu.removeAttribute("open"), button = /** @type {HTMLElement} */ (menu.querySelector("summary"));
    menu.addEventListener("focusout", (event) => {
      const { relatedTarget } = /** @type {FocusEvent} */ (event);
      if (relatedTarget instanceof Node && !menu.contains(relatedTarget)) close();
    });
    document.addEventListener("click", ({ target }) => {
      const isInside = target instanceof Element && menu.contains(target);
      if (!isInside || target.closest("a, button")) close();
    });
    menu.addEventListener("keydown", (event) => {
      if (/** @type {KeyboardEvent} */ (event).key !== "Escape" || !menu.hasAttribute("open")) return;
      close();
      button.focus();
    });
  });
}

/** On a narrow screen parts of the page are tabs. */
export function takeTabs() {
  const buttons = /** @type {NodeListOf<HTMLElement>} */ (document.querySelectorAll("button[data-tab]"));
  buttons.forEach((chosen) => chosen.addEventListener("click", () => {
    find("filters").dataset.tab = chosen.dataset.tab;
    buttons.forEach((button) => button.setAttribute("aria-pressed", String(button === chosen)));
  }));
}

/**
 * Shows a button that stops work, if it takes long.
 * @template T
 * @param {Promise<T>} work
 */
export async function stoppable(work) {
  const button = find("stop-packets"), slow = setTimeout(() => (button.hidden = false), SLOW);
  try {
    return await work;
  } finally {
    clearTimeout(slow);
    button.hidden = true;
  }
}
