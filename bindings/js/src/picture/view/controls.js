// The buttons of a view.

/** @typedef {{text: string, label: string, act: () => void}} Control */

/**
 * @param {Control[]} controls
 * @param {string} label of the group
 * @returns {HTMLElement}
 */
export function controlsOf(controls, label) {
  const group = document.createElement('div');
  group.className = 'picture-controls';
  group.setAttribute('role', 'group');
  group.setAttribute('aria-label', label);
  for (const { text, label: says, act } of controls) group.append(buttonOf(text, says, act));
  return group;
}

/**
 * @param {string} text
 * @param {string} label
 * @param {() => void} act
 * @returns {HTMLButtonElement}
 */
function buttonOf(text, label, act) {
  const button = document.createElement('button');
  button.type = 'button';
  button.textContent = text;
  button.setAttribute('aria-label', label);
  button.title = label;
  button.addEventListener('click', act);
  return button;
}
