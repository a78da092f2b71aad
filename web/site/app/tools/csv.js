// Rows as CSV (RFC 4180).

/** @param {(string|number)[][]} rows the first one has the names of the columns */
export function csvText(rows) {
  return rows.map((row) => `${row.map(cellOf).join(',')}\r\n`).join('');
}

/**
 * A name as a text that spreadsheets don't take for a formula: whoever made the tile or the file chose it.
 * @param {string} name
 */
export function plain(name) {
  return /^[=+\-@\t\r]/.test(name) ? `'${name}` : name;
}

/** @param {string|number} content */
function cellOf(content) {
  const text = String(content);
  return /[",\r\n]/.test(text) ? `"${text.replaceAll('"', '""')}"` : text;
}
