// The files that a drop, a paste or a choice brings; of folders, those that are named like tiles.

/** @typedef {{name: string, file: Blob}} Source */

/** Names of files with a tile. */
export const TILE_NAME = /\.(mvt|pbf)(\.gz)?$/i;

/**
 * The order of names, in which numbers count as such: 9 before 10.
 * @param {{name: string}} one
 * @param {{name: string}} other
 */
function byName(one, other) {
  return one.name.localeCompare(other.name, 'en', { numeric: true });
}

/**
 * The files of a file input. Where a folder was chosen, only those named like tiles.
 * @param {FileList} files
 * @returns {Source[]}
 */
export function gatherChosen(files) {
  if (![...files].some((file) => file.webkitRelativePath)) return [...files].map((file) => ({ name: file.name, file }));
  return [...files].map((file) => ({ name: file.webkitRelativePath, file })).filter(({ name }) => TILE_NAME.test(name)).sort(byName);
}

/**
 * The files that were dropped or pasted, also those in folders. The items have to be asked before anything is waited for.
 * @param {DataTransfer} transfer
 * @returns {Promise<Source[]>}
 */
export async function gatherDropped(transfer) {
  const asked = [...transfer.items].filter((item) => item.kind === 'file')
    .map((item) => ({ entry: item.webkitGetAsEntry(), file: item.getAsFile() }));
  /** @type {Source[]} */
  const gathered = [];
  for (const { entry, file } of asked) {
    if (entry && entry.isDirectory) await gatherFolder(/** @type {FileSystemDirectoryEntry} */ (entry), gathered);
    else if (file) gathered.push({ name: file.name, file });
  }
  return gathered;
}

/**
 * @param {FileSystemDirectoryEntry} folder
 * @param {Source[]} gathered to which its tiles and those of its folders are added
 */
async function gatherFolder(folder, gathered) {
  for (const entry of await entriesOf(folder)) {
    if (entry.isDirectory) await gatherFolder(/** @type {FileSystemDirectoryEntry} */ (entry), gathered);
    else if (TILE_NAME.test(entry.name)) gathered.push(await sourceOf(/** @type {FileSystemFileEntry} */ (entry)));
  }
}

/**
 * @param {FileSystemDirectoryEntry} folder
 * @returns {Promise<FileSystemEntry[]>} in the order of their names
 */
async function entriesOf(folder) {
  const reader = folder.createReader();
  const entries = [];
  for (;;) {
    const some = await new Promise((/** @type {(found: FileSystemEntry[]) => void} */ found, failed) => reader.readEntries(found, failed));
    if (!some.length) return entries.sort(byName);
    for (const entry of some) entries.push(entry);
  }
}

/**
 * @param {FileSystemFileEntry} entry
 * @returns {Promise<Source>}
 */
function sourceOf(entry) {
  return new Promise((found, failed) => entry.file((file) => found({ name: entry.fullPath.slice(1), file }), failed));
}
