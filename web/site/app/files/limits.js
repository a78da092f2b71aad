// What the page takes at most.

/** The bytes of a tile, packed or not: the limit of the program `mvtgate`. */
export const TILE_LIMIT = 67108864;

/** The bytes of a tile whose content is listed and drawn: its record is some four times as large, and is kept as objects. */
export const RECORD_LIMIT = 4 << 20;

/** The bytes that a link carries, packed or not: longer addresses don't survive mail and chat. */
export const LINK_LIMIT = 16 << 10;
