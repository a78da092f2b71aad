// The modules are what index.d.ts and picture.d.ts say.
import type * as declared from '../../src/index.js';
import type * as declaredPicture from '../../src/picture.js';
import * as web from '../../src/web.js';
import * as node from '../../src/node.js';
import * as picture from '../../src/picture/index.js';

export const both: (typeof declared)[] = [web, node];
export const pictures: typeof declaredPicture = picture;
