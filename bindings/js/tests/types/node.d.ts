// What src/ uses of Node. (Debian has no types for it.)

declare module 'node:fs/promises' {
  export function readFile(path: URL): Promise<Uint8Array>;
}

declare module 'node:os' {
  const os: { availableParallelism?: () => number; cpus(): unknown[] };
  export default os;
}

declare module 'node:worker_threads' {
  export interface MessagePort {
    on(event: 'message', listener: (message: any) => void): void;
    postMessage(message: any, moved: any[]): void;
  }
  export const parentPort: MessagePort | null;
  export class Worker {
    constructor(script: URL, options: { execArgv: string[] });
    on(event: 'message', listener: (message: any) => void): void;
    on(event: 'error', listener: (error: Error) => void): void;
    on(event: 'exit', listener: () => void): void;
    postMessage(message: any, moved: any[]): void;
    ref(): void;
    unref(): void;
    terminate(): Promise<number>;
  }
}
