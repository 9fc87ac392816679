/** The library that `load` has made. */
export function library(): any;
/** Frees places, each with its kind, once nobody has an object any more, unless it lets go of them before. */
export function freeLater(object: any, places: any): void;
export function letGo(object: any): void;
/**
 * Whether this engine runs WebAssembly with 64-bit memory, which the module that `load()` takes doesn't have: one
 * of nothing but such a memory is tried.
 */
export function hasMemory64(): boolean;
/**
 * Loads the module, once: later calls do nothing. Without an argument it is noise_c.wasm beside this file, which
 * has 32-bit memory: one that was changed is refused. Of a source that is passed nothing is compared, and an address
 * that is relative counts from here. It throws what `fetch`, reading a file and
 * WebAssembly throw, as a CompileError for a module with 64-bit memory where the engine has none.
 * @param {string | { readonly href: string } | ArrayBuffer | ArrayBufferView} [source]
 * @returns {Promise<void>}
 */
export function load(source?: string | ArrayBuffer | ArrayBufferView | {
    readonly href: string;
} | undefined): Promise<void>;
