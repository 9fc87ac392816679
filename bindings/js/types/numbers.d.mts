/** The exports of the library's instance, as functions of numbers. */
export function ofNumbers(noise: any): Promise<WebAssembly.Exports>;
