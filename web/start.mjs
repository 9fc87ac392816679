// Compiles the library while the page's other scripts come.
import { load } from '../bindings/js/module.mjs';

load().catch(() => {});    // app.mjs reports the error
