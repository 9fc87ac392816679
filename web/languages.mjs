// The languages of the programs, which are loaded when they come into view.
export const LANGUAGES = ['C', 'Go', 'Rust', 'JavaScript', 'Python'];
