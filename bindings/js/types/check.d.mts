/** What the library finds, with the number of include/noise.h as `code`, and its name. */
export function checkPattern(text: any): {
    valid: boolean;
    messages: any;
} | {
    line: any;
    valid: boolean;
    code: any;
    name: string;
    messages?: undefined;
} | {
    rule: any;
    message: any;
    token: any;
    valid: boolean;
    code: any;
    name: string;
    messages?: undefined;
};
