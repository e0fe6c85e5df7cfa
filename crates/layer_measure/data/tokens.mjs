import a from "b";
export const c = /d/.test(`${a}`);
