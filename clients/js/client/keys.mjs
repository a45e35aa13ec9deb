// What makes objects that the Standard gives no constructor for.

export const KEY = Symbol("key");

export function checkKey(key) {
  if (key !== KEY) throw new TypeError("Illegal constructor");
}
